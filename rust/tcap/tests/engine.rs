//! What the crate adds to the library: outputs as an enum, errors as one, threads, octets that are absent.

use tcap::{
    abort_cause, diagnostic, problem, AbortReason, Class, Code, DropCause, Engine, Error, Invoke, Limits, Output, Pdu,
    Portion, State, Termination, Waiting,
};

const CONTEXT: &[u8] = &[0x04, 0x00, 0x00, 0x01, 0x00, 0x01, 0x03];

fn engine(first_dialogue: u32) -> Engine {
    Engine::open(&Limits { first_dialogue, ..Limits::default() }).unwrap()
}

/// Carries what waits at one to the other, and returns what was told, as text.
fn carry(from: &mut Engine, to: &Engine) -> Vec<String> {
    let mut told = Vec::new();
    while let Some(Waiting { output, closes, .. }) = from.next_output() {
        match output {
            Output::Send { message, .. } => to.receive(0, b"peer", message).unwrap(),
            other => told.push(format!("{:?}{}", other, if closes { " closes" } else { "" })),
        }
    }
    told
}

#[test]
fn results_errors_and_rejects_are_told() {
    let (mut a, mut b) = (engine(1), engine(7));
    let d = a.new_dialogue().unwrap();
    let numbers: Vec<u64> =
        (1..=4).map(|id| a.invoke(d, &Invoke::new(id, Code::Global(&[0x2a, 3]), 9)).unwrap()).collect();
    assert_eq!(numbers, [1, 2, 3, 4]);
    a.begin(0, d, b"b", Portion::of(CONTEXT)).unwrap();
    assert!(carry(&mut a, &b).is_empty());
    let mut asked = 0;
    while let Some(Waiting { engine, output, .. }) = b.next_output() {
        match output {
            Output::BeginInd { dialogue: 7, portion } => assert_eq!(portion, Portion::of(CONTEXT)),
            Output::InvokeInd { dialogue: Some(7), invoke_id, linked_id: None, code, parameter: None } => {
                asked += 1;
                match invoke_id {
                    1 => engine.result_nl(7, 1, Some(code), Some(&[4, 0])).unwrap(),
                    2 => engine.u_error(7, 2, Code::Local(-1), None).unwrap(),
                    3 => engine.u_reject(7, Some(3), problem::INVOKE_MISTYPED_PARAMETER).unwrap(),
                    _ => engine.result_l(7, 4, None, None).unwrap(),
                }
            }
            other => panic!("{:?}", other),
        }
    }
    assert_eq!((asked, b.state_of(7)), (4, State::InitiationReceived));
    b.go_on(0, 7, Portion::default()).unwrap();
    assert!(carry(&mut b, &a).is_empty());
    let of = |id: u8| format!("dialogue: 1, number: {}, invoke_id: {}", id, id);
    assert_eq!(
        carry(&mut a, &b),
        [
            format!("ContinueInd {{ dialogue: 1, portion: {:?} }}", Portion::of(CONTEXT)),
            format!("ResultNLInd {{ {}, code: Some(Global([42, 3])), parameter: Some([4, 0]) }}", of(1)),
            format!("UErrorInd {{ {}, code: Local(-1), parameter: None }} closes", of(2)),
            "URejectInd { dialogue: Some(1), invoke_id: Some(3), problem: 258, number: Some(3) } closes".to_string(),
            format!("ResultLInd {{ {}, code: None, parameter: None }} closes", of(4)),
        ]
    );
}

#[test]
fn aborts_drops_and_timers_are_told() {
    let (mut a, mut b) = (engine(1), engine(7));
    let d = a.new_dialogue().unwrap();
    a.invoke(d, &Invoke { class: Class::Two, ..Invoke::new(-128, Code::Local(1), 50) }).unwrap();
    a.begin(0, d, b"b", Portion::of(CONTEXT)).unwrap();
    carry(&mut a, &b);
    assert_eq!((a.next_timer(), a.due(49)), (Some(50), 0));
    while b.next_output().is_some() {}
    b.u_abort(0, 7, AbortReason::ContextNotSupported, &[]).unwrap();
    carry(&mut b, &a);
    {
        let Waiting { output, is_last, .. } = a.next_output().unwrap();
        let pdu = match output {
            Output::UAbortInd { dialogue: 1, pdu } => pdu,
            other => panic!("{:?}", other),
        };
        let diagnostic = diagnostic::USER_CONTEXT_NOT_SUPPORTED;
        let portion = Portion::of(CONTEXT);
        assert_eq!(pdu, Some(Pdu::Aare { portion, is_version1: true, is_accepted: false, diagnostic }));
        assert!(!is_last);
    }
    let closed = a.next_output().unwrap();
    assert_eq!(closed.output, Output::ClosedInd { dialogue: 1, number: 1, invoke_id: -128 });
    assert!(closed.closes && closed.is_last);
    a.receive(0, b"", &[0xff, 0xff]).unwrap();
    assert_eq!(a.next_output().unwrap().output, Output::Dropped { cause: DropCause::BadMessage });
    let d = a.new_dialogue().unwrap();
    a.begin(0, d, b"b", Portion::default()).unwrap();
    a.advance(600_000).unwrap();
    a.next_output().unwrap();
    assert_eq!(a.next_output().unwrap().output, Output::PAbortInd { dialogue: d, cause: abort_cause::IDLE });
    assert!(a.next_output().is_none());
}

#[test]
fn events_are_counted() {
    // tcap.h: moments, messages and requests that were accepted, each; one with now_ms is two.
    let mut a = engine(1);
    let d = a.new_dialogue().unwrap(); // 1
    assert_eq!((a.next_timer(), a.due(1 << 62)), (None, 0));
    a.invoke(d, &Invoke::new(1, Code::Local(1), 9)).unwrap(); // 2
    a.begin(0, d, b"B", Portion::default()).unwrap(); // 3, 4
    a.receive(0, b"B", &[0xff]).unwrap(); // 5, 6
    a.receive(0, b"B", &[0x67, 9, 0x49, 4, 0, 0, 0, 1, 0x4a, 1, 9]).unwrap(); // 7, 8
    let mut told = Vec::new();
    while let Some(Waiting { event, is_last, closes, output, .. }) = a.next_output() {
        let is_cause_9 = output == Output::PAbortInd { dialogue: 1, cause: 9 };
        told.push((event, is_last, closes, is_cause_9));
    }
    let rows = [(4, true, false, false), (6, true, false, false), (8, false, false, true), (8, true, true, false)];
    assert_eq!(told, rows);
}

#[test]
fn each_limit_is_kept() {
    // docs/PROFILE.md, Time: an identifier waits for `reject_ms` behind its answer, a dialogue for `idle_ms` behind the
    // last Continue.
    let limits =
        Limits { max_dialogues: 2, max_message: 40, reject_ms: 50, idle_ms: 900, first_dialogue: 7, first_number: 9 };
    let mut a = Engine::open(&limits).unwrap();
    assert_eq!((a.new_dialogue(), a.new_dialogue(), a.new_dialogue()), (Ok(7), Ok(8), Err(Error::DialoguesFull)));
    assert_eq!(a.dialogues(), 2);
    let invoke = Invoke::new(1, Code::Local(1), 100);
    assert_eq!((a.invoke(7, &invoke), a.invoke(8, &invoke.with(&[&[4, 30][..], &[0; 30]].concat()))), (Ok(9), Ok(10)));
    assert_eq!(a.begin(0, 7, b"B", Portion::default()), Ok(()));
    assert_eq!(a.begin(0, 8, b"B", Portion::default()), Err(Error::TooLong));
    a.receive(10, b"B", b"\x65\x13\x48\x04\0\0\0\x05\x49\x04\0\0\0\x07\x6c\x05\xa2\x03\x02\x01\x01").unwrap();
    while a.next_output().is_some() {}
    a.advance(59).unwrap();
    assert_eq!(a.invoke(7, &invoke), Err(Error::InvokeIdInUse));
    a.advance(60).unwrap();
    assert_eq!(a.invoke(7, &invoke), Ok(11));
    a.advance(909).unwrap();
    assert!(a.next_output().is_none());
    a.advance(910).unwrap();
    assert_eq!(a.next_output().unwrap().output, Output::PAbortInd { dialogue: 7, cause: abort_cause::IDLE });
}

#[test]
fn states_and_what_is_absent() {
    let (mut a, mut b) = (engine(1), engine(7));
    let d = a.new_dialogue().unwrap();
    let mut states = vec![a.state_of(d)];
    a.begin(0, d, b"b", Portion::default()).unwrap();
    states.push(a.state_of(d));
    carry(&mut a, &b);
    assert_eq!(b.next_output().unwrap().output, Output::BeginInd { dialogue: 7, portion: Portion::default() });
    states.push(b.state_of(7));
    b.go_on(0, 7, Portion::default()).unwrap();
    states.push(b.state_of(7));
    b.end(0, 7, Portion::default()).unwrap();
    states.push(b.state_of(7));
    let named = [State::Idle, State::InitiationSent, State::InitiationReceived, State::Active, State::Unknown];
    assert_eq!((states, b.dialogues()), (named.to_vec(), 0));
}

#[test]
fn each_drop_has_its_cause() {
    // docs/PROFILE.md, Reception; the dialogue portion of a Unidirectional is an AUDT, not the AARQ that this one has.
    let aarq = [
        0x6b, 0x1e, 0x28, 0x1c, 6, 7, 0, 0x11, 0x86, 5, 1, 1, 1, 0xa0, 0x11, 0x60, 0x0f, 0x80, 2, 7, 0x80, 0xa1, 9, 6,
        7, 4, 0, 0, 1, 0, 1, 3,
    ];
    let invoke = [0x6c, 0x0d, 0xa1, 0x0b, 2, 1, 1, 2, 1, 2, 0x30, 3, 4, 1, 0xaa];
    let rows: [(Vec<u8>, DropCause); 4] = [
        (vec![0; 65_536], DropCause::TooLong),
        (vec![0xff, 0xff], DropCause::BadMessage),
        (vec![0x64, 6, 0x49, 4, 0, 0, 0, 9], DropCause::NoDialogue),
        ([&[0x61, 0x2f][..], &aarq, &invoke].concat(), DropCause::BadDialogue),
    ];
    let mut a = engine(1);
    for (message, cause) in rows {
        a.receive(0, b"B", &message).unwrap();
        assert_eq!(a.next_output().unwrap().output, Output::Dropped { cause });
    }
}

#[test]
fn refusals_are_errors_with_their_status() {
    let a = engine(1);
    let d = a.new_dialogue().unwrap();
    let invoke = Invoke::new(1, Code::Local(1), 1);
    let rows: [(Result<u64, Error>, Error, i32); 8] = [
        (a.invoke(9, &invoke), Error::UnknownDialogue, 2),
        (a.go_on(0, d, Portion::default()).map(|()| 0), Error::WrongState, 3),
        (a.u_cancel(d, 1), Error::NoSuchInvocation, 5),
        (a.invoke(d, &Invoke { timeout_ms: 0, ..invoke }), Error::BadTimeout, 6),
        (a.invoke(d, &Invoke { operation: Code::Global(&[0x80]), ..invoke }), Error::BadOid, 11),
        (a.invoke(d, &invoke.with(&[4])), Error::BadParameter, 12),
        (a.finish(u64::MAX, d, Termination::Prearranged, Portion::default()).map(|()| 0), Error::MomentTooLate, 14),
        (a.u_reject(d, None, 0x400).map(|()| 0), Error::BadArgument, 16),
    ];
    for (answered, error, status) in rows {
        assert_eq!((answered, error.status()), (Err(error), status));
        assert!(!error.to_string().is_empty());
    }
    assert_eq!(a.next_identifiers(), (2, 1));
}

#[test]
fn octets_that_may_be_absent_are_not_empty() {
    let a = engine(1);
    let d = a.new_dialogue().unwrap();
    assert_eq!(a.invoke(d, &Invoke::new(1, Code::Local(1), 1).with(&[])), Err(Error::BadArgument));
    assert_eq!(a.begin(0, d, &[], Portion::of(&[])), Err(Error::BadArgument));
    assert_eq!(a.begin(0, d, &[], Portion::default()), Ok(()));
}

#[test]
fn an_engine_goes_to_another_thread() {
    let a = engine(1);
    let d = a.new_dialogue().unwrap();
    let a = std::thread::spawn(move || {
        a.begin(0, d, b"b", Portion::default()).unwrap();
        a
    });
    let mut a = a.join().unwrap();
    assert!(matches!(a.next_output().unwrap().output, Output::Send { address: b"b", .. }));
}

#[test]
fn the_library_is_of_this_version() {
    assert!(tcap::library_version() >= (0, 1, 0));
}
