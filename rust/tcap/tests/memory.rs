//! Memory that is refused: `OutOfMemory`, nothing has changed, and the same call again succeeds. A test of its own, since
//! requests are counted for the whole process.

#![cfg(feature = "refusing")]

use tcap::{refusing, Code, Engine, Error, Invoke, Limits, Output, Portion};

/// Makes a call, and once more where memory was refused.
fn again<T>(refusals: &mut u32, call: impl Fn() -> Result<T, Error>) -> T {
    match call() {
        Err(Error::OutOfMemory) => {
            *refusals += 1;
            call().unwrap()
        }
        other => other.unwrap(),
    }
}

/// A dialogue, and how often memory was refused in it.
fn story() -> u32 {
    let mut refusals = 0;
    let mut engine = again(&mut refusals, || Engine::open(&Limits::default()));
    let dialogue = again(&mut refusals, || engine.new_dialogue());
    let invoke = Invoke::new(1, Code::Local(2), 5000).with(&[4, 1, 0xaa]);
    assert_eq!(again(&mut refusals, || engine.invoke(dialogue, &invoke)), 1);
    again(&mut refusals, || engine.begin(0, dialogue, b"hlr", Portion::of(&[0x2a, 3])));
    let abort = [0x67, 6, 0x49, 4, 0, 0, 0, dialogue as u8];
    again(&mut refusals, || engine.receive(1, b"hlr", &abort));
    let mut told = 0;
    while let Some(waiting) = engine.next_output() {
        told += 1;
        match (told, waiting.output) {
            (1, Output::Send { .. }) | (2, Output::UAbortInd { .. }) | (3, Output::ClosedInd { .. }) => {}
            other => panic!("{:?}", other),
        }
    }
    assert_eq!(told, 3);
    refusals
}

#[test]
fn each_request_refused_once() {
    refusing::refuse(0..0);
    assert_eq!((story(), refusing::live()), (0, 0)); // an engine that is dropped gives all its memory back
    let requests = refusing::asked();
    assert!(requests > 10);
    let mut refused = 0;
    for nth in 0..requests {
        refusing::refuse(nth..nth + 1);
        refused += u64::from(story());
        assert_eq!(refusing::live(), 0);
    }
    // An engine does without two places for what dialogues leave.
    assert!(refused <= requests && requests - refused <= 2);
}
