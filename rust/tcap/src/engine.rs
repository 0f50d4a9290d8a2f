//! An engine.

use crate::error::Error;
use crate::output::{output_of, Output};
use crate::values::{AbortReason, Code, Invoke, Portion, State, Termination};
use tcap_sys::{tcap_limits, GivenCode, GivenPortion, Handle};

/// What an engine keeps to. End with `..Limits::default()`: a newer library may have more.
#[derive(Clone, Copy, Debug, PartialEq, Eq)]
pub struct Limits {
    /// How many dialogues may stand, 1 to 65,535.
    pub max_dialogues: u32,
    /// How many octets the layer below carries, 1 to 65,535: a request whose message is longer is refused.
    pub max_message: u32,
    /// How long an invoke identifier waits for a Reject: milliseconds, at most 2^62.
    pub reject_ms: u64,
    /// How long a dialogue may stand still: milliseconds, at most 2^62; 0: for ever.
    pub idle_ms: u64,
    /// The identifier of the first dialogue, not 0: another range for each engine behind one address.
    pub first_dialogue: u32,
    /// The number of the first invocation, not 0.
    pub first_number: u64,
}

impl Default for Limits {
    fn default() -> Limits {
        Limits {
            max_dialogues: 65535,
            max_message: 65535,
            reject_ms: 1000,
            idle_ms: 600_000,
            first_dialogue: 1,
            first_number: 1,
        }
    }
}

/// An output that waited, and the engine for requests while it is looked at.
#[derive(Clone, Copy, Debug)]
#[non_exhaustive]
pub struct Waiting<'e> {
    /// Which event told it, from 1.
    pub event: u64,
    /// The last output of its event.
    pub is_last: bool,
    /// It closes the invocation that it names, and no later output names it.
    pub closes: bool,
    /// The output.
    pub output: Output<'e>,
    /// The engine: every call but [`Engine::next_output`].
    pub engine: &'e Engine,
}

/// An engine, and what waits to be sent and told.
///
/// Requests take it by `&`, since they may be made while an output is looked at; the next output takes it by `&mut`. It
/// may go from one thread to another, and isn't shared between them:
///
/// ```
/// fn is_send<T: Send>() {}
/// is_send::<tcap::Engine>();
/// ```
/// ```compile_fail,E0277
/// fn is_sync<T: Sync>() {}
/// is_sync::<tcap::Engine>();
/// ```
///
/// An output doesn't outlive the next:
///
/// ```compile_fail,E0499
/// # let mut engine = tcap::Engine::open(&tcap::Limits::default()).unwrap();
/// let first = engine.next_output();
/// let second = engine.next_output();
/// println!("{:?}", first);
/// ```
///
/// Moments are milliseconds by any clock that doesn't go back, at most 2^62. Octets that may be absent are `Option`s, and
/// aren't empty: [`Error::BadArgument`]. Each request may be refused by [`Error::UnknownDialogue`].
#[derive(Debug)]
pub struct Engine {
    handle: Handle,
}

/// The octets of a context or parameter; empty where there is none.
fn given(octets: Option<&[u8]>) -> Result<&[u8], Error> {
    match octets {
        None => Ok(&[]),
        Some([]) => Err(Error::BadArgument),
        Some(octets) => Ok(octets),
    }
}

fn code(of: Code<'_>) -> GivenCode<'_> {
    match of {
        Code::Local(local) => GivenCode::Local(local),
        Code::Global(global) => GivenCode::Global(global),
    }
}

fn portion(of: Portion<'_>) -> Result<GivenPortion<'_>, Error> {
    Ok(GivenPortion { context: given(of.context)?, info: of.info })
}

/// # What happens
impl Engine {
    /// Opens an engine with clock 0 and no dialogues. [`Error::BadArgument`]: a limit is out of its range.
    /// `OutOfMemory`, `OtherLibrary`.
    pub fn open(limits: &Limits) -> Result<Engine, Error> {
        let limits = tcap_limits {
            size: std::mem::size_of::<tcap_limits>(),
            max_dialogues: limits.max_dialogues,
            max_message: limits.max_message,
            reject_ms: limits.reject_ms,
            idle_ms: limits.idle_ms,
            first_dialogue: limits.first_dialogue,
            first_number: limits.first_number,
        };
        let handle = Handle::open(&limits).map_err(Error::of)?;
        Ok(Engine { handle })
    }

    /// A message was received from an address, 0 to 255 octets. `MomentTooLate`, `OutOfMemory`.
    pub fn receive(&self, now_ms: u64, from: &[u8], message: &[u8]) -> Result<(), Error> {
        self.handle.receive(now_ms, from, message).map_err(Error::of)
    }

    /// Time has come so far: what is due is told. `MomentTooLate`, `OutOfMemory`.
    pub fn advance(&self, now_ms: u64) -> Result<(), Error> {
        self.handle.advance(now_ms).map_err(Error::of)
    }

    /// A new dialogue, in which nothing has happened: its identifier. `DialoguesFull`, `DialogueIdsSpent`, `OutOfMemory`.
    pub fn new_dialogue(&self) -> Result<u32, Error> {
        self.handle.new_dialogue().map_err(Error::of)
    }
}

/// # Component handling: a component is queued, and the next request of dialogue handling sends it
impl Engine {
    /// TC-INVOKE request: its number, by which outputs name the invocation. `BadTimeout`, `BadOid`, `BadParameter`,
    /// `InvokeIdInUse`, `NumbersSpent`, `TooLong`, `OutOfMemory`.
    pub fn invoke(&self, dialogue: u32, invoke: &Invoke<'_>) -> Result<u64, Error> {
        let parameter = given(invoke.parameter)?;
        let (id, linked, class) = (invoke.invoke_id, invoke.linked_id, invoke.class as u8);
        let operation = code(invoke.operation);
        self.handle.invoke(dialogue, id, linked, class, operation, parameter, invoke.timeout_ms).map_err(Error::of)
    }

    /// TC-RESULT-L request: the last or only result. `operation`: `None` where there is no parameter. `WrongState`,
    /// `BadOid`, `BadParameter`, `TooLong`, `OutOfMemory`.
    pub fn result_l(
        &self,
        dialogue: u32,
        invoke_id: i8,
        operation: Option<Code<'_>>,
        parameter: Option<&[u8]>,
    ) -> Result<(), Error> {
        let operation = operation.map_or(GivenCode::None, code);
        self.handle.result_l(dialogue, invoke_id, operation, given(parameter)?).map_err(Error::of)
    }

    /// TC-RESULT-NL request: a result that others follow. As [`Engine::result_l`].
    pub fn result_nl(
        &self,
        dialogue: u32,
        invoke_id: i8,
        operation: Option<Code<'_>>,
        parameter: Option<&[u8]>,
    ) -> Result<(), Error> {
        let operation = operation.map_or(GivenCode::None, code);
        self.handle.result_nl(dialogue, invoke_id, operation, given(parameter)?).map_err(Error::of)
    }

    /// TC-U-ERROR request: an Invoke of the peer failed. `WrongState`, `BadOid`, `BadParameter`, `TooLong`,
    /// `OutOfMemory`.
    pub fn u_error(
        &self,
        dialogue: u32,
        invoke_id: i8,
        error: Code<'_>,
        parameter: Option<&[u8]>,
    ) -> Result<(), Error> {
        self.handle.u_error(dialogue, invoke_id, code(error), given(parameter)?).map_err(Error::of)
    }

    /// TC-U-REJECT request: a component of the peer is rejected, `None` where its identifier isn't known. `WrongState`,
    /// `TooLong`, `OutOfMemory`.
    pub fn u_reject(&self, dialogue: u32, invoke_id: Option<i8>, problem: u16) -> Result<(), Error> {
        self.handle.u_reject(dialogue, invoke_id, problem).map_err(Error::of)
    }

    /// TC-U-CANCEL request: an invocation of this side is given up: its number. `NoSuchInvocation`.
    pub fn u_cancel(&self, dialogue: u32, invoke_id: i8) -> Result<u64, Error> {
        self.handle.u_cancel(dialogue, invoke_id).map_err(Error::of)
    }
}

/// # Dialogue handling: sends what is queued
///
/// `MomentTooLate`, `WrongState`, `BadOid`, `BadParameter`, `NoContext`, `TooLong`, `OutOfMemory`.
impl Engine {
    /// TC-UNI request: a Unidirectional to an address, 0 to 255 octets, and the dialogue is over. `NotClassFour`.
    pub fn uni(&self, now_ms: u64, dialogue: u32, to: &[u8], with: Portion<'_>) -> Result<(), Error> {
        self.handle.uni(now_ms, dialogue, to, portion(with)?).map_err(Error::of)
    }

    /// TC-BEGIN request: a Begin to an address, 0 to 255 octets, which the dialogue keeps.
    pub fn begin(&self, now_ms: u64, dialogue: u32, to: &[u8], with: Portion<'_>) -> Result<(), Error> {
        self.handle.begin(now_ms, dialogue, to, portion(with)?).map_err(Error::of)
    }

    /// TC-CONTINUE request. A context and user information only in the first answer to a Begin that has a context; where
    /// that answer names none, it has that of the Begin.
    pub fn go_on(&self, now_ms: u64, dialogue: u32, with: Portion<'_>) -> Result<(), Error> {
        self.handle.go_on(now_ms, dialogue, portion(with)?).map_err(Error::of)
    }

    /// TC-END request, basic: the dialogue is over, and each invocation that was open is told by
    /// [`Output::ClosedInd`]. Of context and user information as [`Engine::go_on`].
    pub fn end(&self, now_ms: u64, dialogue: u32, with: Portion<'_>) -> Result<(), Error> {
        self.finish(now_ms, dialogue, Termination::Basic, with)
    }

    /// TC-END request, of either kind; none has context or user information where it is prearranged.
    pub fn finish(&self, now_ms: u64, dialogue: u32, how: Termination, with: Portion<'_>) -> Result<(), Error> {
        self.handle.end(now_ms, dialogue, how as u8, portion(with)?).map_err(Error::of)
    }

    /// TC-U-ABORT request: the dialogue is over, and each invocation that was open is told by [`Output::ClosedInd`]. An
    /// Abort is sent if the peer knows the dialogue.
    pub fn u_abort(&self, now_ms: u64, dialogue: u32, reason: AbortReason, info: &[u8]) -> Result<(), Error> {
        self.handle.u_abort(now_ms, dialogue, reason as u8, info).map_err(Error::of)
    }
}

/// # What is to be sent and told, and what is seen
impl Engine {
    /// The output that comes next, which waits no longer; `None` where nothing waits.
    pub fn next_output(&mut self) -> Option<Waiting<'_>> {
        if !self.handle.pop() {
            return None;
        }
        let engine: &Engine = self;
        engine.handle.popped().map(|of| Waiting {
            event: of.event,
            is_last: of.is_last != 0,
            closes: of.closes != 0,
            output: output_of(of),
            engine,
        })
    }

    /// The moment for the next [`Engine::advance`]; `None` where no timer runs.
    pub fn next_timer(&self) -> Option<u64> {
        self.handle.next_timer()
    }

    /// The state of the dialogue with this identifier.
    pub fn state_of(&self, dialogue: u32) -> State {
        State::of(self.handle.state_of(dialogue))
    }

    /// How many dialogues stand.
    pub fn dialogues(&self) -> usize {
        self.handle.dialogues()
    }

    /// For how many outputs [`Engine::advance`] finds room at this moment: 0 where it tells nothing, and else at least as
    /// many as it tells.
    pub fn due(&self, now_ms: u64) -> usize {
        self.handle.due(now_ms)
    }

    /// The identifier of the next dialogue and the number of the next invocation: keep them to open the next engine where
    /// this one left off.
    pub fn next_identifiers(&self) -> (u32, u64) {
        self.handle.next_identifiers()
    }
}

/// tcap.h says of what is due no more than a bound, so that what C answers is what is handed on.
#[test]
fn what_is_due_is_handed_on() {
    let engine = Engine::open(&Limits::default()).unwrap();
    let dialogue = engine.new_dialogue().unwrap();
    for invoke_id in 1..=2 {
        engine.invoke(dialogue, &Invoke::new(invoke_id, Code::Local(1), 9)).unwrap();
    }
    engine.begin(0, dialogue, b"B", Portion::default()).unwrap();
    assert!(engine.due(9) >= 2);
    assert_eq!((engine.due(8), engine.due(9)), (0, engine.handle.due(9)));
}
