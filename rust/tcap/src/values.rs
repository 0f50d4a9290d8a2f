//! The numbers of tcap.h by their names, and what requests are made of.

/// The code of an operation or of an error (Q.773, Operation Code, Error Code).
#[derive(Clone, Copy, Debug, PartialEq, Eq, Hash)]
pub enum Code<'a> {
    /// A local value.
    Local(i32),
    /// A global value: the contents octets of an object identifier, 1 to 255.
    Global(&'a [u8]),
}

/// The operation classes: which outcomes are reported (Q.771).
#[derive(Clone, Copy, Debug, PartialEq, Eq, Hash)]
pub enum Class {
    /// Success and failure.
    One = 1,
    /// Failure only.
    Two = 2,
    /// Success only.
    Three = 3,
    /// Neither.
    Four = 4,
}

/// An Invoke to be sent.
#[derive(Clone, Copy, Debug)]
pub struct Invoke<'a> {
    /// Its invoke identifier.
    pub invoke_id: i8,
    /// That of the peer's Invoke to which it is linked.
    pub linked_id: Option<i8>,
    /// Its operation class.
    pub class: Class,
    /// Its operation.
    pub operation: Code<'a>,
    /// The octets of one BER element.
    pub parameter: Option<&'a [u8]>,
    /// How long it may take, from the moment at which it is sent: milliseconds, 1 to 2^62.
    pub timeout_ms: u64,
}

impl<'a> Invoke<'a> {
    /// One of class 1 with no parameter, linked to none.
    pub fn new(invoke_id: i8, operation: Code<'a>, timeout_ms: u64) -> Invoke<'a> {
        Invoke { invoke_id, linked_id: None, class: Class::One, operation, parameter: None, timeout_ms }
    }

    /// The same with a parameter.
    pub fn with(self, parameter: &'a [u8]) -> Invoke<'a> {
        Invoke { parameter: Some(parameter), ..self }
    }
}

/// What the dialogue portion of a message has for the user (Q.771, Dialogue handling).
#[derive(Clone, Copy, Debug, Default, PartialEq, Eq, Hash)]
pub struct Portion<'a> {
    /// Application context name: contents octets of its object identifier.
    pub context: Option<&'a [u8]>,
    /// User information: EXTERNALs one after the other; empty: absent.
    pub info: &'a [u8],
}

impl<'a> Portion<'a> {
    /// A context alone.
    pub fn of(context: &'a [u8]) -> Portion<'a> {
        Portion { context: Some(context), info: &[] }
    }
}

/// How far a dialogue is (Q.774, Transaction state machine).
#[derive(Clone, Copy, Debug, PartialEq, Eq, Hash)]
#[non_exhaustive]
pub enum State {
    /// None stands.
    Unknown,
    /// New: nothing was sent.
    Idle,
    /// A Begin was sent.
    InitiationSent,
    /// A Begin was received, and nothing was sent.
    InitiationReceived,
    /// A Continue was sent or received.
    Active,
    /// A state of a newer library, by its number there.
    Other(i32),
}

impl State {
    /// The state of a number of tcap.h.
    pub(crate) fn of(number: i32) -> State {
        match number {
            0 => State::Unknown,
            1 => State::Idle,
            2 => State::InitiationSent,
            3 => State::InitiationReceived,
            4 => State::Active,
            other => State::Other(other),
        }
    }
}

/// How a dialogue ends (Q.771, Dialogue end).
#[derive(Clone, Copy, Debug, PartialEq, Eq, Hash)]
pub enum Termination {
    /// An End is sent.
    Basic = 0,
    /// Nothing is sent: the peer ends it by itself.
    Prearranged = 1,
}

/// Why the user aborts (Q.771, Abort by the user).
#[derive(Clone, Copy, Debug, PartialEq, Eq, Hash)]
pub enum AbortReason {
    /// A reason of its own, in the user information.
    UserSpecific = 0,
    /// It doesn't support the application context of the Begin.
    ContextNotSupported = 1,
}

/// Why a message was dropped (own).
#[derive(Clone, Copy, Debug, PartialEq, Eq, Hash)]
#[non_exhaustive]
pub enum DropCause {
    /// It is above 65,535 octets.
    TooLong,
    /// It can't be read, nor answered.
    BadMessage,
    /// It is an End or an Abort to a dialogue that doesn't stand.
    NoDialogue,
    /// It is a Unidirectional whose dialogue portion is abnormal.
    BadDialogue,
    /// A cause of a newer library, by its number there.
    Other(u16),
}

/// Problems of a Reject: 256 times the kind, and the code, 0 to 127 (Q.773, Problem).
#[allow(missing_docs)]
pub mod problem {
    pub const GENERAL_UNRECOGNIZED_COMPONENT: u16 = 0x000;
    pub const GENERAL_MISTYPED_COMPONENT: u16 = 0x001;
    pub const GENERAL_BADLY_STRUCTURED_COMPONENT: u16 = 0x002;
    pub const INVOKE_DUPLICATE_INVOKE_ID: u16 = 0x100;
    pub const INVOKE_UNRECOGNIZED_OPERATION: u16 = 0x101;
    pub const INVOKE_MISTYPED_PARAMETER: u16 = 0x102;
    pub const INVOKE_RESOURCE_LIMITATION: u16 = 0x103;
    pub const INVOKE_INITIATING_RELEASE: u16 = 0x104;
    pub const INVOKE_UNRECOGNIZED_LINKED_ID: u16 = 0x105;
    pub const INVOKE_LINKED_RESPONSE_UNEXPECTED: u16 = 0x106;
    pub const INVOKE_UNEXPECTED_LINKED_OPERATION: u16 = 0x107;
    pub const RESULT_UNRECOGNIZED_INVOKE_ID: u16 = 0x200;
    pub const RESULT_RETURN_RESULT_UNEXPECTED: u16 = 0x201;
    pub const RESULT_MISTYPED_PARAMETER: u16 = 0x202;
    pub const ERROR_UNRECOGNIZED_INVOKE_ID: u16 = 0x300;
    pub const ERROR_RETURN_ERROR_UNEXPECTED: u16 = 0x301;
    pub const ERROR_UNRECOGNIZED_ERROR: u16 = 0x302;
    pub const ERROR_UNEXPECTED_ERROR: u16 = 0x303;
    pub const ERROR_MISTYPED_PARAMETER: u16 = 0x304;
}

/// Why the provider aborted: 0 to 255 as received (Q.773, P-Abort cause); above that, own.
#[allow(missing_docs)]
pub mod abort_cause {
    pub const UNRECOGNIZED_MESSAGE_TYPE: u16 = 0;
    pub const UNRECOGNIZED_TRANSACTION_ID: u16 = 1;
    pub const BADLY_FORMATTED_TRANSACTION_PORTION: u16 = 2;
    pub const INCORRECT_TRANSACTION_PORTION: u16 = 3;
    pub const RESOURCE_LIMITATION: u16 = 4;
    pub const ABNORMAL_DIALOGUE: u16 = 256;
    pub const NO_COMMON_DIALOGUE: u16 = 257;
    pub const IDLE: u16 = 258;
}

/// The result source diagnostic of an AARE: that of the user, or 256 more that of the provider.
#[allow(missing_docs)]
pub mod diagnostic {
    pub const USER_NULL: u16 = 0;
    pub const USER_NO_REASON: u16 = 1;
    pub const USER_CONTEXT_NOT_SUPPORTED: u16 = 2;
    pub const PROVIDER_NULL: u16 = 256;
    pub const PROVIDER_NO_REASON: u16 = 257;
    pub const PROVIDER_NO_COMMON_DIALOGUE: u16 = 258;
}

#[test]
fn a_state_of_a_newer_library_is_told() {
    assert_eq!([0, 4, 5, -1].map(State::of), [State::Unknown, State::Active, State::Other(5), State::Other(-1)]);
}
