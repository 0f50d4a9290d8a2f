//! Refusals.

use std::fmt;

/// Why a call was refused, which has changed nothing then.
///
/// A call that takes a moment is two events, the moment and then the call: where the call is refused, the clock may stand
/// at that moment.
#[derive(Clone, Copy, Debug, PartialEq, Eq, Hash)]
#[non_exhaustive]
pub enum Error {
    /// Memory was refused: the same call again may succeed.
    OutOfMemory,
    /// No dialogue with this identifier stands.
    UnknownDialogue,
    /// The state of the dialogue doesn't have the request.
    WrongState,
    /// The invoke identifier is in use, or waits for a Reject still.
    InvokeIdInUse,
    /// No invocation with this invoke identifier is open.
    NoSuchInvocation,
    /// The timeout is 0 or above 2^62.
    BadTimeout,
    /// The queue would be above 60,000 octets, or the message above `max_message`.
    TooLong,
    /// `max_dialogues` stand.
    DialoguesFull,
    /// No dialogue identifier is left: open another engine.
    DialogueIdsSpent,
    /// No invocation number is left: open another engine.
    NumbersSpent,
    /// A context or a global code is no object identifier.
    BadOid,
    /// A parameter isn't one element, or user information no EXTERNALs.
    BadParameter,
    /// A Unidirectional has no component, or an Invoke of class 1 to 3.
    NotClassFour,
    /// The moment is above 2^62.
    MomentTooLate,
    /// A context or user information, and no dialogue portion for it.
    NoContext,
    /// An argument is out of its range: a fault of the program.
    BadArgument,
    /// The library that was loaded is older than this crate, or of another MAJOR: no engine is opened.
    OtherLibrary,
    /// A status of a newer library, by its number there.
    Other(i32),
}

const ALL: [Error; 16] = [
    Error::OutOfMemory,
    Error::UnknownDialogue,
    Error::WrongState,
    Error::InvokeIdInUse,
    Error::NoSuchInvocation,
    Error::BadTimeout,
    Error::TooLong,
    Error::DialoguesFull,
    Error::DialogueIdsSpent,
    Error::NumbersSpent,
    Error::BadOid,
    Error::BadParameter,
    Error::NotClassFour,
    Error::MomentTooLate,
    Error::NoContext,
    Error::BadArgument,
];

impl Error {
    /// The error of a status that isn't 0.
    pub(crate) fn of(status: i32) -> Error {
        if status == tcap_sys::OTHER_LIBRARY {
            return Error::OtherLibrary;
        }
        let at = usize::try_from(status).ok().and_then(|status| status.checked_sub(1));
        at.and_then(|at| ALL.get(at).copied()).unwrap_or(Error::Other(status))
    }

    /// Its number in tcap.h, 1 to 16; -1, which isn't there, of `OtherLibrary`.
    pub fn status(self) -> i32 {
        match self {
            Error::OtherLibrary => tcap_sys::OTHER_LIBRARY,
            Error::Other(status) => status,
            named => ALL.iter().zip(1..).find(|(error, _)| **error == named).map_or(0, |(_, status)| status),
        }
    }
}

impl fmt::Display for Error {
    fn fmt(&self, f: &mut fmt::Formatter<'_>) -> fmt::Result {
        match self {
            Error::OtherLibrary => write!(f, "libtcap is of version {:#08x}, which isn't enough", tcap_sys::version()),
            _ => f.write_str(tcap_sys::status_text(self.status())),
        }
    }
}

impl std::error::Error for Error {}

#[test]
fn each_error_has_its_status() {
    let rows = [
        (1, Error::OutOfMemory),
        (2, Error::UnknownDialogue),
        (3, Error::WrongState),
        (4, Error::InvokeIdInUse),
        (5, Error::NoSuchInvocation),
        (6, Error::BadTimeout),
        (7, Error::TooLong),
        (8, Error::DialoguesFull),
        (9, Error::DialogueIdsSpent),
        (10, Error::NumbersSpent),
        (11, Error::BadOid),
        (12, Error::BadParameter),
        (13, Error::NotClassFour),
        (14, Error::MomentTooLate),
        (15, Error::NoContext),
        (16, Error::BadArgument),
        (17, Error::Other(17)),
        (-1, Error::OtherLibrary),
        (-2, Error::Other(-2)),
    ];
    for (status, error) in rows {
        assert_eq!((Error::of(status), error.status()), (error, status));
    }
}
