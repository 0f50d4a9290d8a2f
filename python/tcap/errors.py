"""A refusal is raised: one class for each status. Whatever is raised, the call has changed nothing."""
from __future__ import annotations

from .values import Status


class TcapError(Exception):
    """A call was refused. `status` says why: a Status, or the number that a newer library answers.

    A call that takes a moment is two events, the moment and then the call: where the call is refused, the clock may
    stand at that moment."""

    status: int = Status.BAD_ARGUMENT


class OutOfMemory(TcapError, MemoryError):
    """Memory was refused: the same call again may succeed."""

    status = Status.OUT_OF_MEMORY


class UnknownDialogue(TcapError):
    """No dialogue with this identifier stands."""

    status = Status.UNKNOWN_DIALOGUE


class WrongState(TcapError):
    """The state of the dialogue doesn't have the request."""

    status = Status.WRONG_STATE


class InvokeIdInUse(TcapError):
    """The invoke identifier is in use, or waits for a Reject still."""

    status = Status.INVOKE_ID_IN_USE


class NoSuchInvocation(TcapError):
    """No invocation with this invoke identifier is open."""

    status = Status.NO_SUCH_INVOCATION


class BadTimeout(TcapError):
    """The timeout is 0 or above 2^62."""

    status = Status.BAD_TIMEOUT


class TooLong(TcapError):
    """The queue would be above 60,000 octets, or the message above `max_message`."""

    status = Status.TOO_LONG


class DialoguesFull(TcapError):
    """`max_dialogues` stand."""

    status = Status.DIALOGUES_FULL


class DialogueIdsSpent(TcapError):
    """No dialogue identifier is left: open another engine."""

    status = Status.DIALOGUE_IDS_SPENT


class NumbersSpent(TcapError):
    """No invocation number is left: open another engine."""

    status = Status.NUMBERS_SPENT


class BadOid(TcapError):
    """A context or a global code is no object identifier."""

    status = Status.BAD_OID


class BadParameter(TcapError):
    """A parameter isn't one element, or user information no EXTERNALs."""

    status = Status.BAD_PARAMETER


class NotClassFour(TcapError):
    """A Unidirectional has no component, or an Invoke of class 1 to 3."""

    status = Status.NOT_CLASS_FOUR


class MomentTooLate(TcapError):
    """The moment is above 2^62."""

    status = Status.MOMENT_TOO_LATE


class NoContext(TcapError):
    """A context or user information, and no dialogue portion for it."""

    status = Status.NO_CONTEXT


class BadArgument(TcapError, ValueError):
    """An argument is out of its range, or the engine is closed: a fault of the program."""

    status = Status.BAD_ARGUMENT


CLASSES: dict[int, type[TcapError]] = {
    int(kind.status): kind
    for kind in (
        OutOfMemory, UnknownDialogue, WrongState, InvokeIdInUse, NoSuchInvocation, BadTimeout, TooLong, DialoguesFull,
        DialogueIdsSpent, NumbersSpent, BadOid, BadParameter, NotClassFour, MomentTooLate, NoContext, BadArgument,
    )
}  # fmt: skip


def refusal(status: int, text: str) -> TcapError:
    """What is raised for a status."""
    kind = CLASSES.get(status)
    if kind is not None:
        return kind(text)
    error = TcapError(text)
    error.status = status
    return error
