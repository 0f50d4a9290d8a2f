"""The numbers of tcap.h by their names, and the codes of operations and errors."""
from __future__ import annotations

from dataclasses import dataclass
from enum import IntEnum
from typing import TypeAlias


def named(kind: type[IntEnum], value: int) -> int:
    """The number by its name, if it has one."""
    try:
        return kind(value)
    except ValueError:
        return value


class Status(IntEnum):
    """What a call answers."""

    OK = 0
    OUT_OF_MEMORY = 1
    UNKNOWN_DIALOGUE = 2
    WRONG_STATE = 3
    INVOKE_ID_IN_USE = 4
    NO_SUCH_INVOCATION = 5
    BAD_TIMEOUT = 6
    TOO_LONG = 7
    DIALOGUES_FULL = 8
    DIALOGUE_IDS_SPENT = 9
    NUMBERS_SPENT = 10
    BAD_OID = 11
    BAD_PARAMETER = 12
    NOT_CLASS_FOUR = 13
    MOMENT_TOO_LATE = 14
    NO_CONTEXT = 15
    BAD_ARGUMENT = 16


class State(IntEnum):
    """How far a dialogue is (Q.774, Transaction state machine)."""

    UNKNOWN = 0
    IDLE = 1
    INITIATION_SENT = 2
    INITIATION_RECEIVED = 3
    ACTIVE = 4


class Termination(IntEnum):
    """How a dialogue ends (Q.771, Dialogue end)."""

    BASIC = 0
    PREARRANGED = 1


class AbortReason(IntEnum):
    """Why the user aborts (Q.771, Abort by the user)."""

    USER_SPECIFIC = 0
    CONTEXT_NOT_SUPPORTED = 1


class Problem(IntEnum):
    """The problem of a Reject: 256 times its kind, and its code (Q.773, Problem)."""

    GENERAL_UNRECOGNIZED_COMPONENT = 0x000
    GENERAL_MISTYPED_COMPONENT = 0x001
    GENERAL_BADLY_STRUCTURED_COMPONENT = 0x002
    INVOKE_DUPLICATE_INVOKE_ID = 0x100
    INVOKE_UNRECOGNIZED_OPERATION = 0x101
    INVOKE_MISTYPED_PARAMETER = 0x102
    INVOKE_RESOURCE_LIMITATION = 0x103
    INVOKE_INITIATING_RELEASE = 0x104
    INVOKE_UNRECOGNIZED_LINKED_ID = 0x105
    INVOKE_LINKED_RESPONSE_UNEXPECTED = 0x106
    INVOKE_UNEXPECTED_LINKED_OPERATION = 0x107
    RESULT_UNRECOGNIZED_INVOKE_ID = 0x200
    RESULT_RETURN_RESULT_UNEXPECTED = 0x201
    RESULT_MISTYPED_PARAMETER = 0x202
    ERROR_UNRECOGNIZED_INVOKE_ID = 0x300
    ERROR_RETURN_ERROR_UNEXPECTED = 0x301
    ERROR_UNRECOGNIZED_ERROR = 0x302
    ERROR_UNEXPECTED_ERROR = 0x303
    ERROR_MISTYPED_PARAMETER = 0x304


class AbortCause(IntEnum):
    """Why the provider aborted: 0 to 255 as received (Q.773, P-Abort cause); above that, own."""

    UNRECOGNIZED_MESSAGE_TYPE = 0
    UNRECOGNIZED_TRANSACTION_ID = 1
    BADLY_FORMATTED_TRANSACTION_PORTION = 2
    INCORRECT_TRANSACTION_PORTION = 3
    RESOURCE_LIMITATION = 4
    ABNORMAL_DIALOGUE = 256
    NO_COMMON_DIALOGUE = 257
    IDLE = 258


class DropCause(IntEnum):
    """Why a message was dropped (own)."""

    TOO_LONG = 0
    BAD_MESSAGE = 1
    NO_DIALOGUE = 2
    BAD_DIALOGUE = 3


class Diagnostic(IntEnum):
    """The result source diagnostic of an AARE: that of the user, or 256 more that of the provider."""

    USER_NULL = 0
    USER_NO_REASON = 1
    USER_CONTEXT_NOT_SUPPORTED = 2
    PROVIDER_NULL = 256
    PROVIDER_NO_REASON = 257
    PROVIDER_NO_COMMON_DIALOGUE = 258


@dataclass(frozen=True, slots=True)
class Local:
    """A local value (Q.773, Operation Code, Error Code): a number of 32 bits, with its sign."""

    value: int


@dataclass(frozen=True, slots=True)
class Global:
    """A global value: the contents octets of an object identifier, 1 to 255."""

    octets: bytes


Code: TypeAlias = Local | Global
