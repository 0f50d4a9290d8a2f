"""What an engine wants sent and tells, for `match`: a class for each kind, by Q.771's names.

Octets are `bytes`, and None where they are absent; user information that is absent is empty. Each output has, by
keyword, `event` (which event told it, from 1), `is_last` (the last output of its event) and `closes` (it closes the
invocation `number`, and no later output names it).
"""
from __future__ import annotations

from dataclasses import dataclass
from typing import TYPE_CHECKING, TypeAlias

from .values import Code

if TYPE_CHECKING:
    from .dialogue import Dialogue


@dataclass(frozen=True, slots=True)
class Aarq:
    """A dialogue request PDU."""

    context: bytes | None
    info: bytes
    is_version1: bool


@dataclass(frozen=True, slots=True)
class Audt:
    """A unidirectional dialogue PDU."""

    context: bytes | None
    info: bytes
    is_version1: bool


@dataclass(frozen=True, slots=True)
class Aare:
    """A dialogue response PDU: the answer to a dialogue request. `diagnostic`: a Diagnostic, or another number of its
    source."""

    context: bytes | None
    info: bytes
    is_version1: bool
    is_accepted: bool
    diagnostic: int


@dataclass(frozen=True, slots=True)
class Abrt:
    """A dialogue abort PDU, by the user or by the dialogue service provider."""

    info: bytes
    is_by_provider: bool


@dataclass(frozen=True, slots=True)
class Foreign:
    """An EXTERNAL of another abstract syntax, whole."""

    external: bytes


@dataclass(frozen=True, slots=True)
class OtherPdu:
    """A dialogue PDU of a newer library, by its number there."""

    pdu: int


Pdu: TypeAlias = Aarq | Audt | Aare | Abrt | Foreign | OtherPdu


@dataclass(frozen=True, slots=True, kw_only=True)
class Told:
    """What each output has."""

    event: int
    is_last: bool
    closes: bool


@dataclass(frozen=True, slots=True)
class Send(Told):
    """A message to be sent to an address: an N-UNITDATA request."""

    address: bytes
    message: bytes


@dataclass(frozen=True, slots=True)
class UniInd(Told):
    """TC-UNI indication: a Unidirectional was received; its components follow, with no dialogue."""

    context: bytes | None
    info: bytes


@dataclass(frozen=True, slots=True)
class BeginInd(Told):
    """TC-BEGIN indication."""

    dialogue: Dialogue
    context: bytes | None
    info: bytes


@dataclass(frozen=True, slots=True)
class ContinueInd(Told):
    """TC-CONTINUE indication."""

    dialogue: Dialogue
    context: bytes | None
    info: bytes


@dataclass(frozen=True, slots=True)
class EndInd(Told):
    """TC-END indication."""

    dialogue: Dialogue
    context: bytes | None
    info: bytes


@dataclass(frozen=True, slots=True)
class UAbortInd(Told):
    """TC-U-ABORT indication. `pdu`: the dialogue PDU of the Abort, None where it has none."""

    dialogue: Dialogue
    pdu: Pdu | None


@dataclass(frozen=True, slots=True)
class PAbortInd(Told):
    """TC-P-ABORT indication. `cause`: an AbortCause, or another number to 255 as received."""

    dialogue: Dialogue
    cause: int


@dataclass(frozen=True, slots=True)
class InvokeInd(Told):
    """TC-INVOKE indication. `dialogue`: None in a Unidirectional."""

    dialogue: Dialogue | None
    invoke_id: int
    linked_id: int | None
    code: Code
    parameter: bytes | None


@dataclass(frozen=True, slots=True)
class ResultLInd(Told):
    """TC-RESULT-L indication: the last or only result. `code`: None where it has no body."""

    dialogue: Dialogue
    number: int
    invoke_id: int
    code: Code | None
    parameter: bytes | None


@dataclass(frozen=True, slots=True)
class ResultNLInd(Told):
    """TC-RESULT-NL indication: a result that others follow."""

    dialogue: Dialogue
    number: int
    invoke_id: int
    code: Code | None
    parameter: bytes | None


@dataclass(frozen=True, slots=True)
class UErrorInd(Told):
    """TC-U-ERROR indication."""

    dialogue: Dialogue
    number: int
    invoke_id: int
    code: Code
    parameter: bytes | None


@dataclass(frozen=True, slots=True)
class LCancelInd(Told):
    """TC-L-CANCEL indication: the timer of the invocation ran out."""

    dialogue: Dialogue
    number: int
    invoke_id: int


@dataclass(frozen=True, slots=True)
class ClosedInd(Told):
    """(own) The dialogue of an open invocation is over."""

    dialogue: Dialogue
    number: int
    invoke_id: int


@dataclass(frozen=True, slots=True)
class LRejectInd(Told):
    """TC-L-REJECT indication: a component was rejected by the component sublayer here. `problem`: a Problem, or
    another code of its kind. `number`: of the invocation that it closes, None where it closes none."""

    dialogue: Dialogue | None
    invoke_id: int | None
    problem: int
    number: int | None


@dataclass(frozen=True, slots=True)
class RRejectInd(Told):
    """TC-R-REJECT indication: the component sublayer of the peer rejected. As LRejectInd."""

    dialogue: Dialogue | None
    invoke_id: int | None
    problem: int
    number: int | None


@dataclass(frozen=True, slots=True)
class URejectInd(Told):
    """TC-U-REJECT indication: the peer's user rejected. As LRejectInd."""

    dialogue: Dialogue | None
    invoke_id: int | None
    problem: int
    number: int | None


@dataclass(frozen=True, slots=True)
class Dropped(Told):
    """(own) A message was dropped. `cause`: a DropCause."""

    cause: int


@dataclass(frozen=True, slots=True)
class OtherOutput(Told):
    """An output of a newer library, by the number of its kind there."""

    kind: int


Output: TypeAlias = (
    Send | UniInd | BeginInd | ContinueInd | EndInd | UAbortInd | PAbortInd
    | InvokeInd | ResultLInd | ResultNLInd | UErrorInd | LCancelInd | ClosedInd
    | LRejectInd | RRejectInd | URejectInd | Dropped | OtherOutput
)  # fmt: skip
