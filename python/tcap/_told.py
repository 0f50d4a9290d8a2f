"""Outputs of C as those of Python: all octets are copied."""
from __future__ import annotations

import ctypes
from collections.abc import Callable
from typing import TYPE_CHECKING, Any, cast

from . import _c, outputs
from .values import AbortCause, Code, Diagnostic, DropCause, Global, Local, Problem, named

if TYPE_CHECKING:
    from .dialogue import Dialogue
    from .engine import Engine


def _octets(of: Any) -> bytes:
    return ctypes.string_at(of.at, of.len) if of.len else b""


def _if(there: int, of: Any) -> bytes | None:
    return _octets(of) if there else None


def _id(value: int) -> int | None:
    return None if value == _c.NO_ID else value


def _code(of: Any) -> Code | None:
    match of.kind:
        case _c.LOCAL:
            return Local(of.local)
        case _c.GLOBAL:
            return Global(_octets(of.global_))
    return None


def _pdu(o: Any) -> outputs.Pdu | None:
    """The dialogue PDU of an Abort by the user."""
    context, info = _if(o.has_context, o.portion.context), _octets(o.portion.info)
    match o.pdu:
        case 0:
            return None
        case 1:
            return outputs.Aarq(context, info, bool(o.is_version1))
        case 2:
            return outputs.Audt(context, info, bool(o.is_version1))
        case 3:
            diagnostic = named(Diagnostic, o.diagnostic)
            return outputs.Aare(context, info, bool(o.is_version1), bool(o.is_accepted), diagnostic)
        case 4:
            return outputs.Abrt(info, bool(o.is_by_provider))
        case 5:
            return outputs.Foreign(info)
    return outputs.OtherPdu(o.pdu)


def _of(engine: Engine, o: Any) -> Dialogue:
    return engine.dialogue_of(o.dialogue)


def _maybe(engine: Engine, o: Any) -> Dialogue | None:
    """The dialogue, if it is of one."""
    return engine.dialogue_of(o.dialogue) if o.dialogue else None


# Each field, from an output of C.
Field = Callable[["Engine", Any], object]
_CONTEXT: Field = lambda _, o: _if(o.has_context, o.portion.context)
_INFO: Field = lambda _, o: _octets(o.portion.info)
_NUMBER: Field = lambda _, o: o.number
_INVOKE_ID: Field = lambda _, o: _id(o.invoke_id)
_CODE: Field = lambda _, o: _code(o.code)
_PARAMETER: Field = lambda _, o: _if(o.has_parameter, o.parameter)
_PORTION = (_of, _CONTEXT, _INFO)
_INVOCATION = (_of, _NUMBER, _INVOKE_ID)
_REJECT: tuple[Field, ...] = (
    _maybe,
    _INVOKE_ID,
    lambda _, o: named(Problem, o.problem),
    lambda _, o: o.number if o.closes else None,
)

# Each kind of tcap.h: its class, and its fields in their order.
KINDS: dict[int, tuple[type[outputs.Told], tuple[Field, ...]]] = {
    1: (outputs.Send, (lambda _, o: _octets(o.address), lambda _, o: _octets(o.message))),
    2: (outputs.UniInd, (_CONTEXT, _INFO)),
    3: (outputs.BeginInd, _PORTION),
    4: (outputs.ContinueInd, _PORTION),
    5: (outputs.EndInd, _PORTION),
    6: (outputs.UAbortInd, (_of, lambda _, o: _pdu(o))),
    7: (outputs.PAbortInd, (_of, lambda _, o: named(AbortCause, o.cause))),
    8: (outputs.InvokeInd, (_maybe, _INVOKE_ID, lambda _, o: _id(o.linked_id), _CODE, _PARAMETER)),
    9: (outputs.ResultLInd, (*_INVOCATION, _CODE, _PARAMETER)),
    10: (outputs.ResultNLInd, (*_INVOCATION, _CODE, _PARAMETER)),
    11: (outputs.UErrorInd, (*_INVOCATION, _CODE, _PARAMETER)),
    12: (outputs.LCancelInd, _INVOCATION),
    13: (outputs.ClosedInd, _INVOCATION),
    14: (outputs.LRejectInd, _REJECT),
    15: (outputs.RRejectInd, _REJECT),
    16: (outputs.URejectInd, _REJECT),
    17: (outputs.Dropped, (lambda _, o: named(DropCause, o.cause),)),
}
_OTHER: tuple[type[outputs.Told], tuple[Field, ...]] = (outputs.OtherOutput, (lambda _, o: o.kind,))


def output(engine: Engine, o: Any) -> outputs.Output:
    """An output of this engine."""
    kind, fields = KINDS.get(o.kind, _OTHER)
    make = cast(Callable[..., outputs.Output], kind)
    told = {"event": o.event, "is_last": bool(o.is_last), "closes": bool(o.closes)}
    return make(*(field(engine, o) for field in fields), **told)
