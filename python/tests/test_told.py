"""Outputs of C, made by hand field by field as tcap.h has them, and what is told of each."""
from __future__ import annotations

import ctypes
from typing import Any

import pytest

import tcap
from tcap import _c, _told
from tcap import (
    Aare, Aarq, AbortCause, Abrt, Audt, BeginInd, ClosedInd, ContinueInd, Diagnostic, DropCause, Dropped, EndInd, Engine,
    Foreign, Global, InvokeInd, LCancelInd, Local, LRejectInd, OtherOutput, OtherPdu, PAbortInd, Pdu, Problem, ResultLInd,
    ResultNLInd, RRejectInd, Send, UAbortInd, UErrorInd, UniInd, URejectInd,
)  # fmt: skip

ENGINE = Engine()
DIALOGUE = ENGINE.dialogue_of(14)
EACH: dict[str, Any] = {"event": 11, "is_last": False, "closes": True}
CAUSE, NUMBER, ID, PROBLEM = AbortCause.RESOURCE_LIMITATION, 12, -15, Problem.INVOKE_MISTYPED_PARAMETER
KEPT = {name: ctypes.create_string_buffer(name.encode()) for name in ("address", "message", "context", "info", "code", "parameter")}


def octets(name: str) -> _c.Octets:
    """Octets that say where they stand."""
    return _c.Octets(ctypes.addressof(KEPT[name]), len(name))


def made(**fields: int) -> _c.Output:
    """An output with another value in each field, but for these."""
    output = _c.Output(
        event=11, number=12, address=octets("address"), message=octets("message"),
        portion=_c.Portion(octets("context"), octets("info")), code=_c.Code(_c.LOCAL, 13, octets("code")),
        parameter=octets("parameter"), dialogue=14, invoke_id=-15, linked_id=16, problem=0x102, cause=4, diagnostic=257,
        kind=0, pdu=0, closes=1, is_last=0, has_context=1, has_parameter=1, is_version1=1, is_accepted=0, is_by_provider=0,
    )  # fmt: skip
    for name, value in fields.items():
        setattr(output, name, value)
    return output


KINDS: list[tuple[dict[str, int], tcap.Output]] = [
    ({"kind": 1}, Send(b"address", b"message", **EACH)),
    ({"kind": 1, "event": 2, "is_last": 1, "closes": 0}, Send(b"address", b"message", event=2, is_last=True, closes=False)),
    ({"kind": 2}, UniInd(b"context", b"info", **EACH)),
    ({"kind": 2, "has_context": 0}, UniInd(None, b"info", **EACH)),
    ({"kind": 3}, BeginInd(DIALOGUE, b"context", b"info", **EACH)),
    ({"kind": 4}, ContinueInd(DIALOGUE, b"context", b"info", **EACH)),
    ({"kind": 5}, EndInd(DIALOGUE, b"context", b"info", **EACH)),
    ({"kind": 7}, PAbortInd(DIALOGUE, CAUSE, **EACH)),
    ({"kind": 7, "cause": 9}, PAbortInd(DIALOGUE, 9, **EACH)),
    ({"kind": 8}, InvokeInd(DIALOGUE, ID, 16, Local(13), b"parameter", **EACH)),
    ({"kind": 8, "dialogue": 0, "linked_id": 256}, InvokeInd(None, ID, None, Local(13), b"parameter", **EACH)),
    ({"kind": 8, "has_parameter": 0}, InvokeInd(DIALOGUE, ID, 16, Local(13), None, **EACH)),
    ({"kind": 9}, ResultLInd(DIALOGUE, NUMBER, ID, Local(13), b"parameter", **EACH)),
    ({"kind": 10}, ResultNLInd(DIALOGUE, NUMBER, ID, Local(13), b"parameter", **EACH)),
    ({"kind": 11}, UErrorInd(DIALOGUE, NUMBER, ID, Local(13), b"parameter", **EACH)),
    ({"kind": 12}, LCancelInd(DIALOGUE, NUMBER, ID, **EACH)),
    ({"kind": 13}, ClosedInd(DIALOGUE, NUMBER, ID, **EACH)),
    ({"kind": 14}, LRejectInd(DIALOGUE, ID, PROBLEM, NUMBER, **EACH)),
    ({"kind": 15}, RRejectInd(DIALOGUE, ID, PROBLEM, NUMBER, **EACH)),
    ({"kind": 16}, URejectInd(DIALOGUE, ID, PROBLEM, NUMBER, **EACH)),
    ({"kind": 16, "dialogue": 0, "invoke_id": 256, "problem": 0x17F, "closes": 0},
     URejectInd(None, None, 0x17F, None, **{**EACH, "closes": False})),
    ({"kind": 17, "cause": 0}, Dropped(DropCause.TOO_LONG, **EACH)),
    ({"kind": 17, "cause": 4}, Dropped(4, **EACH)),
    ({"kind": 18}, OtherOutput(18, **EACH)),
]  # fmt: skip
PDUS: list[tuple[dict[str, int], Pdu | None]] = [
    ({"pdu": 0}, None),
    ({"pdu": 1}, Aarq(b"context", b"info", True)),
    ({"pdu": 2}, Audt(b"context", b"info", True)),
    ({"pdu": 2, "has_context": 0, "is_version1": 0}, Audt(None, b"info", False)),
    ({"pdu": 3}, Aare(b"context", b"info", True, False, Diagnostic.PROVIDER_NO_REASON)),
    ({"pdu": 3, "is_version1": 0, "is_accepted": 1, "diagnostic": 9}, Aare(b"context", b"info", False, True, 9)),
    ({"pdu": 4}, Abrt(b"info", False)),
    ({"pdu": 4, "is_by_provider": 1}, Abrt(b"info", True)),
    ({"pdu": 5}, Foreign(b"info")),
    ({"pdu": 6}, OtherPdu(6)),
]


@pytest.mark.parametrize(
    ("fields", "told"),
    [*KINDS, *(({"kind": 6, **fields}, UAbortInd(DIALOGUE, pdu, **EACH)) for fields, pdu in PDUS)],
    ids=str,
)
def test_an_output_is_told(fields: dict[str, int], told: tcap.Output) -> None:
    assert _told.output(ENGINE, made(**fields)) == told


@pytest.mark.parametrize(("kind", "code"), [(0, None), (1, Local(13)), (2, Global(b"code"))])
def test_a_code_is_told(kind: int, code: tcap.Code | None) -> None:
    output = made(kind=9)
    output.code.kind = kind
    assert _told.output(ENGINE, output) == ResultLInd(DIALOGUE, NUMBER, ID, code, b"parameter", **EACH)


def test_numbers_have_their_names() -> None:
    told = _told.output(ENGINE, made(kind=14))
    assert isinstance(told, LRejectInd) and isinstance(told.problem, Problem)
