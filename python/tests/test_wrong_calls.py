"""A hundred wrong calls: each raises what the table says, and leaves the engine as it was."""
from __future__ import annotations

import copy
import pickle
from collections.abc import Callable
from typing import Any

import pytest

import tcap
from tcap import Global, Local

BIG, EXTERNALS = 2**70, bytes.fromhex("280b060704000001010101a000")
Wrong = Callable[[Any, Any], object]  # of an engine and its dialogue 1, in which nothing has happened
CALLS: list[tuple[str, type[Exception], Wrong]] = [
    # limits
    ("no dialogues", tcap.BadArgument, lambda e, d: tcap.Engine(max_dialogues=0)),
    ("too many dialogues", tcap.BadArgument, lambda e, d: tcap.Engine(max_dialogues=65536)),
    ("dialogues that would wrap", tcap.BadArgument, lambda e, d: tcap.Engine(max_dialogues=2**32 + 1)),
    ("dialogues below 0", tcap.BadArgument, lambda e, d: tcap.Engine(max_dialogues=-1)),
    ("dialogues of text", TypeError, lambda e, d: tcap.Engine(max_dialogues="16")),  # type: ignore[arg-type]
    ("dialogues of a fraction", TypeError, lambda e, d: tcap.Engine(max_dialogues=1.0)),  # type: ignore[arg-type]
    ("no message", tcap.BadArgument, lambda e, d: tcap.Engine(max_message=0)),
    ("a message too long", tcap.BadArgument, lambda e, d: tcap.Engine(max_message=65536)),
    ("a late reject", tcap.BadArgument, lambda e, d: tcap.Engine(reject_ms=2**62 + 1)),
    ("a reject that would wrap", tcap.BadArgument, lambda e, d: tcap.Engine(reject_ms=2**64)),
    ("a late idle", tcap.BadArgument, lambda e, d: tcap.Engine(idle_ms=2**62 + 1)),
    ("an idle below 0", tcap.BadArgument, lambda e, d: tcap.Engine(idle_ms=-1)),
    ("dialogues from 0", tcap.BadArgument, lambda e, d: tcap.Engine(first_dialogue=0)),
    ("dialogues from 2^32", tcap.BadArgument, lambda e, d: tcap.Engine(first_dialogue=2**32)),
    ("numbers from 0", tcap.BadArgument, lambda e, d: tcap.Engine(first_number=0)),
    ("numbers from 2^64", tcap.BadArgument, lambda e, d: tcap.Engine(first_number=2**64)),
    ("limits by place", TypeError, lambda e, d: tcap.Engine(16)),  # type: ignore[misc]
    ("a limit of no name", TypeError, lambda e, d: tcap.Engine(most=16)),  # type: ignore[call-arg]
    # a second owner of an engine, who would close it once more
    ("an engine copied", TypeError, lambda e, d: copy.copy(e)),
    ("an engine copied deep", TypeError, lambda e, d: copy.deepcopy(e)),
    ("an engine pickled", TypeError, lambda e, d: pickle.dumps(e)),
    ("a dialogue pickled", TypeError, lambda e, d: pickle.dumps(d)),
    ("an engine opened again", TypeError, lambda e, d: e.__init__()),
    # what happens
    ("a moment of nothing", TypeError, lambda e, d: e.advance(None)),
    ("a moment of text", TypeError, lambda e, d: e.advance("0")),
    ("a moment of a fraction", TypeError, lambda e, d: e.advance(0.5)),
    ("a moment below 0", tcap.BadArgument, lambda e, d: e.advance(-1)),
    ("a moment too late", tcap.MomentTooLate, lambda e, d: e.advance(2**62 + 1)),
    ("a moment that would wrap", tcap.BadArgument, lambda e, d: e.advance(2**64)),
    ("no moment", TypeError, lambda e, d: e.advance()),
    ("a sender of text", TypeError, lambda e, d: e.receive(0, "hlr", b"")),
    ("a sender of nothing", TypeError, lambda e, d: e.receive(0, None, b"")),
    ("a sender too long", tcap.BadArgument, lambda e, d: e.receive(0, bytes(256), b"")),
    ("a sender of a number", TypeError, lambda e, d: e.receive(0, 5, b"")),
    ("a message of text", TypeError, lambda e, d: e.receive(0, b"", "62")),
    ("a message of nothing", TypeError, lambda e, d: e.receive(0, b"", None)),
    ("a message of a list", TypeError, lambda e, d: e.receive(0, b"", [0x62, 0])),
    ("a message at a moment too late", tcap.MomentTooLate, lambda e, d: e.receive(2**63, b"", b"")),
    ("due of nothing", TypeError, lambda e, d: e.due(None)),
    ("due below 0", tcap.BadArgument, lambda e, d: e.due(-1)),
    ("due that would wrap", tcap.BadArgument, lambda e, d: e.due(BIG)),
    ("a dialogue below 0", tcap.BadArgument, lambda e, d: e.dialogue_of(-1)),
    ("a dialogue that would wrap", tcap.BadArgument, lambda e, d: e.dialogue_of(2**32 + 1)),
    ("a dialogue of text", TypeError, lambda e, d: e.dialogue_of("1")),
    ("a dialogue of no engine", AttributeError, lambda e, d: tcap.Dialogue(None, 1).state()),  # type: ignore[arg-type]
    ("a dialogue made by hand", tcap.BadArgument, lambda e, d: tcap.Dialogue(e, BIG).go_on(0)),
    ("a dialogue that is changed", AttributeError, lambda e, d: setattr(d, "id", 2)),
    # a dialogue that doesn't stand
    ("an Invoke nowhere", tcap.UnknownDialogue, lambda e, d: e.dialogue_of(9).invoke(1, Local(1), timeout_ms=1)),
    ("a result nowhere", tcap.UnknownDialogue, lambda e, d: e.dialogue_of(0).result_l(1)),
    ("a cancel nowhere", tcap.UnknownDialogue, lambda e, d: e.dialogue_of(9).u_cancel(1)),
    ("a Begin nowhere", tcap.UnknownDialogue, lambda e, d: e.dialogue_of(9).begin(0, b"")),
    ("an End nowhere", tcap.UnknownDialogue, lambda e, d: e.dialogue_of(2**32 - 1).end(0)),
    ("an Abort nowhere", tcap.UnknownDialogue, lambda e, d: e.dialogue_of(9).u_abort(0)),
    # an Invoke
    ("an identifier of 128", tcap.BadArgument, lambda e, d: d.invoke(128, Local(1), timeout_ms=1)),
    ("an identifier of -129", tcap.BadArgument, lambda e, d: d.invoke(-129, Local(1), timeout_ms=1)),
    ("an identifier of 256", tcap.BadArgument, lambda e, d: d.invoke(256, Local(1), timeout_ms=1)),
    ("an identifier of nothing", TypeError, lambda e, d: d.invoke(None, Local(1), timeout_ms=1)),
    ("an identifier of octets", TypeError, lambda e, d: d.invoke(b"\1", Local(1), timeout_ms=1)),
    ("an identifier that would wrap", tcap.BadArgument, lambda e, d: d.invoke(2**32, Local(1), timeout_ms=1)),
    ("a class of 0", tcap.BadArgument, lambda e, d: d.invoke(1, Local(1), timeout_ms=1, op_class=0)),
    ("a class of 7", tcap.BadArgument, lambda e, d: d.invoke(1, Local(1), timeout_ms=1, op_class=7)),
    ("a class of nothing", TypeError, lambda e, d: d.invoke(1, Local(1), timeout_ms=1, op_class=None)),
    ("a linked identifier of 200", tcap.BadArgument, lambda e, d: d.invoke(1, Local(1), timeout_ms=1, linked_id=200)),
    ("a linked identifier of text", TypeError, lambda e, d: d.invoke(1, Local(1), timeout_ms=1, linked_id="1")),
    ("no code", tcap.BadArgument, lambda e, d: d.invoke(1, None, timeout_ms=1)),
    ("a code of a number", TypeError, lambda e, d: d.invoke(1, 2, timeout_ms=1)),
    ("a code of 2^31", tcap.BadArgument, lambda e, d: d.invoke(1, Local(2**31), timeout_ms=1)),
    ("a code below -2^31", tcap.BadArgument, lambda e, d: d.invoke(1, Local(-(2**31) - 1), timeout_ms=1)),
    ("a local code of text", TypeError, lambda e, d: d.invoke(1, Local("2"), timeout_ms=1)),  # type: ignore[arg-type]
    ("a global code of text", TypeError, lambda e, d: d.invoke(1, Global("2.5"), timeout_ms=1)),  # type: ignore[arg-type]
    ("a global code of no octets", tcap.BadOid, lambda e, d: d.invoke(1, Global(b""), timeout_ms=1)),
    ("a global code that isn't one", tcap.BadOid, lambda e, d: d.invoke(1, Global(b"\x80"), timeout_ms=1)),
    ("a global code of 256", tcap.BadOid, lambda e, d: d.invoke(1, Global(b"\1" * 256), timeout_ms=1)),
    ("a parameter of text", TypeError, lambda e, d: d.invoke(1, Local(1), "04", timeout_ms=1)),
    ("a parameter of a number", TypeError, lambda e, d: d.invoke(1, Local(1), 10**12, timeout_ms=1)),
    ("a parameter of no octets", tcap.BadArgument, lambda e, d: d.invoke(1, Local(1), b"", timeout_ms=1)),
    ("a parameter that is cut", tcap.BadParameter, lambda e, d: d.invoke(1, Local(1), b"\4\2\0", timeout_ms=1)),
    ("two parameters", tcap.BadParameter, lambda e, d: d.invoke(1, Local(1), b"\4\0\4\0", timeout_ms=1)),
    ("a parameter too long", tcap.TooLong, lambda e, d: d.invoke(1, Local(1), long_element(60001), timeout_ms=1)),
    ("no timeout", TypeError, lambda e, d: d.invoke(1, Local(1))),
    ("a timeout of 0", tcap.BadTimeout, lambda e, d: d.invoke(1, Local(1), timeout_ms=0)),
    ("a timeout too late", tcap.BadTimeout, lambda e, d: d.invoke(1, Local(1), timeout_ms=2**62 + 1)),
    ("a timeout below 0", tcap.BadArgument, lambda e, d: d.invoke(1, Local(1), timeout_ms=-1)),
    ("a timeout that would wrap", tcap.BadArgument, lambda e, d: d.invoke(1, Local(1), timeout_ms=2**64 + 5)),
    # answers in a dialogue that hasn't begun
    ("a result before", tcap.WrongState, lambda e, d: d.result_l(1)),
    ("a result of many before", tcap.WrongState, lambda e, d: d.result_nl(1, Local(1), b"\4\0")),
    ("an error before", tcap.WrongState, lambda e, d: d.u_error(1, Local(1))),
    ("an error of nothing", tcap.BadArgument, lambda e, d: d.u_error(1, None)),
    ("a parameter and no code", tcap.BadArgument, lambda e, d: d.result_l(1, None, b"\4\0")),
    ("a result of nobody", TypeError, lambda e, d: d.result_l(None)),
    ("a Reject before", tcap.WrongState, lambda e, d: d.u_reject(None, tcap.Problem.INVOKE_MISTYPED_PARAMETER)),
    ("a problem of a fifth kind", tcap.BadArgument, lambda e, d: d.u_reject(1, 0x400)),
    ("a problem above 127", tcap.BadArgument, lambda e, d: d.u_reject(1, 0x180)),
    ("a problem below 0", tcap.BadArgument, lambda e, d: d.u_reject(1, -1)),
    ("a problem of text", TypeError, lambda e, d: d.u_reject(1, "general")),
    ("a cancel of nothing", tcap.NoSuchInvocation, lambda e, d: d.u_cancel(1)),
    ("a cancel of 300", tcap.BadArgument, lambda e, d: d.u_cancel(300)),
    # dialogue handling
    ("a Begin to text", TypeError, lambda e, d: d.begin(0, "hlr")),
    ("a Begin to nothing", TypeError, lambda e, d: d.begin(0, None)),
    ("a Begin too far", tcap.BadArgument, lambda e, d: d.begin(0, bytes(256))),
    ("a Begin too late", tcap.MomentTooLate, lambda e, d: d.begin(2**62 + 1, b"")),
    ("a Begin of text", TypeError, lambda e, d: d.begin("now", b"")),
    ("a context that isn't one", tcap.BadOid, lambda e, d: d.begin(0, b"", context=b"\x80")),
    ("a context of no octets", tcap.BadArgument, lambda e, d: d.begin(0, b"", context=b"")),
    ("a context of text", TypeError, lambda e, d: d.begin(0, b"", context="0.4.0")),
    ("a context by place", TypeError, lambda e, d: d.begin(0, b"", b"\x2a\x03")),
    ("information alone", tcap.NoContext, lambda e, d: d.begin(0, b"", info=EXTERNALS)),
    ("information that isn't", tcap.BadParameter, lambda e, d: d.begin(0, b"", context=b"\x2a\x03", info=b"\4\0")),
    ("information of nothing", TypeError, lambda e, d: d.begin(0, b"", info=None)),
    ("a Continue before", tcap.WrongState, lambda e, d: d.go_on(0)),
    ("an End before", tcap.WrongState, lambda e, d: d.end(0)),
    ("an end of another kind", tcap.BadArgument, lambda e, d: d.end(0, termination=2)),
    ("an end of a kind that C would cut", tcap.BadArgument, lambda e, d: d.end(0, termination=-(2**32))),
    ("an end of text", TypeError, lambda e, d: d.end(0, termination="basic")),
    ("an end of a fraction", TypeError, lambda e, d: d.end(0, termination=1.0)),
    ("an Abort for another reason", tcap.BadArgument, lambda e, d: d.u_abort(0, 9)),
    ("an Abort for a reason of text", TypeError, lambda e, d: d.u_abort(0, "user")),
    ("an Abort with text", TypeError, lambda e, d: d.u_abort(0, tcap.AbortReason.USER_SPECIFIC, "why")),
    ("a Unidirectional of nothing", tcap.NotClassFour, lambda e, d: d.uni(0, b"")),
    ("a Unidirectional nowhere", tcap.UnknownDialogue, lambda e, d: e.dialogue_of(3).uni(0, b"")),
    ("a status of text", TypeError, lambda e, d: tcap.status_text("ok")),  # type: ignore[arg-type]
    ("a status below 0", tcap.BadArgument, lambda e, d: tcap.status_text(-1)),
    # what is no object identifier (X.690, 8.19), or none that the library writes
    ("an object identifier of a number", TypeError, lambda e, d: tcap.oid(2)),  # type: ignore[arg-type]
    ("an object identifier of octets", TypeError, lambda e, d: tcap.oid(b"0.4")),  # type: ignore[arg-type]
    ("an object identifier in octets of text", TypeError, lambda e, d: tcap.oid_text("2.5")),  # type: ignore[arg-type]
    ("a verdict on text", TypeError, lambda e, d: tcap.check("62")),  # type: ignore[arg-type]
    # another number than it compares as, and other octets than it says to have
    ("a number that lies", tcap.BadArgument, lambda e, d: tcap.Engine(max_message=Liar(2**32 + 1))),
]


class Liar(int):
    """A number that compares as if it were in any range."""

    def __le__(self, other: object) -> bool:
        return True

    __ge__ = __le__


def long_element(length: int) -> bytes:
    """A BER element with so many octets of contents."""
    return b"\x04\x83" + length.to_bytes(3, "big") + bytes(length)


def test_there_are_a_hundred() -> None:
    assert len(CALLS) >= 100 and len({name for name, _, _ in CALLS}) == len(CALLS)


@pytest.mark.parametrize(("kind", "wrong"), [pytest.param(kind, wrong, id=name) for name, kind, wrong in CALLS])
def test_it_raises(kind: type[Exception], wrong: Wrong) -> None:
    with tcap.Engine() as engine:
        dialogue = engine.dialogue()
        with pytest.raises(kind, match=".") as raised:
            wrong(engine, dialogue)
        assert isinstance(raised.value, ValueError) == (kind is tcap.BadArgument)
        assert engine.next() is None
        assert (engine.dialogues(), engine.next_identifiers()) == (1, (2, 1))
        assert dialogue.state() == tcap.State.IDLE


CLOSED: list[Wrong] = [
    lambda e, d: e.__enter__(),
    lambda e, d: d.__enter__(),
    lambda e, d: e.receive(0, b"", b""),
    lambda e, d: e.advance(0),
    lambda e, d: e.dialogue(),
    lambda e, d: e.next(),
    lambda e, d: list(e),
    lambda e, d: e.next_timer(),
    lambda e, d: e.dialogues(),
    lambda e, d: e.due(0),
    lambda e, d: e.next_identifiers(),
    lambda e, d: d.state(),
    lambda e, d: d.invoke(1, Local(1), timeout_ms=1),
    lambda e, d: d.result_l(1),
    lambda e, d: d.result_nl(1),
    lambda e, d: d.u_error(1, Local(1)),
    lambda e, d: d.u_reject(1, 0),
    lambda e, d: d.u_cancel(1),
    lambda e, d: d.uni(0, b""),
    lambda e, d: d.begin(0, b""),
    lambda e, d: d.go_on(0),
    lambda e, d: d.end(0),
    lambda e, d: d.u_abort(0),
]


@pytest.mark.parametrize("wrong", CLOSED)
def test_a_closed_engine_is_told(wrong: Wrong) -> None:
    engine = tcap.Engine()
    dialogue = engine.dialogue()
    engine.close()
    with pytest.raises(tcap.BadArgument, match="closed"):
        wrong(engine, dialogue)
