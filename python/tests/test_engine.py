"""What the package adds to the library: types of outputs, dialogues as context managers, the end of an engine."""
import copy
import dataclasses
import gc
import pathlib
import runpy

import pytest

import tcap
from tcap import _c
from tcap import (
    Aare, BadArgument, BeginInd, ClosedInd, ContinueInd, Diagnostic, Dialogue, Dropped, DropCause, EndInd, Engine, Global,
    InvokeInd, LCancelInd, Local, LRejectInd, Output, PAbortInd, AbortCause, Problem, ResultLInd, ResultNLInd, Send, State,
    UAbortInd, UErrorInd, UniInd, URejectInd,
)  # fmt: skip

CONTEXT = bytes.fromhex("04000001000103")
INFO = bytes.fromhex("28 0b 06 07 04 00 00 01 01 01 01 a0 00")


def exchange(*engines: Engine) -> list[Output]:
    """Carries messages between two engines until nothing waits, and returns what was told."""
    told: list[Output] = []
    names = (b"A", b"B")
    while True:
        waiting = [list(engine) for engine in engines]
        if not any(waiting):
            return told
        for number, outputs in enumerate(waiting):
            for output in outputs:
                match output:
                    case Send(address=b"A" | b"B", message=message):
                        engines[1 - number].receive(0, names[number], message)
                    case _:
                        told.append(output)


@pytest.fixture
def pair() -> tuple[Engine, Engine]:
    return Engine(), Engine(first_dialogue=100, first_number=1000)


def asked(pair: tuple[Engine, Engine]) -> tuple[Dialogue, Dialogue, int]:
    """An Invoke of A that has reached B: the dialogue at both, and its number."""
    mine = pair[0].dialogue()
    number = mine.invoke(-5, Global(b"\x2a\x03"), b"\x04\x01\xaa", timeout_ms=1000)
    mine.begin(0, b"B", context=CONTEXT, info=INFO)
    begin, invoke = exchange(*pair)
    assert isinstance(begin, BeginInd) and (begin.context, begin.info) == (CONTEXT, INFO)
    assert isinstance(invoke, InvokeInd) and invoke.dialogue == begin.dialogue
    assert (invoke.invoke_id, invoke.linked_id) == (-5, None)
    assert (invoke.code, invoke.parameter) == (Global(b"\x2a\x03"), b"\x04\x01\xaa")
    return mine, begin.dialogue, number


def test_a_result_closes(pair: tuple[Engine, Engine]) -> None:
    mine, theirs, number = asked(pair)
    theirs.result_nl(-5, Local(-7), b"\x04\x00")
    theirs.result_l(-5)
    theirs.end(0)
    end, first, last = exchange(*pair)
    assert isinstance(end, EndInd) and (end.dialogue, end.context, end.info) == (mine, CONTEXT, b"")
    assert isinstance(first, ResultNLInd) and not first.closes and not first.is_last
    assert (first.number, first.code, first.parameter) == (number, Local(-7), b"\x04\x00")
    assert isinstance(last, ResultLInd) and last.closes and last.is_last and last.event == first.event
    assert (last.number, last.code, last.parameter) == (number, None, None)
    assert mine.state() == State.UNKNOWN


def test_an_error_and_a_reject_close(pair: tuple[Engine, Engine]) -> None:
    mine, theirs, number = asked(pair)
    second = mine.invoke(6, Local(1), timeout_ms=9)
    mine.invoke(7, Local(1), timeout_ms=9)
    assert mine.u_cancel(7) == second + 1
    theirs.u_error(-5, Local(3))
    theirs.go_on(0)
    told = exchange(*pair)
    mine.go_on(0)
    told += exchange(*pair)
    theirs.u_reject(6, Problem.INVOKE_MISTYPED_PARAMETER)
    theirs.u_reject(None, Problem.INVOKE_RESOURCE_LIMITATION)
    theirs.go_on(0)
    told += exchange(*pair)
    [error] = [output for output in told if isinstance(output, UErrorInd)]
    assert (error.number, error.code, error.closes) == (number, Local(3), True)
    closing, other = [output for output in told if isinstance(output, URejectInd)]
    assert (closing.number, closing.problem, closing.closes) == (second, Problem.INVOKE_MISTYPED_PARAMETER, True)
    assert (other.number, other.invoke_id, other.closes) == (None, None, False)


def test_an_abort_has_its_pdu(pair: tuple[Engine, Engine]) -> None:
    mine, theirs, number = asked(pair)
    theirs.u_abort(0, tcap.AbortReason.CONTEXT_NOT_SUPPORTED)
    abort, closed = exchange(*pair)
    assert isinstance(abort, UAbortInd) and isinstance(abort.pdu, Aare)
    assert (abort.pdu.is_accepted, abort.pdu.diagnostic) == (False, Diagnostic.USER_CONTEXT_NOT_SUPPORTED)
    assert isinstance(abort.pdu.diagnostic, Diagnostic)
    assert isinstance(closed, ClosedInd) and closed.number == number


def test_an_abort_with_a_cause_that_has_no_name(pair: tuple[Engine, Engine]) -> None:
    mine, _, _ = asked(pair)
    pair[0].receive(0, b"B", bytes.fromhex("67094904") + mine.id.to_bytes(4, "big") + b"\x4a\1\x09")
    [abort, closed] = exchange(*pair)
    assert isinstance(abort, PAbortInd) and (abort.dialogue, abort.cause) == (mine, 9) and isinstance(closed, ClosedInd)


def test_events_are_counted() -> None:
    """tcap.h: moments, messages and requests that were accepted, each; one with now_ms is two."""
    engine = Engine()
    dialogue = engine.dialogue()  # 1
    assert (engine.next_timer(), engine.due(2**62)) == (None, 0)
    for invoke_id in (1, 2):
        dialogue.invoke(invoke_id, Local(1), timeout_ms=9)  # 2, 3
    dialogue.begin(0, b"B")  # 4, 5
    engine.receive(0, b"B", b"\xff")  # 6, 7
    assert engine.next_timer() == 9 and engine.due(9) == _c.LIBRARY.tcap_due(engine._engine, 9) >= 2
    engine.advance(9)  # 8
    assert [(type(output), output.event, output.is_last, output.closes) for output in engine] == [
        (Send, 5, True, False), (Dropped, 7, True, False), (LCancelInd, 8, False, True), (LCancelInd, 8, True, True),
    ]  # fmt: skip


def test_each_limit_is_kept() -> None:
    """docs/PROFILE.md, Time: an identifier waits for `reject_ms` behind its answer, a dialogue for `idle_ms` behind the
    last Continue."""
    engine = Engine(max_dialogues=2, max_message=40, reject_ms=50, idle_ms=900, first_dialogue=7, first_number=9)
    mine, other = engine.dialogue(), engine.dialogue()
    assert (mine.id, other.id, engine.dialogues()) == (7, 8, 2)
    with pytest.raises(tcap.DialoguesFull):
        engine.dialogue()
    assert mine.invoke(1, Local(1), timeout_ms=100) == 9
    assert other.invoke(1, Local(1), b"\4\x1e" + bytes(30), timeout_ms=100) == 10
    mine.begin(0, b"B")
    with pytest.raises(tcap.TooLong):
        other.begin(0, b"B")
    engine.receive(10, b"B", bytes.fromhex("6513 480400000005 490400000007 6c05 a203020101"))
    assert [type(output) for output in engine] == [Send, ContinueInd, ResultLInd]
    engine.advance(59)
    with pytest.raises(tcap.InvokeIdInUse):
        mine.invoke(1, Local(1), timeout_ms=100)
    engine.advance(60)
    assert mine.invoke(1, Local(1), timeout_ms=100) == 11
    engine.advance(909)
    assert engine.next() is None
    engine.advance(910)
    told = list(engine)
    assert [type(output) for output in told] == [PAbortInd, ClosedInd] and told[0].event == told[1].event
    assert isinstance(told[0], PAbortInd) and told[0].cause is AbortCause.IDLE


class Bytes(bytes):
    """Octets that say to have more than they have."""

    def __len__(self) -> int:
        return 2**20

    def __bytes__(self) -> bytes:
        return b"others"


@pytest.mark.parametrize(
    "octets",
    [b"\1\2\3", bytearray(b"\1\2\3"), memoryview(b"\1\2\3"), memoryview(b"\1\0\2\0\3\0")[::2], Bytes(b"\1\2\3")],
    ids=("bytes", "bytearray", "memoryview", "every second octet", "a subclass"),
)
def test_octets_of_each_type(octets: bytes | bytearray | memoryview) -> None:
    engine = Engine()
    engine.dialogue().begin(0, octets)
    assert isinstance(sent := engine.next(), Send) and sent.address == b"\1\2\3"


def test_timers(pair: tuple[Engine, Engine]) -> None:
    mine, _, number = asked(pair)
    assert pair[0].next_timer() == 1000 and pair[0].due(999) == 0 and pair[0].due(1000) >= 1
    pair[0].advance(1000)
    [lapsed] = pair[0]
    assert isinstance(lapsed, LCancelInd) and (lapsed.dialogue, lapsed.number) == (mine, number)
    pair[0].advance(10**9)
    [idle] = pair[0]
    assert isinstance(idle, PAbortInd) and idle.cause is AbortCause.IDLE


def test_octets_that_cannot_be_read(pair: tuple[Engine, Engine]) -> None:
    pair[0].receive(0, b"", b"\xff\xff")
    [dropped] = pair[0]
    assert isinstance(dropped, Dropped) and dropped.cause is DropCause.BAD_MESSAGE
    theirs = pair[1].dialogue()
    theirs.invoke(1, Local(1), op_class=4, timeout_ms=1)
    theirs.uni(0, b"A")
    closed, uni, invoke = exchange(*pair)
    assert isinstance(closed, ClosedInd) and isinstance(uni, UniInd) and isinstance(invoke, InvokeInd) and invoke.dialogue is None
    mine, theirs, _ = asked(pair)
    theirs.result_l(99, Local(1), b"\x04\x00")
    theirs.go_on(0)
    told = exchange(*pair)
    assert isinstance(told[0], ContinueInd) and isinstance(told[1], LRejectInd)
    assert told[1].problem is Problem.RESULT_UNRECOGNIZED_INVOKE_ID and told[1].number is None


def test_a_dialogue_that_is_left_is_aborted(pair: tuple[Engine, Engine]) -> None:
    with pair[0].dialogue() as left:
        assert left.state() == State.IDLE
    assert left.state() == State.UNKNOWN
    with pytest.raises(KeyError), pair[0].dialogue() as left:
        left.begin(7, b"B")
        exchange(*pair)
        [theirs] = [pair[1].dialogue_of(100)]
        theirs.go_on(7)
        exchange(*pair)
        raise KeyError
    assert left.state() == State.UNKNOWN and theirs.state() == State.ACTIVE
    told = exchange(*pair)
    assert [type(output) for output in told] == [UAbortInd] and theirs.state() == State.UNKNOWN


def test_an_abort_that_is_refused_as_a_block_is_left() -> None:
    """It is told, but where an exception ended the block: then that one is."""
    engine = Engine(max_message=1)  # so that no Abort fits
    engine.receive(0, b"B", bytes.fromhex("620648040000000a"))
    [begin] = engine
    assert isinstance(begin, BeginInd)
    with pytest.raises(tcap.TooLong), begin.dialogue:
        pass
    with pytest.raises(KeyError), begin.dialogue:
        raise KeyError
    assert begin.dialogue.state() == State.INITIATION_RECEIVED


def test_states(pair: tuple[Engine, Engine], monkeypatch: pytest.MonkeyPatch) -> None:
    mine = pair[0].dialogue()
    states = [mine.state()]
    mine.begin(0, b"B")
    states.append(mine.state())
    [begin] = exchange(*pair)
    assert isinstance(begin, BeginInd)
    states.append(begin.dialogue.state())
    begin.dialogue.go_on(0)
    states.append(begin.dialogue.state())
    begin.dialogue.end(0)
    states.append(begin.dialogue.state())
    named = [State.IDLE, State.INITIATION_SENT, State.INITIATION_RECEIVED, State.ACTIVE, State.UNKNOWN]
    assert states == named and all(isinstance(state, State) for state in states)
    monkeypatch.setattr(_c.LIBRARY, "tcap_state_of", lambda engine, dialogue: 5)
    assert mine.state() == 5  # of a newer library


def test_dialogues_are_equal_by_engine_and_identifier(pair: tuple[Engine, Engine]) -> None:
    one = pair[0].dialogue()
    assert one == pair[0].dialogue_of(one.id) and one != pair[1].dialogue_of(one.id)
    assert len({one, pair[0].dialogue_of(one.id)}) == 1 and repr(one) == "Dialogue(id=1)"


def test_a_copy_of_an_output_has_its_dialogue(pair: tuple[Engine, Engine]) -> None:
    pair[0].dialogue().begin(0, b"B")
    [begin] = exchange(*pair)
    assert isinstance(begin, BeginInd) and copy.deepcopy(begin) == copy.copy(begin) == begin
    assert dataclasses.asdict(begin)["dialogue"] is begin.dialogue
    assert begin.dialogue in dataclasses.astuple(begin)


def test_identifiers_go_on(pair: tuple[Engine, Engine]) -> None:
    asked(pair)
    dialogue, number = pair[0].next_identifiers()
    with Engine(first_dialogue=dialogue, first_number=number) as following:
        assert following.dialogue().id == dialogue == 2 and pair[0].dialogues() == 1


def test_the_end_of_an_engine() -> None:
    engine = Engine()
    dialogue = engine.dialogue()
    with dialogue:
        engine.close()
    engine.close()
    with pytest.raises(BadArgument):
        dialogue.state()
    for _ in range(100):
        Engine().dialogue().begin(0, b"never taken")
    gc.collect()


def test_a_block_closes_its_engine() -> None:
    with Engine() as engine:
        assert engine.dialogues() == 0
    with pytest.raises(BadArgument, match="closed"):
        engine.dialogues()


def test_the_loop(capsys: pytest.CaptureFixture[str]) -> None:
    runpy.run_path(str(pathlib.Path(__file__).parent.parent / "examples" / "loop.py"), run_name="__main__")
    assert capsys.readouterr().out.splitlines() == [
        "asked as 1", "begin 1 04000001000103", "end 1", "result of 1 0401bb", "continue: unknown dialogue",
    ]  # fmt: skip
