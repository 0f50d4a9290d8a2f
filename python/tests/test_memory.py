"""Memory that is refused: OutOfMemory, nothing has changed, and the same call again succeeds."""
from __future__ import annotations

import ctypes
import pathlib
import subprocess
import sys

import pytest

import tcap
from tcap import Local

STORY = """
import sys
sys.path.insert(0, sys.argv[1])
from refusing import Memory
memory = Memory()
from test_memory import story
memory.refuse_from(None)
asked = memory.count(story)
for nth in range(asked):
    told = story(memory, nth)
    print(nth, memory.asked(), told)
"""


ENDS = """
import gc, sys
sys.path.insert(0, sys.argv[1])
from refusing import Memory
memory = Memory()
import tcap
def used():
    engine = tcap.Engine()
    engine.dialogue().begin(0, b"hlr", context=bytes.fromhex("04000001000103"))
    assert memory.live()
    return engine
def closed():
    used().close()
def left():
    with used() as engine:
        pass
    assert not memory.live(), "left"
def left_by_an_error():
    try:
        with used() as engine:
            raise KeyError
    except KeyError:
        assert not memory.live(), "left by an error"
def dropped():
    engine = used()
def cyclic():
    engine = used()
    engine.itself = engine
for end in (closed, left, left_by_an_error, dropped, cyclic):
    end()
    gc.collect()
    print(end.__name__, memory.live())
"""


def run(program: str) -> list[str]:
    """The lines that a program prints, whose memory comes from refusing.py."""
    here = pathlib.Path(__file__).parent
    command = [sys.executable, "-c", program, str(here)]
    ran = subprocess.run(command, capture_output=True, text=True, cwd=here.parent, timeout=50)
    assert ran.returncode == 0, ran.stderr
    return ran.stdout.splitlines()


def test_an_engine_gives_all_its_memory_back() -> None:
    assert run(ENDS) == ["closed 0", "left 0", "left_by_an_error 0", "dropped 0", "cyclic 0"]


def story(memory: object = None, nth: int = -1) -> bool:
    """A dialogue; the nth request for memory is refused, and the call that was refused made again. Whether one was."""
    refused = False

    def again(call: object) -> object:
        nonlocal refused
        try:
            return call()  # type: ignore[operator]
        except tcap.OutOfMemory:
            assert not refused
            refused = True
            return call()  # type: ignore[operator]

    if memory is not None:
        memory.refuse_from(nth)  # type: ignore[attr-defined]
    engine = again(lambda: tcap.Engine())
    assert isinstance(engine, tcap.Engine)
    dialogue = again(engine.dialogue)
    assert isinstance(dialogue, tcap.Dialogue)
    assert again(lambda: dialogue.invoke(1, Local(2), b"\x04\x01\xaa", timeout_ms=5000)) == 1
    again(lambda: dialogue.begin(0, b"hlr", context=bytes.fromhex("04000001000103")))
    again(lambda: engine.receive(1, b"hlr", bytes.fromhex("67064904") + dialogue.id.to_bytes(4, "big")))
    assert [type(output) for output in engine] == [tcap.Send, tcap.UAbortInd, tcap.ClosedInd]
    engine.close()
    return refused


def test_each_request_refused_once() -> None:
    told = [line.split()[2] == "True" for line in run(STORY)]
    assert len(told) > 10 and told.count(False) <= 2  # an engine does without two places for what dialogues leave


def test_out_of_memory_is_a_memory_error() -> None:
    assert issubclass(tcap.OutOfMemory, MemoryError)
    with pytest.raises(tcap.BadArgument):
        from tcap import _c
        from tcap.errors import refusal

        status = _c.LIBRARY.tcap_set_memory(None, None, None)
        raise refusal(status, tcap.status_text(status))
    assert ctypes.sizeof(_c.Output) == 144 and ctypes.sizeof(_c.Limits) == 48
