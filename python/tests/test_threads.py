"""What may happen while an output is read: an exception, another thread, another call."""
import threading

import pytest

from tcap import BadArgument, Dialogue, Engine, Output, Send, _told


@pytest.mark.parametrize("kind", [MemoryError, KeyboardInterrupt])
def test_an_output_that_could_not_be_read_is_told_next(kind: type[BaseException], monkeypatch: pytest.MonkeyPatch) -> None:
    engine = Engine()
    for address in (b"A", b"B"):
        engine.dialogue().begin(0, address)
    with monkeypatch.context() as patch, pytest.raises(kind):
        patch.setattr(_told, "output", lambda of, output: (_ for _ in ()).throw(kind))
        engine.next()
    assert [output.address for output in engine if isinstance(output, Send)] == [b"A", b"B"]


def test_another_thread_waits_until_an_output_is_read(monkeypatch: pytest.MonkeyPatch) -> None:
    engine, read, found = Engine(), _told.output, []
    other = threading.Thread(target=lambda: found.append(engine.next()))

    def read_later(of: Engine, output: object) -> Output:
        monkeypatch.setattr(_told, "output", read)
        other.start()
        other.join(timeout=0.1)
        assert other.is_alive()
        return read(of, output)

    for address in (b"A", b"B"):
        engine.dialogue().begin(0, address)
    monkeypatch.setattr(_told, "output", read_later)
    found.append(engine.next())
    other.join()
    assert [output.address for output in found if isinstance(output, Send)] == [b"A", b"B"]


def test_a_call_within_next(monkeypatch: pytest.MonkeyPatch) -> None:
    """As where a collection, which may come while an output is read, leaves a dialogue's block."""
    engine, read = Engine(), _told.output

    def read_later(of: Engine, output: object) -> Output:
        for refused in (of.next, of.close):
            with pytest.raises(BadArgument, match="being read"):
                refused()
        with of.dialogue():
            assert of.dialogues() == 2
        return read(of, output)

    engine.dialogue().begin(0, b"B")
    monkeypatch.setattr(_told, "output", read_later)
    assert isinstance(engine.next(), Send) and engine.next() is None and engine.dialogues() == 1


def test_threads_share_an_engine() -> None:
    engine, found = Engine(), []

    def many() -> None:
        for _ in range(200):
            engine.dialogue().begin(0, b"B")
            output = engine.next()
            assert isinstance(output, Send)
            found.append(output.message)

    threads = [threading.Thread(target=many) for _ in range(4)]
    for thread in threads:
        thread.start()
    for thread in threads:
        thread.join()
    assert len(found) == len(set(found)) == 800 and engine.next() is None


def test_an_output_that_was_not_read_goes_with_its_engine(monkeypatch: pytest.MonkeyPatch) -> None:
    engine = Engine()
    engine.dialogue().begin(0, b"A")
    with monkeypatch.context() as patch, pytest.raises(MemoryError):
        patch.setattr(_told, "output", lambda of, output: (_ for _ in ()).throw(MemoryError))
        engine.next()
    engine.close()
    with pytest.raises(BadArgument, match="closed"):
        engine.next()


def test_no_thread_closes_an_engine_while_a_block_is_left(monkeypatch: pytest.MonkeyPatch) -> None:
    engine, state = Engine(), Dialogue.state
    other = threading.Thread(target=engine.close)

    def state_later(of: Dialogue) -> int:
        other.start()
        other.join(timeout=0.1)
        assert other.is_alive()
        return state(of)

    monkeypatch.setattr(Dialogue, "state", state_later)
    with pytest.raises(LookupError), engine.dialogue():
        raise LookupError
    other.join()
