"""An engine."""
from __future__ import annotations

import ctypes
from collections.abc import Iterator
from ctypes import byref, c_uint32, c_uint64, c_void_p
from threading import RLock
from types import TracebackType
from typing import Any, NoReturn

from . import _c, _given, _told
from ._given import Octets
from .dialogue import Dialogue
from .errors import BadArgument, refusal
from .outputs import Output


def status_text(status: int) -> str:
    """What a status means, in a few words."""
    text: bytes = _c.LIBRARY.tcap_status_text(_given.number("status", status, 0, 2**31 - 1))
    return text.decode()


def library_version() -> tuple[int, int, int]:
    """Major, minor and patch of the library."""
    version: int = _c.LIBRARY.tcap_version()
    return version >> 16, version >> 8 & 255, version & 255


class Engine:
    """An engine, and what waits to be sent and told.

    It has no input or output, no clock and no thread: hand it what happens, and take what it wants sent and tells:

        engine.receive(now_ms, sender, message)
        for output in engine:         # all that waits, in order; requests may be made in here
            match output: ...

    Moments are milliseconds by any clock that doesn't go back, at most 2^62. A call that is refused raises a TcapError
    and has changed nothing. Threads may share an engine: its calls come one after the other, by a lock of its own. A
    call within `next` by the same thread, as by a collection or a signal handler, is made at once; `next` and `close`
    are a BadArgument there. An engine isn't copied or pickled: TypeError.
    """

    def __init__(
        self,
        *,
        max_dialogues: int = 65535,
        max_message: int = 65535,
        reject_ms: int = 1000,
        idle_ms: int = 600_000,
        first_dialogue: int = 1,
        first_number: int = 1,
    ) -> None:
        """How many dialogues may stand, and how many octets the layer below carries, 1 to 65,535 each; how long an
        invoke identifier waits for a Reject; how long a dialogue may stand still, 0: for ever; the identifier of the
        first dialogue and the number of the first invocation, neither of them 0."""
        if hasattr(self, "_lock"):  # the engine that it has would be lost
            raise TypeError("an engine is opened once")
        self._lock = RLock()  # a collection within `next` may leave a dialogue's block, which calls the engine
        self._engine: int | None = None
        self._is_read = False
        self._taken: Any = None
        limits = _c.Limits(
            ctypes.sizeof(_c.Limits),
            _given.u32("max_dialogues", max_dialogues),
            _given.u32("max_message", max_message),
            _given.u64("reject_ms", reject_ms),
            _given.u64("idle_ms", idle_ms),
            _given.u32("first_dialogue", first_dialogue),
            _given.u64("first_number", first_number),
        )
        engine = c_void_p()
        status = _c.LIBRARY.tcap_open(byref(engine), byref(limits))
        if status:
            raise refusal(status, f"Engine: {status_text(status)}")
        self._engine = engine.value

    def close(self) -> None:
        """Gives back the engine's memory. What waits is lost, and each later call is a BadArgument."""
        with self._lock:
            self._unread()
            engine, self._engine, self._taken = self._engine, None, None
            if engine is not None:
                _c.LIBRARY.tcap_close(engine)

    def __enter__(self) -> Engine:
        """BadArgument: it is closed."""
        with self._lock:
            self._open()
        return self

    def __exit__(
        self, kind: type[BaseException] | None, error: BaseException | None, trace: TracebackType | None
    ) -> None:
        self.close()

    def __del__(self) -> None:
        if getattr(self, "_engine", None) is not None:
            self.close()

    def __reduce__(self) -> NoReturn:
        """A copy would close the same engine of C once more: copy, deepcopy and pickle ask for this."""
        raise TypeError("an engine can't be copied or pickled")

    def _open(self) -> int:
        """The pointer that C takes; under the lock."""
        if self._engine is None:
            raise BadArgument("the engine is closed")
        return self._engine

    def _unread(self) -> None:
        """Under the lock: no output of C is being copied, as it is where a collection in `next` comes here."""
        if self._is_read:
            raise BadArgument("an output is being read")

    def _call(self, name: str, *arguments: Any) -> None:
        """A call that answers a status."""
        with self._lock:
            status: int = getattr(_c.LIBRARY, name)(self._open(), *arguments)
        if status:
            raise refusal(status, f"{name[len('tcap_') :]}: {status_text(status)}")

    def _get(self, name: str, *arguments: Any) -> int:
        """A call that answers a number."""
        with self._lock:
            value: int = getattr(_c.LIBRARY, name)(self._open(), *arguments)
        return value

    # ---- what happens

    def receive(self, now_ms: int, sender: Octets, message: Octets) -> None:
        """A message was received from an address, 0 to 255 octets. MomentTooLate, OutOfMemory."""
        given = _given.octets("sender", sender), _given.octets("message", message)
        self._call("tcap_receive", _given.moment(now_ms), *given)

    def advance(self, now_ms: int) -> None:
        """Time has come so far: what is due is told. MomentTooLate, OutOfMemory."""
        self._call("tcap_advance", _given.moment(now_ms))

    def dialogue(self) -> Dialogue:
        """A new dialogue, in which nothing has happened. DialoguesFull, DialogueIdsSpent, OutOfMemory."""
        identifier = c_uint32()
        self._call("tcap_new_dialogue", byref(identifier))
        return self.dialogue_of(identifier.value)

    def dialogue_of(self, id: int) -> Dialogue:
        """The dialogue with this identifier, whether it stands or not."""
        return Dialogue(self, _given.u32("id", id))

    # ---- what is to be sent and told

    def next(self) -> Output | None:
        """The output that comes next, which waits no longer; None where nothing waits. Where an exception comes while its
        octets are copied, as MemoryError, the next call answers it. A KeyboardInterrupt just before or just behind may
        lose it: a program that is to lose none blocks the signal here."""
        with self._lock:
            self._unread()
            self._is_read = True
            try:
                # C keeps an output until it is asked for the next: `_taken` is one that was taken, and not yet told.
                self._taken = self._taken or _c.LIBRARY.tcap_next(self._open())
                output = _told.output(self, self._taken.contents) if self._taken else None
                self._taken = None
                return output
            finally:
                self._is_read = False

    def __iter__(self) -> Iterator[Output]:
        """All that waits, in order, also what comes to wait on the way."""
        while (output := self.next()) is not None:
            yield output

    # ---- what is seen of it

    def next_timer(self) -> int | None:
        """The moment for the next `advance`; None where no timer runs."""
        at = self._get("tcap_next_timer")
        return None if at == _c.NEVER else at

    def dialogues(self) -> int:
        """How many dialogues stand."""
        return self._get("tcap_dialogues")

    def due(self, now_ms: int) -> int:
        """For how many outputs `advance` finds room at this moment: 0 where it tells nothing, and else at least as many
        as it tells."""
        return self._get("tcap_due", _given.moment(now_ms))

    def next_identifiers(self) -> tuple[int, int]:
        """The identifier of the next dialogue and the number of the next invocation: keep them to open the next engine
        where this one left off."""
        dialogue, number = c_uint32(), c_uint64()
        self._call("tcap_next_identifiers", byref(dialogue), byref(number))
        return dialogue.value, number.value
