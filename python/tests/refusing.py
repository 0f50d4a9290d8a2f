"""The library's memory taken from here, and refused on demand. Made before the first engine."""
from __future__ import annotations

import ctypes
from collections.abc import Callable

from tcap import _c

_TAKE = ctypes.CFUNCTYPE(ctypes.c_void_p, ctypes.c_size_t)
_GROW = ctypes.CFUNCTYPE(ctypes.c_void_p, ctypes.c_void_p, ctypes.c_size_t)
_GIVE_BACK = ctypes.CFUNCTYPE(None, ctypes.c_void_p)


class Memory:
    """malloc's, counted: the request of a number, from 0, is refused once, or from it on each."""

    def __init__(self) -> None:
        libc = ctypes.CDLL(None)
        malloc, realloc, free = libc.malloc, libc.realloc, libc.free
        malloc.restype, malloc.argtypes = ctypes.c_void_p, [ctypes.c_size_t]
        realloc.restype, realloc.argtypes = ctypes.c_void_p, [ctypes.c_void_p, ctypes.c_size_t]
        free.restype, free.argtypes = None, [ctypes.c_void_p]
        self._asked, self._from, self._is_for_good, self._live = 0, -1, False, 0

        def take(size: int) -> object:
            block = None if self._is_refused() else malloc(size)
            self._live += block is not None
            return block

        def give_back(block: object) -> None:
            self._live -= 1
            free(block)

        self._kept = (
            _TAKE(take),
            _GROW(lambda block, size: None if self._is_refused() else realloc(block, size)),
            _GIVE_BACK(give_back),
        )
        if _c.LIBRARY.tcap_set_memory(*(ctypes.cast(function, ctypes.c_void_p) for function in self._kept)):
            raise RuntimeError("tcap_set_memory")

    def _is_refused(self) -> bool:
        self._asked += 1
        return self._asked - 1 == self._from or (self._is_for_good and self._asked > self._from)

    def refuse_from(self, nth: int | None, is_for_good: bool = False) -> None:
        """The nth request from now is refused, and with `is_for_good` all behind it too; None: none is."""
        self._asked, self._from, self._is_for_good = 0, -1 if nth is None else nth, is_for_good and nth is not None

    def asked(self) -> int:
        """How many requests were made since refuse_from."""
        return self._asked

    def live(self) -> int:
        """How many blocks the library has."""
        return self._live

    def count(self, run: Callable[[], object]) -> int:
        """How many requests for memory this makes."""
        self._asked = 0
        run()
        return self._asked
