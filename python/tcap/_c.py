"""tcap.h and tcap_codec.h by ctypes: their structs, field by field, and their calls.

The library is the file that TCAP_LIBRARY names, else libtcap.so.0 as the system's loader finds it. Its calls are made
under the interpreter's lock (PyDLL), since each takes microseconds.
"""
from __future__ import annotations

import ctypes
import os
from ctypes import POINTER, Structure, c_char_p, c_int, c_int16, c_int32, c_size_t, c_uint8, c_uint16, c_uint32, c_uint64
from ctypes import c_void_p

VERSION = 0x000100
NEVER = 2**64 - 1
NO_ID = 256
NO_CODE, LOCAL, GLOBAL = 0, 1, 2
ROOM_TOO_SMALL = 19


class Octets(Structure):
    """Octets of an output."""

    _fields_ = [("at", c_void_p), ("len", c_size_t)]


class Given(Structure):
    """Octets that are passed: laid out as Octets."""

    _fields_ = [("at", c_char_p), ("len", c_size_t)]


class Code(Structure):
    """The code of an output."""

    _fields_ = [("kind", c_int), ("local", c_int32), ("global_", Octets)]


class GivenCode(Structure):
    """A code that is passed."""

    _fields_ = [("kind", c_int), ("local", c_int32), ("global_", Given)]


class Portion(Structure):
    """What the dialogue portion of an output has."""

    _fields_ = [("context", Octets), ("info", Octets)]


class GivenPortion(Structure):
    """A portion that is passed."""

    _fields_ = [("context", Given), ("info", Given)]


class Limits(Structure):
    """tcap_limits."""

    _fields_ = [
        ("size", c_size_t),
        ("max_dialogues", c_uint32),
        ("max_message", c_uint32),
        ("reject_ms", c_uint64),
        ("idle_ms", c_uint64),
        ("first_dialogue", c_uint32),
        ("first_number", c_uint64),
    ]


class Output(Structure):
    """tcap_output."""

    _fields_ = [
        ("event", c_uint64),
        ("number", c_uint64),
        ("address", Octets),
        ("message", Octets),
        ("portion", Portion),
        ("code", Code),
        ("parameter", Octets),
        ("dialogue", c_uint32),
        ("invoke_id", c_int16),
        ("linked_id", c_int16),
        ("problem", c_uint16),
        ("cause", c_uint16),
        ("diagnostic", c_uint16),
        ("kind", c_uint8),
        ("pdu", c_uint8),
        ("closes", c_uint8),
        ("is_last", c_uint8),
        ("has_context", c_uint8),
        ("has_parameter", c_uint8),
        ("is_version1", c_uint8),
        ("is_accepted", c_uint8),
        ("is_by_provider", c_uint8),
    ]


class Ids(Structure):
    """tcap_ids."""

    _fields_ = [
        ("origin", c_uint8 * 4),
        ("destination", c_uint8 * 4),
        ("origin_len", c_uint8),
        ("destination_len", c_uint8),
    ]


# Each call: what it answers, and what it takes.
_E, _D, _MS, _PORTION = c_void_p, c_uint32, c_uint64, POINTER(GivenPortion)
_ROOM: list[object] = [c_char_p, c_size_t, POINTER(c_size_t)]
CALLS: dict[str, tuple[object, list[object]]] = {
    "tcap_open": (c_int, [POINTER(c_void_p), POINTER(Limits)]),
    "tcap_close": (None, [_E]),
    "tcap_set_memory": (c_int, [c_void_p, c_void_p, c_void_p]),
    "tcap_version": (c_uint32, []),
    "tcap_status_text": (c_char_p, [c_int]),
    "tcap_receive": (c_int, [_E, _MS, Given, Given]),
    "tcap_advance": (c_int, [_E, _MS]),
    "tcap_next_timer": (c_uint64, [_E]),
    "tcap_new_dialogue": (c_int, [_E, POINTER(c_uint32)]),
    "tcap_invoke": (c_int, [_E, _D, c_int, c_int, c_int, GivenCode, Given, _MS, POINTER(c_uint64)]),
    "tcap_result_l": (c_int, [_E, _D, c_int, GivenCode, Given]),
    "tcap_result_nl": (c_int, [_E, _D, c_int, GivenCode, Given]),
    "tcap_u_error": (c_int, [_E, _D, c_int, GivenCode, Given]),
    "tcap_u_reject": (c_int, [_E, _D, c_int, c_int]),
    "tcap_u_cancel": (c_int, [_E, _D, c_int, POINTER(c_uint64)]),
    "tcap_uni": (c_int, [_E, _MS, _D, Given, _PORTION]),
    "tcap_begin": (c_int, [_E, _MS, _D, Given, _PORTION]),
    "tcap_continue": (c_int, [_E, _MS, _D, _PORTION]),
    "tcap_end": (c_int, [_E, _MS, _D, c_int, _PORTION]),
    "tcap_u_abort": (c_int, [_E, _MS, _D, c_int, Given]),
    "tcap_next": (POINTER(Output), [_E]),
    "tcap_state_of": (c_int, [_E, _D]),
    "tcap_dialogues": (c_size_t, [_E]),
    "tcap_due": (c_size_t, [_E, _MS]),
    "tcap_next_identifiers": (c_int, [_E, POINTER(c_uint32), POINTER(c_uint64)]),
    "tcap_front": (c_int, [Given, POINTER(Ids)]),
    "tcap_oid_from_text": (c_int, [Given, *_ROOM]),
    "tcap_oid_to_text": (c_int, [Given, *_ROOM]),
    "tcap_show": (c_int, [Given, *_ROOM, POINTER(c_int)]),
    "tcap_check": (c_int, [Given, *_ROOM, POINTER(c_int)]),
    "tcap_canon": (c_int, [Given, *_ROOM, POINTER(c_int)]),
}


def _load() -> ctypes.PyDLL:
    """The library, with its calls typed. ImportError: it isn't there, or is older than this package."""
    name = os.environ.get("TCAP_LIBRARY", "libtcap.so.0")
    try:
        library = ctypes.PyDLL(name)
        for call, (answer, takes) in CALLS.items():
            function = getattr(library, call)
            function.restype, function.argtypes = answer, takes
    except (OSError, AttributeError) as error:
        raise ImportError(f"tcap: the library {name} can't be loaded: {error}") from error
    found = library.tcap_version()
    if found >> 16 != VERSION >> 16 or found < VERSION:
        raise ImportError(f"tcap: the library {name} is of version {found:#08x}, this package needs {VERSION:#08x}")
    return library


LIBRARY = _load()
