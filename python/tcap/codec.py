"""tcap_codec.h: what TCAP octets are, without an engine (ITU-T Q.773, X.690)."""
from __future__ import annotations

from ctypes import byref, c_int, c_size_t, create_string_buffer
from dataclasses import dataclass
from typing import Any

from . import _c, _given
from ._given import Octets
from .engine import status_text
from .errors import refusal


@dataclass(frozen=True, slots=True)
class TransactionIds:
    """The transaction identifiers at the front of a message, 1 to 4 octets each; None where none can be read."""

    origin: bytes | None
    destination: bytes | None


def _call(name: str, *arguments: Any) -> int:
    """A call that answers a status: OK or ROOM_TOO_SMALL. Any other is raised."""
    status: int = getattr(_c.LIBRARY, name)(*arguments)
    if status not in (0, _c.ROOM_TOO_SMALL):
        raise refusal(status, f"{name[len('tcap_') :]}: {status_text(status)}")
    return status


def _roomed(name: str, given: _c.Given, *more: Any) -> bytes:
    """What a call writes into a room, which is made larger where it is too small."""
    length = c_size_t(4096)
    while True:
        room = create_string_buffer(length.value)
        if _call(name, given, room, len(room), byref(length), *more) == 0:
            return room.raw[: length.value]


def oid(text: str) -> bytes:
    """The contents octets of the object identifier that a text names, as "0.4.0.0.1.0.1.3": what a context and a Global
    take. Decimal numbers without leading zeros, each at most 4,294,967,295, behind a first number 2 at most
    4,294,967,215. BadOid: the text names none."""
    if not isinstance(text, str):
        raise TypeError(f"text is a str, not {type(text).__name__}")
    return _roomed("tcap_oid_from_text", _given.octets("text", text.encode("ascii", "replace")))


def oid_text(octets: Octets) -> str:
    """The text of an object identifier's contents octets. BadOid: they are none, or a number in it is above
    4,294,967,295."""
    return _roomed("tcap_oid_to_text", _given.octets("octets", octets)).decode()


def front(message: Octets) -> TransactionIds:
    """The transaction identifiers of a message, as a router needs them, also where what stands behind them is faulty or
    missing."""
    ids = _c.Ids()
    _call("tcap_front", _given.octets("message", message), byref(ids))
    origin, destination = bytes(ids.origin[: ids.origin_len]), bytes(ids.destination[: ids.destination_len])
    return TransactionIds(origin or None, destination or None)


def _judged(name: str, message: Octets) -> tuple[str, bool]:
    is_good = c_int()
    text = _roomed(name, _given.octets("message", message), byref(is_good))
    return text.decode(), bool(is_good.value)


def show(message: Octets) -> str:
    """A message line by line, as the command `tcap show` prints it; of octets that are none the verdict. OutOfMemory."""
    return _judged("tcap_show", message)[0]


def check(message: Octets) -> str:
    """The verdict on a message, as `tcap check` prints it: "good", or its fault. OutOfMemory."""
    return _judged("tcap_check", message)[0].removesuffix("\n")


def canon(message: Octets) -> bytes | None:
    """The canonical form of a message; None where the verdict isn't good, as where that form would
    be above 65,535 octets. OutOfMemory."""
    text, is_good = _judged("tcap_canon", message)
    return bytes.fromhex(text) if is_good else None
