"""Arguments as C takes them. ctypes cuts a number that is too large, so each is looked at before."""
from __future__ import annotations

from enum import IntEnum
from operator import index

from . import _c
from .errors import BadArgument
from .values import Code, Global, Local

Octets = bytes | bytearray | memoryview


def whole(name: str, value: int) -> int:
    """A whole number. TypeError: it is none."""
    try:
        return index(value)  # exactly an int, where one of a subclass may compare as it likes
    except TypeError:
        raise TypeError(f"{name} is a whole number, not {type(value).__name__}") from None


def number(name: str, value: int, low: int, high: int) -> int:
    """A whole number from low to high. TypeError: it is none; BadArgument: it is another."""
    value = whole(name, value)
    if not low <= value <= high:
        raise BadArgument(f"{name} is from {low} to {high}, not {value}")
    return value


def u32(name: str, value: int) -> int:
    """A number of 32 bits."""
    return number(name, value, 0, 2**32 - 1)


def u64(name: str, value: int) -> int:
    """A number of 64 bits."""
    return number(name, value, 0, 2**64 - 1)


def moment(value: int) -> int:
    """Milliseconds."""
    return number("now_ms", value, 0, 2**64 - 1)


def identifier(name: str, value: int | None) -> int:
    """An invoke identifier, or none."""
    return _c.NO_ID if value is None else number(name, value, -128, 127)


def octets(name: str, value: Octets) -> _c.Given:
    """Octets, which may be none."""
    if not isinstance(value, (bytes, bytearray, memoryview)):
        raise TypeError(f"{name} is octets, not {type(value).__name__}")
    held = memoryview(value).tobytes()  # exactly bytes: those of a subclass may say another length
    return _c.Given(held, len(held))


def optional(name: str, value: Octets | None) -> _c.Given:
    """Octets that aren't empty, or None: absent."""
    if value is None:
        return _c.Given(None, 0)
    given = octets(name, value)
    if not given.len:
        raise BadArgument(f"{name} has no octets: None says that it is absent")
    return given


def code(name: str, value: Code | None) -> _c.GivenCode:
    """The code of an operation or an error; None where it may be absent."""
    match value:
        case None:
            return _c.GivenCode(_c.NO_CODE, 0, _c.Given(None, 0))
        case Local(local):
            return _c.GivenCode(_c.LOCAL, number(name, local, -(2**31), 2**31 - 1), _c.Given(None, 0))
        case Global(oid):
            return _c.GivenCode(_c.GLOBAL, 0, octets(name, oid))
    raise TypeError(f"{name} is Local or Global, not {type(value).__name__}")


def portion(context: Octets | None, info: Octets) -> _c.GivenPortion:
    """What the dialogue portion is given."""
    return _c.GivenPortion(optional("context", context), octets("info", info))


def choice(name: str, value: int, kind: type[IntEnum]) -> int:
    """A number of an enumeration. TypeError: it is no whole number; BadArgument: it is another."""
    value = whole(name, value)
    if value not in list(kind):
        raise BadArgument(f"{name} isn't {value}")
    return value
