"""BER elements and TCAP messages, read and written by docs/PROFILE.md (BER elements, Messages)."""

import collections

LONGEST = 65_535
DEEPEST = 32
MESSAGES = {b"\x61": "unidirectional", b"\x62": "begin", b"\x64": "end", b"\x65": "continue", b"\x67": "abort"}
BADLY_FORMATTED, UNKNOWN, INCORRECT = 2, 0, 3

Element = collections.namedtuple("Element", "tag content end")


class Unreadable(Exception):
    """Octets that aren't the elements that they should be."""


class Unlisted(Exception):
    """Elements that aren't the listed sequence."""


class FaultyMessage(Exception):
    """A message that can't be taken; its argument is the P-Abort cause."""


# ---- reading elements


def octet_at(octets, at):
    if at >= len(octets):
        raise Unreadable
    return octets[at]


def read_tag(octets, at):
    """The identifier octets that begin at a place."""
    first = octet_at(octets, at)
    if first == 0x00:
        raise Unreadable
    if first & 0x1F != 0x1F:
        return octets[at : at + 1]
    for further in range(1, 5):
        octet = octet_at(octets, at + further)
        if further == 1 and octet == 0x80:
            raise Unreadable
        if not octet & 0x80:
            return octets[at : at + further + 1]
    raise Unreadable


def read_head(octets, at):
    """The tag, the length (none for the indefinite form) and the place of the contents."""
    tag = read_tag(octets, at)
    at += len(tag)
    first = octet_at(octets, at)
    at += 1
    if first < 0x80:
        return tag, first, at
    if first == 0x80 and tag[0] & 0x20:
        return tag, None, at
    if first in (0x80, 0xFF):
        raise Unreadable
    behind = at + (first & 0x7F)
    length = int.from_bytes(octets[at:behind], "big")
    if behind > len(octets) or length > LONGEST:
        raise Unreadable
    return tag, length, behind


def read_element(octets, at, depth=0):
    """The element that begins at a place, within so many open ones of indefinite form."""
    tag, length, start = read_head(octets, at)
    if length is None:
        return read_indefinite(octets, tag, start, depth + 1)
    if start + length > len(octets):
        raise Unreadable
    return Element(tag, octets[start : start + length], start + length)


def read_indefinite(octets, tag, start, depth):
    if depth > DEEPEST:
        raise Unreadable
    at = start
    while octets[at : at + 2] != b"\x00\x00":
        at = read_element(octets, at, depth).end
    return Element(tag, octets[start:at], at + 2)


def read_elements(octets):
    """The elements that octets are, one after the other."""
    elements, at = [], 0
    while at < len(octets):
        elements.append(read_element(octets, at))
        at = elements[-1].end
    return elements


def read_only_element(octets):
    """The one element that octets are, with nothing after it."""
    element = read_element(octets, 0)
    if element.end != len(octets):
        raise Unreadable
    return element


def is_only_element(octets):
    try:
        read_only_element(octets)
    except Unreadable:
        return False
    return True


class Parts:
    """The elements of some contents, taken in the listed order."""

    def __init__(self, octets):
        self.octets = octets
        self.left = read_elements(octets)
        self.at = 0

    def take(self):
        """The contents of the next element, and its octets as they stand."""
        element = self.left.pop(0)
        start, self.at = self.at, element.end
        return element.content, self.octets[start : element.end]

    def optional(self, *tags):
        """The contents of the next element if it has one of the tags."""
        return self.take()[0] if self.next_tag() in tags else None

    def needed(self, *tags):
        """The contents of the next element, which must have one of the tags."""
        content = self.optional(*tags)
        if content is None:
            raise Unlisted
        return content

    def next_tag(self):
        return self.left[0].tag if self.left else None

    def end(self):
        if self.left:
            raise Unlisted


def is_integer(content):
    """Whether contents are an integer in the fewest octets, one to four."""
    if len(content) > 1 and (content[0], content[1] & 0x80) in ((0x00, 0x00), (0xFF, 0x80)):
        return False
    return 1 <= len(content) <= 4


def is_object_identifier(content):
    if not 1 <= len(content) <= 255 or content[-1] >= 0x80:
        return False
    return all(octet != 0x80 or (at and content[at - 1] >= 0x80) for at, octet in enumerate(content))


def read_small(content):
    """A number of one octet, 00 to 7F."""
    if len(content) != 1 or content[0] > 0x7F:
        raise Unlisted
    return content[0]


# ---- writing elements


def write_element(tag, content):
    """An element with the shortest definite length."""
    length = len(content)
    if length < 0x80:
        return bytes([tag, length]) + content
    size = (length.bit_length() + 7) // 8
    return bytes([tag, 0x80 | size]) + length.to_bytes(size, "big") + content


def write_integer(tag, number):
    """An integer in the fewest octets."""
    size = (number if number >= 0 else ~number).bit_length() // 8 + 1
    return write_element(tag, number.to_bytes(size, "big", signed=True))


# ---- messages


def read_message(octets):
    """What a message says, by the names of its parts."""
    try:
        whole = read_only_element(octets)
    except Unreadable as fault:
        raise FaultyMessage(BADLY_FORMATTED) from fault
    if whole.tag not in MESSAGES:
        raise FaultyMessage(UNKNOWN)
    try:
        return take_message(MESSAGES[whole.tag], Parts(whole.content))
    except Unreadable as fault:
        raise FaultyMessage(BADLY_FORMATTED) from fault
    except Unlisted as fault:
        raise FaultyMessage(INCORRECT) from fault


def take_message(kind, parts):
    message = {"kind": kind, "origin": None, "destination": None, "cause": None}
    if kind in ("begin", "continue"):
        message["origin"] = read_transaction(parts.needed(b"\x48"))
    if kind in ("end", "continue", "abort"):
        message["destination"] = read_transaction(parts.needed(b"\x49"))
    if kind == "abort" and parts.next_tag() == b"\x4a":
        message["cause"] = read_small(parts.needed(b"\x4a"))
        message["portion"] = None
    else:
        message["portion"] = parts.optional(b"\x6b")
    if kind == "unidirectional":
        message["components"] = parts.needed(b"\x6c")
    elif kind != "abort":
        message["components"] = parts.optional(b"\x6c") or b""
    parts.end()
    return message


def read_transaction(content):
    if not 1 <= len(content) <= 4:
        raise Unlisted
    return content


def write_message(kind, origin=None, destination=None, cause=None, portion=None, components=b""):
    """A message of the parts that are given."""
    tag = next(tag for tag, name in MESSAGES.items() if name == kind)[0]
    content = b""
    if origin is not None:
        content += write_element(0x48, origin)
    if destination is not None:
        content += write_element(0x49, destination)
    if cause is not None:
        content += write_element(0x4A, bytes([cause]))
    if portion is not None:
        content += write_element(0x6B, portion)
    if components:
        content += write_element(0x6C, components)
    return write_element(tag, content)


def read_front(octets):
    """The originating and the destination transaction identifier at the front of a faulty message."""
    origin = destination = None
    try:
        tag, length, at = read_head(octets, 0)
        if not tag[0] & 0x20:
            return None, None
        behind = octets[at:] if length is None else octets[at : at + length]
        element = read_element(behind, 0)
        if element.tag == b"\x48":
            origin = element.content
            element = read_element(behind, element.end)
        if element.tag == b"\x49":
            destination = element.content
    except Unreadable:
        pass
    return tuple(content if content and len(content) <= 4 else None for content in (origin, destination))
