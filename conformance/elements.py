"""Which octets are an element by docs/PROFILE.md, "BER elements", and by which rule others are none. What
stands in an element of definite length isn't looked into here, as the profile has it."""

FURTHER_LIMIT = 4
LENGTH_LIMIT = 0xFFFF
OPEN_LIMIT = 32

# The rules by which octets are no element.
ZERO_TAG = "an element begins with 00"
PADDED_TAG = "the first further octet of a tag is 80"
LONG_TAG = "a tag has more than four further octets"
BAD_LENGTH = "a length is FF or above 65,535"
PRIMITIVE = "a primitive element has the indefinite length"
TOO_DEEP = "a 33rd element of indefinite length is open"
SHORT = "the octets end first"


class Fault(Exception):
    """The first rule that octets break."""


def fault(octets):
    """The rule by which octets aren't one element, SHORT also where octets follow; None where they are."""
    try:
        return None if element_end(octets, 0, 0) == len(octets) else SHORT
    except Fault as broken:
        return broken.args[0]


def list_fault(octets):
    """The rule by which octets aren't elements one after the other, or None."""
    try:
        at = 0
        while at < len(octets):
            at = element_end(octets, at, 0)
        return None
    except Fault as broken:
        return broken.args[0]


def octet_at(octets, at):
    if at >= len(octets):
        raise Fault(SHORT)
    return octets[at]


def tag_end(octets, at):
    """The place behind a tag."""
    first = octet_at(octets, at)
    if first == 0:
        raise Fault(ZERO_TAG)
    if first & 0x1F != 0x1F:
        return at + 1
    for further in range(FURTHER_LIMIT):
        octet = octet_at(octets, at + 1 + further)
        if further == 0 and octet == 0x80:
            raise Fault(PADDED_TAG)
        if octet < 0x80:
            return at + 2 + further
    raise Fault(LONG_TAG)


def element_end(octets, at, opened):
    """The place behind an element that stands in so many open ones of indefinite length."""
    constructed = octet_at(octets, at) & 0x20
    at = tag_end(octets, at)
    first = octet_at(octets, at)
    if first == 0x80 and not constructed:
        raise Fault(PRIMITIVE)
    if first == 0x80 and opened == OPEN_LIMIT:
        raise Fault(TOO_DEEP)
    if first == 0x80:
        return indefinite_end(octets, at + 1, opened + 1)
    at, length = length_end(octets, at)
    if at + length > len(octets):
        raise Fault(SHORT)
    return at + length


def length_end(octets, at):
    """The place behind a definite length, and its value."""
    first = octets[at]
    if first < 0x80:
        return at + 1, first
    end = at + 1 + (first & 0x7F)
    if first == 0xFF:
        raise Fault(BAD_LENGTH)
    if end > len(octets):
        raise Fault(SHORT)
    value = int.from_bytes(octets[at + 1 : end], "big")
    if value > LENGTH_LIMIT:
        raise Fault(BAD_LENGTH)
    return end, value


def indefinite_end(octets, at, opened):
    """The place behind 00 00, before which elements stand."""
    while octet_at(octets, at) != 0:
        at = element_end(octets, at, opened)
    if octet_at(octets, at + 1) != 0:
        raise Fault(ZERO_TAG)
    return at + 2
