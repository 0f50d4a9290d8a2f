"""What `tcap` refuses by a rule of docs/PROFILE.md and another decoder may take. Each class has a condition
that a field meets, which is exactly that of the rule, and changes the field so that the rule holds."""

from ber import Element, integer_size
from elements import LONG_TAG, OPEN_LIMIT, PADDED_TAG, ZERO_TAG, fault
from externals import is_bit_string, is_identifier
from fields import (
    LIMITS,
    SYNTAXES,
    is_foreign_portion,
    is_integer,
    is_object_identifier,
    is_ours,
    is_unread,
    number,
    replace,
    put,
    tag_number,
)

STRINGS = {"identifier", "cause", "version", "source", "linked", "problem"}


def linked_absent(name, holder, place, element):
    if name == "linked" and tag_number(element) == 1:
        del holder.inside[place]
        return True


def null_identifier(name, holder, place, element):
    if name == "invoke id" and element.tag == b"\x05" and holder.tag in (b"\xa1", b"\xa2", b"\xa3", b"\xa7"):
        return put(element, b"\x02", b"\x00")


def wide_identifier(name, holder, place, element):
    if name in ("invoke id", "linked") and is_integer(name, element) and not -128 <= number(element) <= 127:
        return put(element, element.tag, b"\x00")


def empty_integer(name, holder, place, element):
    if is_integer(name, element) and not element.inside:
        return put(element, element.tag, b"\x00")


def padded(name, holder, place, element):
    if is_integer(name, element) and len(element.inside) > integer_size(number(element)):
        return put(element, element.tag, element.inside[-integer_size(number(element)) :])


def wide_code(name, holder, place, element):
    if name == "code" and is_integer(name, element) and len(element.inside) > 4:
        return put(element, element.tag, b"\x00")


def wide_number(name, holder, place, element):
    if name in LIMITS and is_integer(name, element) and not 0 <= number(element) <= LIMITS[name]:
        return put(element, element.tag, b"\x00")


def foreign_portion(name, holder, place, element):
    if is_foreign_portion(name, element) and tag_number(holder) != 7:
        del holder.inside[place]
        return True


def no_reference(name, holder, place, element):
    if name == "external" and tags(element)[:1] != [b"\x06"]:
        return put(element, b"\x28", abort_parts())


def other_external(name, holder, place, element):
    if name == "external" and is_ours(element) and tags(element) != [b"\x06", b"\xa0"]:
        return put(element, element.tag, abort_parts())


def tags(element):
    return [child.tag for child in element.children]


def abort_parts():
    """What an EXTERNAL with an ABRT by the user holds."""
    return [Element(b"\x06", SYNTAXES[0]), Element(b"\xa0", [Element(b"\x64", [Element(b"\x80", b"\x00")])])]


def parted_string(name, holder, place, element):
    if name in STRINGS and element.tag[0] & 0x20:
        content = b"".join(child.content() for child in element.children)
        return put(element, bytes([element.tag[0] & 0xDF]) + element.tag[1:], content)


def long_tag(name, holder, place, element):
    listed = name != "parameter" and (name != "encoding" or is_ours(holder))
    if listed and len(element.tag) > 1 and tag_number(element) < 31:
        element.tag = bytes([element.tag[0] & 0xE0 | tag_number(element)])
        return True


def broken_identifier(name, holder, place, element):
    if is_object_identifier(name, element) and not is_identifier(element.content()):
        return put(element, element.tag, b"\x2a\x03")


def long_identifier(name, holder, place, element):
    if is_object_identifier(name, element) and len(element.content()) > 255:
        return put(element, element.tag, b"\x2a\x03")


def version_bits(name, holder, place, element):
    if name == "version" and element.tag == b"\x80" and not is_bit_string(element.inside):
        return put(element, element.tag, b"\x07\x80")


def wide_transaction(name, holder, place, element):
    if name == "identifier" and not element.tag[0] & 0x20 and not 1 <= len(element.inside) <= 4:
        return put(element, element.tag, bytes(4))


def deep(name, holder, place, element):
    if opened(element) > OPEN_LIMIT:
        close_below(element, OPEN_LIMIT)
        return True


def opened(element):
    """How many elements of indefinite length are open at most, one in another, from this one on."""
    if element.form != "indefinite":
        return 0
    return 1 + max(map(opened, element.children), default=0)


def close_below(element, depth):
    """Gives a definite length to each element that stands in so many open ones."""
    if element.form == "indefinite" and depth == 0:
        element.form = 0
    elif element.form == "indefinite":
        for child in element.children:
            close_below(child, depth - 1)


def zero_tag(name, holder, place, element):
    return is_unread(name, holder) and fault(element.octets()) == ZERO_TAG and replace(name, element)


def padded_tag(name, holder, place, element):
    return is_unread(name, holder) and fault(element.octets()) == PADDED_TAG and replace(name, element)


def five_octet_tag(name, holder, place, element):
    return is_unread(name, holder) and fault(element.octets()) == LONG_TAG and replace(name, element)


STRICTER = [
    ("a linked identifier that is absent (81 00)", linked_absent),
    ("an identifier that is NULL, other than a Reject's", null_identifier),
    ("an integer of no octet", empty_integer),
    ("an identifier outside -128 to 127", wide_identifier),
    ("a local code of more than four octets", wide_code),
    ("a cause, problem, result, diagnostic or source out of its range", wide_number),
    ("an integer in more octets than it needs", padded),
    ("a listed tag in the long form", long_tag),
    ("a foreign dialogue portion outside an Abort", foreign_portion),
    ("a dialogue PDU in an EXTERNAL with other parts", other_external),
    ("an EXTERNAL without a direct reference", no_reference),
    ("a constructed string", parted_string),
    ("an object identifier whose number begins with 80, or ends within one", broken_identifier),
    ("an object identifier of more than 255 octets", long_identifier),
    ("a protocol version that is no bit string", version_bits),
    ("a transaction identifier of no octet or of more than four", wide_transaction),
    ("a 33rd open element of indefinite length", deep),
    ("an element that begins with 00, where it is read", zero_tag),
    ("a tag whose number begins with 80, where it is read", padded_tag),
    ("a tag of more than four further octets, where it is read", five_octet_tag),
]
