"""What `tcap` takes by a rule of docs/PROFILE.md and another decoder may refuse, in the form of stricter.py."""

from ber import Element, is_whole
from elements import fault, list_fault
from externals import is_bit_string, is_external, is_identifier
from fields import is_foreign_portion, is_unread, put, replace, tag_number

ERLANG_TAG_LIMIT = 0xFFFF


def empty_portion(name, holder, place, element):
    if name == "components" and not element.content():
        numbers = [Element(b"\x02", b"\x00"), Element(b"\x02", b"\x00")]
        return put(element, element.tag, [Element(b"\xa1", numbers)])


def no_result_parameter(name, holder, place, element):
    if name == "body" and len(element.children) == 1:
        element.inside.append(Element(b"\x05", b""))
        return True


def is_taken_whole(name, holder, element):
    """Whether a field is an element whose inside `tcap` doesn't look into, and takes."""
    if not is_unread(name, holder) or fault(element.octets()):
        return False
    return name != "information external" or element.tag == b"\x28"


def unread_parameter(name, holder, place, element):
    if name == "parameter" and is_taken_whole(name, holder, element) and not is_whole(element.octets()):
        return put(element, b"\x05", b"")


def unread_information(name, holder, place, element):
    if name == "information external" and is_taken_whole(name, holder, element) and not is_external(element):
        return replace(name, element)


def unread_foreign(name, holder, place, element):
    if is_foreign_taken(name, holder, element) and not is_external(element.children[0]):
        return replace("external", element.children[0])


def is_foreign_taken(name, holder, element):
    """Whether a field is a foreign portion of an Abort that `tcap` takes."""
    if not is_foreign_portion(name, element) or tag_number(holder) != 7:
        return False
    external = element.children[0]
    if external.tag != b"\x28" or list_fault(external.content()) or not external.children:
        return False
    first = external.children[0]
    return first.tag == b"\x06" and is_identifier(first.content()) and len(first.content()) <= 255


def great_tag(name, holder, place, element):
    if is_taken_whole(name, holder, element) and greatest_tag(element) > ERLANG_TAG_LIMIT:
        return replace(name, element)


def greatest_tag(element):
    return max([tag_number(element)] + [greatest_tag(child) for child in element.children])


def version_bits(name, holder, place, element):
    if name == "version" and element.tag == b"\x80" and is_other_bits(element.inside):
        return put(element, element.tag, b"\x07\x80")


def is_other_bits(octets):
    return octets not in (b"\x07\x80", b"\x07\x00") and is_bit_string(octets)


def parameter(name, holder, place, element):
    if name == "parameter" and is_taken_whole(name, holder, element) and element.octets() != b"\x05\x00":
        return put(element, b"\x05", b"")


def indefinite(name, holder, place, element):
    if not is_unread(name, holder) and element.form == "indefinite":
        element.form = 0
        return True


def long_length(name, holder, place, element):
    if not is_unread(name, holder) and element.form not in (0, "indefinite"):
        element.form = 0
        return len(element.content()) < 128


def information(name, holder, place, element):
    if name != "information" or not element.children:
        return False
    taken = all(is_taken_whole("information external", element, external) for external in element.children)
    return taken and put(element, element.tag, [])


def foreign_abort(name, holder, place, element):
    if is_foreign_taken(name, holder, element) and place == 1 and len(holder.children) == 2:
        del holder.inside[place]
        return True


LAXER = [
    ("a component portion without components", empty_portion),
    ("a result's body without a parameter", no_result_parameter),
    ("a tag number above 65,535 that isn't looked into", great_tag),
    ("a parameter whose inside isn't BER", unread_parameter),
    ("user information whose EXTERNALs aren't whole", unread_information),
    ("a foreign EXTERNAL in an Abort that isn't whole", unread_foreign),
    ("a protocol version of other bits than one", version_bits),
    ("an element of indefinite length", indefinite),
    ("a length in more octets than it needs", long_length),
    ("something else in a parameter", parameter),
    ("something else in user information", information),
    ("something else in a foreign portion of an Abort", foreign_abort),
]
