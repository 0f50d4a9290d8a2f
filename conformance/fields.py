"""The fields of a message that can be told apart by their places, however wrong the rest is. They are what
docs/PROFILE.md reads: the insides of parameters, of user information and of foreign EXTERNALs aren't."""

from ber import Element, read_elements

SYNTAXES = [bytes.fromhex("00118605010101"), bytes.fromhex("00118605010201")]

# Where a field stands: the element that holds it, its number there, and the field itself.


def walk(octets):
    """Yields (name, holder, number, element) for each field of a message."""
    top = Element(b"", read_elements(octets))
    for number, message in enumerate(top.children):
        yield "message", top, number, message
        for number, part in enumerate(message.children):
            yield from part_of_message(message, number, part)


def part_of_message(message, number, part):
    names = {8: "identifier", 9: "identifier", 10: "cause", 11: "dialogue", 12: "components"}
    name = names.get(application_number(part), "other")
    yield name, message, number, part
    if name == "dialogue":
        for number, external in enumerate(part.children):
            yield "external", part, number, external
            yield from parts_of_external(external)
    if name == "components":
        for number, component in enumerate(part.children):
            yield "component", part, number, component
            yield from parts_of_component(component)


def application_number(element):
    """The number of an application tag, also one in the long form."""
    if element.tag[0] & 0xC0 != 0x40:
        return None
    return tag_number(element)


def tag_number(element):
    if element.tag[0] & 0x1F != 0x1F:
        return element.tag[0] & 0x1F
    number = 0
    for octet in element.tag[1:]:
        number = number * 128 + (octet & 0x7F)
    return number


def is_reference(element):
    """Whether an element is an object identifier, its tag in the long form too."""
    return element.tag[0] & 0xE0 == 0 and tag_number(element) == 6


def is_ours(external):
    """Whether the direct reference of an EXTERNAL says that it holds a dialogue PDU."""
    first = external.children[0] if external.children else None
    return first is not None and is_reference(first) and first.content() in SYNTAXES


def parts_of_external(external):
    ours = is_ours(external)
    for number, part in enumerate(external.children):
        yield "syntax" if number == 0 and is_reference(part) else "encoding", external, number, part
        for number, pdu in enumerate(part.children if ours else []):
            yield "pdu", part, number, pdu
            yield from parts_of_pdu(pdu)


def parts_of_pdu(pdu):
    names = {0: "version", 1: "context", 2: "result", 3: "diagnostic", 30: "information"}
    for number, part in enumerate(pdu.children):
        name = names.get(tag_number(part), "other")
        if name == "version" and tag_number(pdu) == 4:
            name = "source"
        yield name, pdu, number, part
        if name == "information":
            for number, external in enumerate(part.children):
                yield "information external", part, number, external
        if name in ("context", "result", "diagnostic"):
            for number, inner in enumerate(part.children):
                yield name + " value", part, number, inner
                for number, innermost in enumerate(inner.children):
                    yield name + " value", inner, number, innermost


def parts_of_component(component):
    """By their order: identifier, linked identifier, code, parameter; a Reject has a problem."""
    kind = tag_number(component)
    for number, part in enumerate(component.children):
        if number == 0:
            yield "invoke id", component, number, part
        elif kind == 4:
            yield "problem", component, number, part
        elif kind in (2, 7):
            yield "body", component, number, part
            for number, inner in enumerate(part.children):
                yield "code" if number == 0 else "parameter", part, number, inner
        elif number == 1 and part.tag[0] & 0xC0 == 0x80 and kind == 1:
            yield "linked", component, number, part
        else:
            behind = number - (1 if is_linked(component) else 0)
            yield "code" if behind == 1 else "parameter", component, number, part


def is_linked(component):
    second = component.children[1] if len(component.children) > 1 else None
    return tag_number(component) == 1 and second is not None and second.tag[0] & 0xC0 == 0x80


# ---- what a field holds

LIMITS = {"cause": 127, "problem": 127, "source": 1, "result value": 1, "diagnostic value": 127}
INTEGERS = {"invoke id", "code", "result value", "diagnostic value"}
IDENTIFIERS = {"syntax", "context value", "code"}


def is_integer(name, element):
    """Whether a field is an integer by its place and its tag."""
    if isinstance(element.inside, list):
        return False
    if name == "linked":
        return tag_number(element) == 0
    if name == "problem":
        return element.tag[0] & 0xC0 == 0x80
    return name in LIMITS.keys() - INTEGERS or name in INTEGERS and element.tag == b"\x02"


def number(element):
    """The number that the content octets of an integer are; 0 where there are none."""
    return int.from_bytes(element.inside, "big", signed=True)


def is_object_identifier(name, element):
    """Whether a field is an object identifier by its place and its tag."""
    return name in IDENTIFIERS and element.tag == b"\x06"


def is_foreign_portion(name, element):
    """Whether a field is a dialogue portion that holds one EXTERNAL, and no dialogue PDU in it."""
    return name == "dialogue" and len(element.children) == 1 and not is_ours(element.children[0])


def is_unread(name, holder):
    """Whether a field is an element of any kind: a parameter, an EXTERNAL of user information, or what a
    foreign EXTERNAL holds."""
    return name in ("parameter", "information external") or name == "encoding" and not is_ours(holder)


# ---- how a field is changed


def put(element, tag, inside):
    element.tag, element.inside, element.form = tag, inside, 0
    return True


def replace(name, element):
    """Puts something plain in the place of what isn't read."""
    if name == "parameter":
        return put(element, b"\x05", b"")
    if name == "encoding":
        return put(element, b"\x81", b"")
    return put(element, b"\x28", [Element(b"\x06", b"\x2a\x03"), Element(b"\x81", b"")])
