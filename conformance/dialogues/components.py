"""Components, read and written by docs/PROFILE.md (Components)."""

from codec import (
    Parts,
    Unlisted,
    Unreadable,
    is_integer,
    is_object_identifier,
    read_element,
    read_elements,
    read_small,
    write_element,
    write_integer,
)

COMPONENTS = {b"\xa1": "invoke", b"\xa2": "last", b"\xa3": "error", b"\xa4": "reject", b"\xa7": "more"}
PROBLEMS = {b"\x80": "general", b"\x81": "invoke", b"\x82": "result", b"\x83": "error"}
UNRECOGNIZED, MISTYPED, BADLY_STRUCTURED = 0, 1, 2


def read_components(octets):
    """The components of a portion, up to and with the first faulty one."""
    components, at = [], 0
    while at < len(octets):
        component, at = read_component(octets, at)
        components.append(component)
        if component["name"] == "faulty":
            break
    return components


def read_component(octets, at):
    """The component that begins at a place, faulty or not, and the place behind it."""
    try:
        element = read_element(octets, at)
    except Unreadable:
        return faulty(octets[at], None, BADLY_STRUCTURED), len(octets)
    name = COMPONENTS.get(element.tag)
    if name is None:
        return faulty(octets[at], told_identifier(element), UNRECOGNIZED), element.end
    try:
        return take_component(name, element.content), element.end
    except Unreadable:
        return faulty(octets[at], told_identifier(element), BADLY_STRUCTURED), element.end
    except Unlisted:
        return faulty(octets[at], told_identifier(element), MISTYPED), element.end


def faulty(first_octet, identifier, code):
    return {"name": "faulty", "id": identifier, "code": code, "was_reject": first_octet == 0xA4}


def told_identifier(element):
    """The identifier of a faulty component, if it can be told."""
    if not element.tag[0] & 0x20:
        return None
    try:
        first = read_element(element.content, 0)
    except Unreadable:
        return None
    return signed(first.content) if first.tag == b"\x02" and len(first.content) == 1 else None


def take_component(name, content):
    parts = Parts(content)
    if name in ("last", "more") and len(parts.left) > 1 and parts.left[1].tag == b"\x30":
        # A body that is no list of elements is judged before the sequence around it.
        read_elements(parts.left[1].content)
    component = {"name": name, "id": take_identifier(name, parts)}
    if name == "invoke":
        linked = parts.optional(b"\x80")
        component["linked"] = None if linked is None else read_identifier(linked)
    if name in ("invoke", "error"):
        component |= {"code": take_code(parts), "parameter": take_parameter(parts)}
    elif name == "reject":
        component["kind"] = PROBLEMS.get(parts.next_tag())
        component["problem"] = read_small(parts.needed(*PROBLEMS))
    else:
        body = parts.optional(b"\x30")
        component |= {"code": None, "parameter": None} if body is None else take_body(body)
    parts.end()
    return component


def take_body(content):
    parts = Parts(content)
    body = {"code": take_code(parts), "parameter": take_parameter(parts)}
    parts.end()
    return body


def take_identifier(name, parts):
    """An invoke identifier; only a Reject's may be absent."""
    if name == "reject" and parts.next_tag() == b"\x05":
        if parts.needed(b"\x05"):
            raise Unlisted
        return None
    return read_identifier(parts.needed(b"\x02"))


def read_identifier(content):
    if len(content) != 1:
        raise Unlisted
    return signed(content)


def take_code(parts):
    """An operation or error code: local with a number, or global with an object identifier."""
    if parts.next_tag() == b"\x06":
        code = parts.needed(b"\x06")
        if not is_object_identifier(code):
            raise Unlisted
        return "global", code
    code = parts.needed(b"\x02")
    if not is_integer(code):
        raise Unlisted
    return "local", signed(code)


def take_parameter(parts):
    """The parameter, one element of any tag, if it is there."""
    return parts.take()[1] if parts.left else None


def signed(content):
    return int.from_bytes(content, "big", signed=True)


# ---- writing


def write_component(name, identifier, *parts):
    """A component of an identifier and further parts, each written already."""
    tag = next(tag for tag, known in COMPONENTS.items() if known == name)[0]
    return write_element(tag, write_identifier(identifier) + b"".join(parts))


def write_identifier(identifier):
    return bytes.fromhex("0500") if identifier is None else write_integer(0x02, identifier)


def write_linked(linked):
    return b"" if linked is None else write_integer(0x80, linked)


def write_operation(code, parameter):
    """A local code and the parameter behind it."""
    return write_integer(0x02, code) + (parameter or b"")


def write_body(code, parameter):
    return b"" if code is None else write_element(0x30, write_operation(code, parameter))


def write_reject(identifier, kind, problem):
    tag = next(tag for tag, known in PROBLEMS.items() if known == kind)[0]
    return write_component("reject", identifier, write_element(tag, bytes([problem])))
