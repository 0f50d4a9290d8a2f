"""Dialogue portions, read and written by docs/PROFILE.md (Dialogue portion)."""

from codec import (
    Parts,
    Unlisted,
    Unreadable,
    is_object_identifier,
    read_elements,
    read_only_element,
    read_small,
    write_element,
)

STRUCTURED = bytes.fromhex("00118605010101")
UNSTRUCTURED = bytes.fromhex("00118605010201")
NOT_SUPPORTED_BY_USER = ("user", 2)
NO_COMMON_PORTION = ("provider", 2)


def read_portion(content):
    """The PDU in the contents of a dialogue portion, none without one, and `faulty` if it can't be read."""
    if content is None:
        return None
    try:
        return take_external(content)
    except (Unreadable, Unlisted):
        return {"pdu": "faulty"}


def take_external(content):
    external = read_only_element(content)
    if external.tag != b"\x28":
        raise Unlisted
    parts = Parts(external.content)
    syntax = parts.needed(b"\x06")
    if syntax not in (STRUCTURED, UNSTRUCTURED):
        if not is_object_identifier(syntax):
            raise Unlisted
        return {"pdu": "foreign", "octets": content}
    single = read_only_element(parts.needed(b"\xa0"))
    parts.end()
    return take_pdu(syntax, single.tag, Parts(single.content))


def take_pdu(syntax, tag, parts):
    if syntax == UNSTRUCTURED and tag == b"\x60":
        return take_request("audt", parts)
    if syntax == STRUCTURED and tag == b"\x60":
        return take_request("aarq", parts)
    if syntax == STRUCTURED and tag == b"\x61":
        return take_response(parts)
    if syntax == STRUCTURED and tag == b"\x64":
        return take_abort(parts)
    raise Unlisted


def take_request(name, parts):
    pdu = {"pdu": name, "version": take_version(parts), "context": take_context(parts)}
    return pdu | {"information": take_information(parts)}


def take_response(parts):
    pdu = {"pdu": "aare", "version": take_version(parts), "context": take_context(parts)}
    pdu["result"] = read_one_of(take_single(parts.needed(b"\xa2"), b"\x02"), (0, 1))
    source = read_only_element(parts.needed(b"\xa3"))
    if source.tag not in (b"\xa1", b"\xa2"):
        raise Unlisted
    by = "user" if source.tag == b"\xa1" else "provider"
    pdu["diagnostic"] = (by, read_small(take_single(source.content, b"\x02")))
    return pdu | {"information": take_information(parts)}


def take_abort(parts):
    source = read_one_of(parts.needed(b"\x80"), (0, 1))
    pdu = {"pdu": "abrt", "source": ("user", "provider")[source]}
    return pdu | {"information": take_information(parts)}


def take_version(parts):
    """Whether version 1 holds."""
    bits = parts.optional(b"\x80")
    if bits is None:
        return True
    if not bits or bits[0] > 0x07 or (len(bits) == 1 and bits[0] != 0x00):
        raise Unlisted
    return len(bits) > 1 and bits[1] & 0x80 != 0


def take_context(parts):
    context = take_single(parts.needed(b"\xa1"), b"\x06")
    if not is_object_identifier(context):
        raise Unlisted
    return context


def take_information(parts):
    """The user information, empty without one; it is the last part of every PDU."""
    information = parts.optional(b"\xbe") or b""
    parts.end()
    if not is_information(information):
        raise Unlisted
    return information


def take_single(content, tag):
    """The contents of the one element with this tag that some contents are."""
    element = read_only_element(content)
    if element.tag != tag:
        raise Unlisted
    return element.content


def read_one_of(content, numbers):
    number = read_small(content)
    if number not in numbers:
        raise Unlisted
    return number


def is_information(octets):
    """Whether octets are a list of elements 28."""
    try:
        return all(element.tag == b"\x28" for element in read_elements(octets))
    except Unreadable:
        return False


# ---- writing


def write_request(context, information):
    """An AARQ."""
    return write_external(STRUCTURED, 0x60, write_version() + write_context(context), information)


def write_unidirectional(context, information):
    """An AUDT."""
    return write_external(UNSTRUCTURED, 0x60, write_version() + write_context(context), information)


def write_response(context, result, diagnostic, information=b""):
    """An AARE with result 0, accepted, or 1, reject permanent."""
    by, number = diagnostic
    content = write_version() + write_context(context)
    content += write_element(0xA2, write_element(0x02, bytes([result])))
    source = write_element(0x02, bytes([number]))
    content += write_element(0xA3, write_element(0xA1 if by == "user" else 0xA2, source))
    return write_external(STRUCTURED, 0x61, content, information)


def write_abort(source, information=b""):
    """An ABRT by the user or the provider."""
    number = ("user", "provider").index(source)
    return write_external(STRUCTURED, 0x64, write_element(0x80, bytes([number])), information)


def write_version():
    return bytes.fromhex("80020780")


def write_context(context):
    return write_element(0xA1, write_element(0x06, context))


def write_external(syntax, tag, content, information):
    if information:
        content += write_element(0xBE, information)
    pdu = write_element(tag, content)
    return write_element(0x28, write_element(0x06, syntax) + write_element(0xA0, pdu))
