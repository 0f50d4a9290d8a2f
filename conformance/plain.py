"""Octets that are copied, as their values: what a reader that decodes and encodes them again may lose."""

import re

from ber import Element, integer_size, length_octets, read_elements
from fields import tag_number


def plain(answer):
    """The fields with parameters, user information and foreign portions in a form that says the same:
    the shortest lengths and tags, and EXTERNALs by their values."""
    answer = re.sub(r"\bparam ([0-9a-f]+)", lambda m: "param " + copied(m[1], element_octets), answer)
    return re.sub(r"\b(info|foreign) ([0-9a-f]+)", lambda m: f"{m[1]} " + copied(m[2], external_octets), answer)


def copied(digits, octets_of):
    octets = bytes.fromhex(digits)
    try:
        return b"".join(map(octets_of, read_elements(octets))).hex()
    except (ValueError, IndexError, RecursionError):
        return digits


def element_octets(element):
    """The element with the shortest tags and definite lengths, inside too."""
    content = element.inside
    if isinstance(content, list):
        content = b"".join(map(element_octets, content))
    return short_tag(element) + length_octets(len(content), 0) + content


def short_tag(element):
    """The tag in one octet, or in the fewest further ones."""
    if tag_number(element) < 31:
        return bytes([element.tag[0] & 0xE0 | tag_number(element)])
    return element.tag[:1] + element.tag[1:].lstrip(b"\x80")


def external_octets(element):
    """An EXTERNAL by its values; other elements as they are."""
    if element.tag != b"\x28":
        return element_octets(element)
    content = b"".join(map(part_octets, element.children))
    return element.tag + length_octets(len(content), 0) + content


def part_octets(part):
    """An object identifier and an integer without leading octets that say nothing, a string in one part
    and without bits that aren't used."""
    tag = short_tag(part)[0] & 0xDF
    if tag == 0x80:
        return element_octets(part)
    content = joined(part)
    if tag == 0x06:
        content = re.sub(rb"(?<![\x80-\xff])\x80+", b"", content)
    if tag == 0x02 and content:
        number = int.from_bytes(content, "big", signed=True)
        content = number.to_bytes(integer_size(number), "big", signed=True)
    if tag == 0x82 and not content:
        content = b"\x00"
    if tag == 0x82 and len(content) > 1 and content[0] < 8:
        content = content[:-1] + bytes([content[-1] >> content[0] << content[0]])
    return element_octets(Element(bytes([tag]), content))


def joined(element):
    """The content of a string, in one part or in many."""
    if isinstance(element.inside, list):
        return b"".join(map(joined, element.inside))
    return element.inside
