"""What X.690 has for an EXTERNAL: what other decoders look for in user information and foreign portions."""

from ber import is_whole


def is_identifier(octets):
    """Whether octets are the content of an object identifier."""
    starts = [0] + [at + 1 for at, octet in enumerate(octets[:-1]) if octet < 0x80]
    return bool(octets) and octets[-1] < 0x80 and all(octets[at] != 0x80 for at in starts)


def is_bit_string(octets):
    """Whether octets are the content of a bit string: the first one counts the bits that aren't used."""
    return bool(octets) and octets[0] < 8 and (len(octets) > 1 or octets[0] == 0)


def is_external(element):
    """Whether an element is an EXTERNAL: references, a descriptor, and a value in one of three encodings."""
    if element.tag != b"\x28" or not is_whole(element.octets()):
        return False
    parts = list(element.children)
    if parts and parts[0].tag == b"\x06" and not is_identifier(parts.pop(0).content()):
        return False
    if parts and parts[0].tag == b"\x02" and not parts.pop(0).content():
        return False
    if parts and parts[0].tag in (b"\x07", b"\x27") and not is_string(parts.pop(0), b"\x04\x07"):
        return False
    return len(parts) == 1 and is_encoding(parts[0])


def is_encoding(part):
    """Whether a part holds one element, octets or bits."""
    if part.tag == b"\xa0":
        return len(part.children) == 1
    if part.tag in (b"\x82", b"\xa2"):
        return is_string(part, b"\x03") and (part.tag == b"\xa2" or is_bit_string(part.content()))
    return part.tag in (b"\x81", b"\xa1") and is_string(part, b"\x04")


def is_string(part, pieces):
    """Whether a string is primitive, or constructed of strings with one of these tags."""
    return not part.tag[0] & 0x20 or all(piece.tag[0] & 0xDF in pieces for piece in part.children)
