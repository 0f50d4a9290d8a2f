"""BER elements as trees: read leniently, changed, and written with the length forms that they had."""


class Element:
    """A tag, and either children or content octets. `form` is how its length is written: 0 the short
    form where it fits, n at least n octets behind 80+n, or "indefinite"."""

    def __init__(self, tag, inside, form=0):
        self.tag = bytes(tag)
        self.inside = inside
        self.form = form

    @property
    def children(self):
        """The elements inside, none where there are only octets."""
        return self.inside if isinstance(self.inside, list) else []

    def content(self):
        if isinstance(self.inside, list):
            return b"".join(child.octets() for child in self.inside)
        return self.inside

    def octets(self):
        content = self.content()
        if self.form == "indefinite":
            return self.tag + b"\x80" + content + b"\x00\x00"
        return self.tag + length_octets(len(content), self.form) + content


def length_octets(length, form):
    """The octets of a definite length, by at least `form` octets of the long form."""
    if form == 0 and length < 128:
        return bytes([length])
    count = max(form, (length.bit_length() + 7) // 8, 1)
    return bytes([0x80 | count]) + length.to_bytes(count, "big")


def integer_size(number):
    """How many octets an integer needs in two's complement."""
    return (number if number >= 0 else ~number).bit_length() // 8 + 1


def read_tag(octets, at):
    """The place behind the tag that begins here. Raises IndexError where the octets end."""
    long_form = octets[at] & 0x1F == 0x1F
    at += 1
    if long_form:
        while octets[at] & 0x80:
            at += 1
        at += 1
    return at


def read_element(octets, at):
    """The element that begins here and the place behind it. Raises ValueError or IndexError."""
    start, at = at, read_tag(octets, at)
    tag = octets[start:at]
    first = octets[at]
    at += 1
    if first == 0x80:
        return read_indefinite(octets, tag, at)
    form = 0
    length = first
    if first > 0x80:
        form = first & 0x7F
        length = int.from_bytes(octets[at : at + form], "big")
        at += form
    if at + length > len(octets) or first == 0xFF:
        raise ValueError("the content isn't there")
    content = octets[at : at + length]
    inside = content
    if tag[0] & 0x20:
        try:
            inside = read_elements(content)
        except (ValueError, IndexError, RecursionError):
            inside = content
    return Element(tag, inside, form), at + length


def read_indefinite(octets, tag, at):
    """The element of indefinite length whose content begins here, and the place behind it."""
    if not tag[0] & 0x20:
        raise ValueError("a primitive element of indefinite length")
    children = []
    while octets[at : at + 2] != b"\x00\x00":
        child, at = read_element(octets, at)
        children.append(child)
    return Element(tag, children, "indefinite"), at + 2


def read_elements(octets):
    """The elements that the octets are, one after the other."""
    elements, at = [], 0
    while at < len(octets):
        element, at = read_element(octets, at)
        elements.append(element)
    return elements


def is_whole(octets):
    """Whether octets are elements, whose constructed ones hold elements too, all the way down."""
    try:
        return all(map(is_whole_element, read_elements(octets)))
    except (ValueError, IndexError, RecursionError):
        return False


def is_whole_element(element):
    if not element.tag[0] & 0x20:
        return True
    return isinstance(element.inside, list) and all(map(is_whole_element, element.inside))
