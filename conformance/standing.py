"""What stands in a message that `tcap` takes: the octets that `show` copies, and the form that `canon` gives."""

import re

from ber import Element, read_elements
from fields import is_ours, walk

COPIED = r"\b(otid|dtid|dialogue|context|info|foreign|components|global|param) (\S+)"
NAMES = {0x61: "unidirectional", 0x62: "begin", 0x64: "end", 0x65: "continue", 0x67: "abort"}
OUTSIDE = ("otid", "dtid", "dialogue", "components")


def shown_words(text):
    """The words of `show` that are copied octets, or count them, each with its name."""
    return re.findall(COPIED, text)


def standing_words(message):
    """The same words, cut from the octets of a message."""
    words = []
    for part in read_elements(message)[0].children:
        words += outside_word(part)
        if part.tag == b"\x6b":
            words += words_of_external(part.children[0])
        elif part.tag == b"\x6c":
            for component in part.children:
                words += words_of_component(component)
    return words


def outside_word(part):
    """An identifier, or how many octets a portion holds."""
    content = part.content()
    if part.tag in (b"\x48", b"\x49"):
        return [("otid" if part.tag == b"\x48" else "dtid", content.hex())]
    if part.tag == b"\x6b" or part.tag == b"\x6c" and content:
        return [("dialogue" if part.tag == b"\x6b" else "components", str(len(content)))]
    return []


def is_outside_shown(text, message):
    """Whether `show` has the name, the identifiers and the counts that stand in a message, faulty or not."""
    words = [word for part in read_elements(message)[0].children for word in outside_word(part)]
    shown = [word for word in shown_words(text) if word[0] in OUTSIDE]
    return text.startswith(NAMES[message[0]] + "\n") and shown == words


def words_of_external(external):
    """The context and the user information of a dialogue PDU, or the whole of a foreign EXTERNAL."""
    if not is_ours(external):
        return [("foreign", external.octets().hex())]
    parts = {part.tag[0]: part for part in external.children[1].children[0].children}
    words = [("context", parts[0xA1].children[0].content().hex())] if 0xA1 in parts else []
    return words + [("info", parts[0xBE].content().hex() or "-" if 0xBE in parts else "-")]


def words_of_component(component):
    """A global code and the parameter, which stand behind identifiers."""
    parts = component.children[1:]
    if component.tag == b"\xa4":
        return []
    if component.tag in (b"\xa2", b"\xa7"):
        parts = parts[0].children if parts else []
    elif component.tag == b"\xa1" and parts[0].tag == b"\x80":
        parts = parts[1:]
    words = [("global", parts[0].content().hex())] if parts and parts[0].tag == b"\x06" else []
    return words + [("param", parts[1].octets().hex() if len(parts) > 1 else "-")]


def canonical(message):
    """The message with the shortest definite lengths of what isn't copied, and the version written."""
    places = list(walk(message))
    for name, holder, place, element in reversed(places):
        if is_copied(name, holder, element):
            continue
        element.form = 0
        if is_left_out(name, holder) and not element.content():
            del holder.inside[place]
        elif name == "version":
            element.inside = b"\x07\x80" if element.content()[1:2] >= b"\x80" else b"\x07\x00"
        elif name == "pdu" and element.tag in (b"\x60", b"\x61") and element.children[0].tag != b"\x80":
            element.inside.insert(0, Element(b"\x80", b"\x07\x80"))
    return places[0][1].content()


def is_left_out(name, holder):
    """Whether a field is left out where it is empty: a Unidirectional has a component portion in any case."""
    return name == "information" or name == "components" and holder.tag != b"\x61"


def is_copied(name, holder, element):
    """Whether a field is copied whole, or is in what is: the insides of these are no fields."""
    if name in ("parameter", "information external"):
        return True
    if name == "external":
        return not is_ours(element)
    return name in ("syntax", "encoding") and not is_ours(holder)
