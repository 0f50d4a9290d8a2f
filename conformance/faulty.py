"""What `tcap` says of a faulty portion, held against the octets of the message, and against what it says of
the rest of the message and of the faulty part alone."""

from ber import Element, read_element, read_elements
from elements import Fault, element_end, list_fault

COMPONENTS = (b"\xa1", b"\xa2", b"\xa3", b"\xa4", b"\xa7")
RESULTS = (b"\xa2", b"\xa7")


def portion_fault(tcap, message, verdict):
    """What is wrong in the verdict that a portion is faulty, or None."""
    content = next((part.content() for part in read_elements(message)[0].children if part.tag == b"\x6c"), None)
    if verdict == "fault dialogue":
        return dialogue_fault(tcap, message, content)
    return component_fault(tcap, message, content, int(verdict.split()[-1]))


def rebuilt(message, dialogue, content):
    """The message with its dialogue portion or without it, and with these components."""
    whole = read_elements(message)[0]
    kept = [part for part in whole.children if part.tag != b"\x6c" and (dialogue or part.tag != b"\x6b")]
    return Element(whole.tag, kept + ([] if content is None else [Element(b"\x6c", content)])).octets()


def dialogue_fault(tcap, message, content):
    """A faulty dialogue portion must be faulty without components, and they must be the same without it."""
    alone = rebuilt(message, True, b"" if message[0] == 0x61 else None)
    if tcap.verdict(alone) != "fault dialogue":
        return "a dialogue portion is faulty only beside these components"
    rest = rebuilt(message, False, content)
    fields = [line for line in tcap.fields(message) if line != "    faulty" and not line.startswith("    foreign ")]
    return None if tcap.fields(rest) == fields else "components are others without the faulty dialogue portion"


def component_fault(tcap, message, content, number):
    """What stands before a faulty component must be good, and that component faulty alone, for its reason."""
    at = 0
    for _ in range(number - 1):
        at = element_end(content, at, 0)
    *before, line = tcap.fields(message)
    if line != "    " + fault_line(content[at:]):
        return "another identifier or fault of a component"
    front = rebuilt(message, True, content[:at])
    if tcap.verdict(front) != "good" or tcap.fields(front) != before:
        return "what stands before a faulty component isn't good, or is other fields"
    alone = tcap.verdict(rebuilt(message, False, content[at:]))
    return None if alone == "fault component 1" else "a component is faulty only behind others"


def fault_line(octets):
    """What `show` says of the faulty component that begins here."""
    try:
        component = read_elements(octets[: element_end(octets, 0, 0)])[0]
    except Fault:
        return "faulty - general 2"
    return f"faulty {identifier(component)} general {fault_code(component)}"


def identifier(component):
    """The identifier that can be told, which comes first and has one octet, or "-"."""
    content = component.content()
    try:
        element_end(content, 0, 0)
    except Fault:
        return "-"
    first, _ = read_element(content, 0)
    told = component.tag[0] & 0x20 and first.tag == b"\x02" and len(first.inside) == 1
    return int.from_bytes(first.inside, "big", signed=True) if told else "-"


def fault_code(component):
    """The code of the fault: unrecognized, badly structured or mistyped."""
    if component.tag not in COMPONENTS:
        return 0
    content = component.content()
    if list_fault(content):
        return 2
    parts = read_elements(content)
    is_body = component.tag in RESULTS and len(parts) > 1 and parts[1].tag == b"\x30"
    return 2 if is_body and list_fault(parts[1].content()) else 1
