"""What `tcap` must take and refuse by docs/PROFILE.md, as far as it can be said shortly, whatever others read."""

import re

from ber import read_elements
from classes import mended
from elements import fault, list_fault
from laxer import LAXER
from stricter import STRICTER

# The tags that stand in each message, with a comma behind each.
SEQUENCES = {
    0x61: "(6b,)?6c,",
    0x62: "48,(6b,)?(6c,)?",
    0x64: "49,(6b,)?(6c,)?",
    0x65: "48,49,(6b,)?(6c,)?",
    0x67: "49,(4a,|6b,)?",
}
OUTER = ["fault badly formatted\n", "fault unknown type\n", "fault incorrect\n"]


def rule_fault(tcap, message):
    """What is wrong in taking or refusing a message, or None."""
    _, shown = tcap.say("show", message)
    outer = outer_verdict(message)
    if shown != outer and (outer or shown in OUTER):
        return f"show doesn't say {outer.strip() or 'a fault of a portion, or good'}"
    stricter = [title for title, _ in STRICTER if mended(message, title) is not None]
    if tcap.is_good(message):
        return f"show takes {stricter[0]}" if stricter else None
    plain, titles = plainest(message) if not stricter else (message, [])
    if titles and tcap.is_good(plain):
        return "show refuses for " + ", or ".join(titles)
    return None


def outer_verdict(message):
    """What `show` says of a message whose portions it doesn't come to; nothing where it comes to them."""
    if fault(message):
        return OUTER[0]
    if message[0] not in SEQUENCES:
        return OUTER[1]
    content = read_elements(message)[0].content()
    if list_fault(content):
        return OUTER[0]
    parts = read_elements(content)
    in_order = re.fullmatch(SEQUENCES[message[0]], "".join(part.tag.hex() + "," for part in parts))
    return "" if in_order and all(map(is_part, parts)) else OUTER[2]


def is_part(part):
    """Whether an identifier or a cause, which its tag says, has its octets."""
    if part.tag == b"\x4a":
        return len(part.inside) == 1 and part.inside < b"\x80"
    return part.tag[0] not in (0x48, 0x49) or 1 <= len(part.inside) <= 4


def plainest(message):
    """The message with all mended that `tcap` takes, and which classes had places in it."""
    titles = []
    for title, _ in LAXER:
        changed = mended(message, title)
        if changed is not None:
            message, titles = changed, titles + [title]
    return message, titles
