"""The faulty messages of crates/explain_tests, what is said of each there, which row of the tables of
docs/PROFILE.md it breaks, and how."""

import os
import re

from elements import Fault, element_end, length_end, tag_end

TESTS = os.path.join(os.path.dirname(os.path.abspath(__file__)), "../crates/explain_tests/src/tests")
# A table of rows with an empty line between them: a message, on a line of its own, and what is said of it.
ROWS = re.compile(r'&str = "(?:\\\n)?(.*?)";', re.S)
TEXT = re.compile(r"(fault [^\n]*)\nplace (\d+) element (\d+): expected (.*?), found (.*)\n")

# What was done to the messages of damaged.rt, in their order there.
CAPTURED = """cut behind the abstract syntax
cut within the parameter
a context that is no object identifier
a length octet EC in the body of a result
cut within the abstract syntax
cut within the destination
cut behind a tag
tag 22 in the place of A2
cut within the destination
length 00 of the message
cut within the body of a result
length 55 of the EXTERNAL
tag 14 in the place of 06
cut within the Invoke
D0 unused bits
cut within the code
length 5D of the AARE
length 1A of the parameter
length 1A of the message, for 1E
cut within the context
cut behind the head of the EXTERNAL
cut behind the head of the parameter""".split("\n")
WRITTEN = """a problem code 9: good by the profile
48 in an End
no operation code
P-Abort cause 200
80 before the invoke identifier
an invoke identifier of two octets
one octet too few
one octet too many
no 48 in a Begin
another abstract syntax
problem tag 84
6C before 6B
49 before 48 in a Continue
result 7
message type 63
an AARQ without context
48 of five octets
48 of no octets
component tag A5, the second
no 49 in an End
48 of five octets
49 before 48 in a Begin
a Unidirectional without 6C
a local code 0002""".split("\n")

# What an element holds by docs/PROFILE.md: the name of the row, and the tags that may stand there, in their order.
# The element is named by the tags down to it; those within a message are the same for each message.
AARQ, AARE, ABRT = ((0x6B, 0x28, 0xA0, tag) for tag in (0x60, 0x61, 0x64))
TABLE = {
    (0x61,): ("Unidirectional", [0x6B, 0x6C]),
    (0x62,): ("Begin", [0x48, 0x6B, 0x6C]),
    (0x64,): ("End", [0x49, 0x6B, 0x6C]),
    (0x65,): ("Continue", [0x48, 0x49, 0x6B, 0x6C]),
    (0x67,): ("Abort", [0x49, 0x4A, 0x6B]),
    (0x6B,): ("dialogue portion", [0x28]),
    (0x6B, 0x28): ("EXTERNAL", [0x06, 0xA0]),
    (0x6B, 0x28, 0xA0): ("single-ASN1-type", [0x60, 0x61, 0x64]),
    AARQ: ("AARQ", [0x80, 0xA1, 0xBE]),
    AARE: ("AARE", [0x80, 0xA1, 0xA2, 0xA3, 0xBE]),
    ABRT: ("ABRT", [0x80, 0xBE]),
    (*AARQ, 0xA1): ("A1 context", [0x06]),
    (*AARE, 0xA1): ("A1 context", [0x06]),
    (*AARQ, 0xBE): ("BE user information", [0x28]),
    (*AARE, 0xBE): ("BE user information", [0x28]),
    (*ABRT, 0xBE): ("BE user information", [0x28]),
    (*AARE, 0xA2): ("A2 result", [0x02]),
    (*AARE, 0xA3): ("A3 diagnostic", [0xA1, 0xA2]),
    (*AARE, 0xA3, 0xA1): ("A1 or A2 in A3", [0x02]),
    (*AARE, 0xA3, 0xA2): ("A1 or A2 in A3", [0x02]),
    (0x6C,): ("component portion", [0xA1, 0xA2, 0xA3, 0xA4, 0xA7]),
    (0x6C, 0xA1): ("Invoke", [0x02, 0x80, 0x06]),
    (0x6C, 0xA2): ("Return Result Last", [0x02, 0x30]),
    (0x6C, 0xA2, 0x30): ("30 in a Return Result", [0x02, 0x06]),
    (0x6C, 0xA3): ("Return Error", [0x02, 0x06]),
    (0x6C, 0xA4): ("Reject", [0x02, 0x05, 0x80, 0x81, 0x82, 0x83]),
    (0x6C, 0xA7): ("Return Result Not Last", [0x02, 0x30]),
    (0x6C, 0xA7, 0x30): ("30 in a Return Result", [0x02, 0x06]),
}
# Rows with one element of several, and rows with any number of elements.
CHOICES = {"single-ASN1-type", "A3 diagnostic", "component portion"}
LISTS = {"BE user information", "component portion"}
UNSTRUCTURED = bytes.fromhex("060700118605010201")
MESSAGES = ((), (0x61,), (0x62,), (0x64,), (0x65,), (0x67,))
MISTAKES = MISSING, ANOTHER, TOO_MANY, ORDER = "missing", "another", "one too many", "out of order"
CONTENTS, ENCODING = "contents octets", "encoding"
# The rows of the table of faults of an encoding, by how what is expected begins there.
ENCODINGS = {
    "a tag": "BadTag",
    "the second 0x00": "BadTag",
    "a length": "BadLength",
    "a definite length": "IndefinitePrimitive",
    "at most 32": "TooDeep",
    "an element": "Short",
    "more octets": "Short",
    "at most 65535 octets": "too long",
}


class Row:
    """A message, and what is said of it. `name` is what is wrong with it, or the row of a table that it breaks, and
    `mistake` how."""

    def __init__(self, group, message, text):
        self.group, self.message, self.text = group, message, text
        self.name, self.mistake = "", ""
        found = TEXT.fullmatch(text)
        self.verdict, self.expected, self.found = found.group(1, 4, 5) if found else ("good", "", "")
        self.place, self.element = (int(found[2]), int(found[3])) if found else (0, 0)

    def contents(self):
        """Where the contents of the faulty element begin, None where its head can't be read."""
        try:
            at = tag_end(self.message, self.element)
            return at + 1 if self.message[at] == 0x80 else length_end(self.message, at)[0]
        except (Fault, IndexError):
            return None


def rows():
    """All rows, in the order of the files, but the good ones of the tables."""
    found = []
    for group in ["damaged", "messages", "portions", "components", "encodings"]:
        with open(f"{TESTS}/{group}.rt", encoding="utf-8") as file:
            tables = ROWS.findall(file.read())
        parts = [row.split("\n", 1) for table in tables for row in table.split("\n\n")]
        found += [Row(group, bytes.fromhex(octets), f"{text}\n") for octets, text in parts]
    with open(f"{TESTS}/rows.rt", encoding="utf-8") as file:
        text = re.search(r'b"(fault too long.*?)"', file.read())[1].replace("\\n", "\n")
    found.append(Row("encodings", bytes(65536), text))
    damaged = [row for row in found if row.group == "damaged"]
    for row, name in zip(damaged, CAPTURED + WRITTEN, strict=True):
        row.name = name
    for number, row in enumerate(damaged):
        row.group = "captured" if number < len(CAPTURED) else "written"
    found = [row for row in found if row.group == "written" or row.verdict != "good"]
    for row in found:
        if not row.name:
            row.name, row.mistake = broken(row)
    return found


def elements(octets, at, end):
    """The elements that begin between two places: tag, first octet, first of the contents and octet behind these."""
    found = []
    while at < end and octets[at]:
        inner = tag_end(octets, at)
        if octets[inner] == 0x80:
            behind = element_end(octets, at, 0)
            found.append((octets[at], at, inner + 1, behind - 2))
        else:
            inner, length = length_end(octets, inner)
            behind = inner + length
            found.append((octets[at], at, inner, behind))
        at = behind
    return found


def holders(octets, path, start, end):
    """The rows that these contents have, from the outermost: each with its tags, its elements, and its first and last
    place."""
    try:
        inside = elements(octets, start, end)
    except (Fault, IndexError):
        inside = []
    found = [(*TABLE[path], inside, start, end)] if path else []
    for tag, _, first, behind in inside:
        deeper = (tag,) if path in MESSAGES else (*path, tag)
        if deeper in TABLE and behind <= end:
            found += holders(octets, deeper, first, behind)
    return found


def broken(row):
    """The row of the table that a message breaks, and how."""
    front = re.sub(r"^\d+ more octets?", "more octets", row.expected)
    for words, name in ENCODINGS.items():
        if front.startswith(words):
            return name, ENCODING
    if row.verdict == "fault unknown type":
        return "the five messages", ANOTHER
    if row.verdict == "fault badly formatted":
        return "octets behind the message", TOO_MANY
    wanted = {int(tag, 16) for tag in re.findall(r"0x(\w\w)", row.expected)} if "octet" not in row.found else set()
    lines = holders(row.message, (), 0, len(row.message))
    if row.found == "the end":
        name = [it[0] for it in lines if it[4] == row.element and wanted & set(it[1])][-1]
        return pdu(name, row), MISSING
    lines = [it for it in lines if it[3] <= row.element < it[4]]
    name, _, inside, _, _ = [it for it in lines if not wanted or wanted & set(it[1])][-1]
    return pdu(name, row), mistake(row, name, wanted, inside)


def pdu(name, row):
    return "AUDT" if name == "AARQ" and UNSTRUCTURED in row.message else name


def mistake(row, name, wanted, inside):
    """How a message breaks the row of this name, where these elements stand and some tags were expected."""
    if "octet" in row.found:
        return CONTENTS
    tags = next(tags for other, tags in TABLE.values() if other == name)
    here = row.message[row.element]
    before = [tag for tag, first, _, _ in inside if first < row.element]
    if here in before:
        return TOO_MANY
    if any(tag in wanted for tag, first, _, _ in inside if first > row.element):
        return ORDER
    if name not in CHOICES and any(here in tags[: tags.index(tag)] for tag in before if tag in tags):
        return ORDER
    if not wanted:
        return TOO_MANY
    return MISSING if here in tags and name not in CHOICES else ANOTHER


def can_be(name, kind):
    """Whether the row of this name can be broken in this way. One element is never out of order; in a list none is
    missing and none too many."""
    tags = next((tags for other, tags in TABLE.values() if other == name), [])
    if kind == ORDER and (len(tags) == 1 or name in CHOICES):
        return False
    return kind == ANOTHER or name not in LISTS
