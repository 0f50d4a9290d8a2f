#!/usr/bin/env -S python3 -B
"""Prints docs/FAULTS-BESIDE.md: what tcap_judge, tshark, `openssl asn1parse` and unber say of each faulty message of
crates/explain_tests.

  conformance/faults_beside.py             the page
  conformance/faults_beside.py --messages  the messages, a line each, as tcap_judge reads them

JUDGE names the program; else it is crates/tcap_judge/out/tcap_judge, and where that isn't there, `rt try` compiles one
without a proof. Status 1 where it says anything else than the tests.
"""

import os
import re
import shutil
import subprocess
import sys
from collections import Counter

import fault_readers as readers
import fault_rows

CRATE = os.path.join(os.path.dirname(os.path.abspath(__file__)), "../crates/tcap_judge")
OTHERS = ["tshark", "asn1parse", "unber"]
NAMES, TELLS, NONE = "names", "tells", "none"
GROUPS = {
    "captured": ("Captured messages", "Damage"),
    "written": ("Messages with one mistake", "Mistake"),
    "messages": ("Rows of the table of messages", "Row"),
    "portions": ("Rows of the tables of the dialogue portion", "Row"),
    "components": ("Rows of the table of components", "Row"),
    "encodings": ("Rows of the table of faults of an encoding", "Row"),
}


def judged(rows):
    """What tcap_judge says of each row that has octets: the text of its line behind the name."""
    lines = "".join(f"row-{number} {row.message.hex()}\n" for number, row in rows)
    program = os.environ.get("JUDGE") or os.path.join(CRATE, "out/tcap_judge")
    words = [os.path.abspath(program)] if os.path.isfile(program) else ["rt", "try"]
    if "JUDGE" in os.environ and words[0] == "rt":
        sys.exit(f"faults_beside.py: {program} is no program")
    quiet = {"stdout": subprocess.PIPE, "stderr": subprocess.DEVNULL}
    run = subprocess.run(words, cwd=CRATE, input=lines, encoding="ascii", check=False, **quiet)
    said = dict(re.findall(r"^row-(\d+) (.*)$", run.stdout, re.M))
    return {int(number): text for number, text in said.items()}


def compare(rows):
    """Stops where tcap_judge says anything else than the tests."""
    rows = [(number, row) for number, row in rows if row.message]
    said = judged(rows)
    wrong = [number for number, row in rows if said.get(number) != row.text.strip().replace("\n", " ")]
    if wrong:
        sys.exit(f"faults_beside.py: tcap_judge says something else of {', '.join(map(str, wrong))}")


def grade(row, said):
    """Whether a reader names the octet or the element of the fault, or tells that there is one."""
    if said.place is not None and row.element <= said.place <= max(row.place, row.contents() or 0):
        return NAMES
    return NONE if said.words in (readers.NOTHING, readers.SILENT) else TELLS


def is_further_in(row, said):
    """Whether a reader names an octet within what is called faulty here, before the place that is told here."""
    first = row.contents() or row.element + 1
    return said.place is not None and first <= said.place < row.place


def table(*lines):
    """The lines of a table, of which the first is its head."""
    head, *lines = [f"| {' | '.join(map(str, line))} |" for line in lines]
    return [head, "|" + " --- |" * (head.count("|") - 1), *lines]


def coverage(rows):
    """How many messages break each row of the tables, and how."""
    counts = Counter((row.name, row.mistake) for _, row in rows if row.group in ("messages", "portions", "components"))
    names = list(dict.fromkeys(name for name, _ in fault_rows.TABLE.values()))
    names.insert(names.index("AARQ") + 1, "AUDT")
    lines = []
    for name in names:
        kinds = {kind: fault_rows.can_be(name, kind) for kind in fault_rows.MISTAKES}
        if any(can and not counts[name, kind] for kind, can in kinds.items()):
            sys.exit(f"faults_beside.py: no message breaks {name} in each way")
        lines.append((name, *(counts[name, kind] if can else "-" for kind, can in kinds.items())))
    return table(("Row", *fault_rows.MISTAKES), *lines)


def summary(rows, said):
    """In how many messages of each group each reader names the fault, tells of it, or has nothing."""
    kinds = [(reader, kind) for reader in OTHERS for kind in (NAMES, TELLS, NONE)]
    lines = []
    for group, (title, _) in [*GROUPS.items(), (None, ("all", ""))]:
        faulty = [(number, row) for number, row in rows if row.verdict != "good" and group in (None, row.group)]
        counts = Counter((reader, grade(row, said[reader][number])) for number, row in faulty for reader in OTHERS)
        lines.append((title, len(faulty), len(faulty), *(counts[kind] for kind in kinds)))
    return table(("", "Messages", "here", *(f"{reader} {kind}" for reader, kind in kinds)), *lines)


def group_of(rows, said, group):
    """The section of a group."""
    title, first = GROUPS[group]
    is_table = first == "Row"
    lines = []
    for number, row in rows:
        if row.group == group:
            here = (row.place, row.element, f"expected {row.expected}, found {row.found}")
            here = ("-", "-", "good") if row.verdict == "good" else here
            what = (row.name, row.mistake) if is_table else (row.name, row.verdict)
            lines.append((number, *what, *here, *(said[reader][number] for reader in OTHERS)))
    head = ("", first, "Mistake" if is_table else "Verdict", "Place", "Element", "Here", *OTHERS)
    return [f"## {title}", "", *table(head, *lines), ""]


def printed(*words):
    return subprocess.run(words, capture_output=True, encoding="utf-8", check=True).stdout


def versions():
    """The versions of the others."""
    tshark = printed("tshark", "--version").split()[2]
    openssl = printed("openssl", "version").split()[1]
    unber = printed("dpkg-query", "-W", "-f", "${Version}", "asn1c").partition("+")[0]
    return f"tshark {tshark}, OpenSSL {openssl} and unber {unber}"


def page(rows, said):
    """The page."""
    faulty = [(number, row) for number, row in rows if row.verdict != "good"]
    answers = [(number, row, reader, said[reader][number]) for number, row in faulty for reader in OTHERS]
    further = [f"{number} ({reader}, {it})" for number, row, reader, it in answers if is_further_in(row, it)]
    values = [f"{number} ({said['tshark'][number]})" for number, row in rows if row.verdict == "good"]
    text = re.sub(r"(?<=[^\n])\n(?=[^\n-])", " ", TEXT).format(
        count=len(faulty),
        versions=versions(),
        summary="\n".join(summary(rows, said)),
        coverage="\n".join(coverage(rows)),
        further=", ".join(further),
        values=", ".join(values),
    )
    parts = [line for group in GROUPS for line in group_of(rows, said, group)]
    return text + "\n" + "\n".join(parts).rstrip()


def main():
    rows = list(enumerate(fault_rows.rows(), 1))
    if sys.argv[1:] == ["--messages"]:
        for number, row in rows:
            print(f"row-{number}", row.message.hex())
        return
    if sys.argv[1:]:
        sys.exit(f"faults_beside.py: it takes --messages alone, not {sys.argv[1]}")
    missing = [tool for tool in ("tshark", "openssl", "unber") if not shutil.which(tool)]
    if missing:
        sys.exit(f"faults_beside.py: missing: {', '.join(missing)} (Debian's tshark, openssl, asn1c)")
    compare(rows)
    tshark = readers.tshark_says([row.message for _, row in rows])
    said = {
        "tshark": dict(zip((number for number, _ in rows), tshark)),
        "asn1parse": {number: readers.asn1parse_says(row.message) for number, row in rows},
        "unber": {number: readers.unber_says(row.message) for number, row in rows},
    }
    print(page(rows, said))


TEXT = """# Where a fault is, beside other readers

What the programs here say of faulty messages, beside what tshark, `openssl asn1parse` and unber say of them.
docs/FAULTS.md says what a place and an element are. conformance/faults_beside.py printed this page, with {versions}.

The messages are those of crates/explain_tests and a few of conformance/fault_rows.py. What stands under Here is
written there, and `tcap_judge` says the same of all but the empty one, which no line can have. The first 22 are MAP
messages of a capture of which octets were changed or cut off; of number 10 only the first 77 octets stand there, of
number 13 zeros in place of most of its parameter. The script prints them all by `--messages`.

## What was counted

{count} messages are faulty. A reader **names** a fault where it says something of the octet that is its place, or of
one from the first octet of the faulty element to its contents, whatever it says. It **tells** one where it gives no
octet, or another. **None**: it finds nothing wrong.

{summary}

- **Here** the place, the element and what was expected are told of each.
- **tshark** is asked for the tree that `-V` prints, by `-T pdml`, which has the octets that `-V` leaves out. It reads
by its grammar of TCAP alone, without those of its readers that look into parameters (GSM MAP, CAMEL, INAP). With them
it says more of some messages that are cut off, as `length of contained item exceeds length of containing item`, and
not of which item. Of a number without a name it says `unknown`.
- **asn1parse** knows no TCAP. It prints a tree, and an error without an octet; the head that it printed last is told
here. `BAD` stands in its tree at a value that isn't one of its type.
- **unber** knows no TCAP. It prints a tree, and for some elements that can't be read an octet.

### Where another says more

- Another names an octet within the element that is told here, before the place, in {further}. Here the element is the
outermost that can't be read, and the place is where octets are missing.
- Good by the profile, which keeps problem codes without a name: {values}.
- tshark and unber go on behind the first fault. Here one is told.

### Which rows are broken, and how

In numbers of messages. `-`: it can't be. One element alone is never out of order, and where any number may stand none
is missing and none too many.

{coverage}
"""


if __name__ == "__main__":
    main()
