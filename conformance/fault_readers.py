"""What other readers say of the fault of a message, and at which octet: tshark, `openssl asn1parse` and unber."""

import re
import subprocess
import sys
import tempfile
import xml.etree.ElementTree as tree

import tshark

SECONDS = 10
NOTHING, SILENT = "no error", "prints nothing"
# Words of tshark, shortened.
SHORTER = [
    (r"^BER Error: ", ""),
    (r"This field lies beyond the end of the known sequence definition\.", "beyond the end of the sequence"),
    (r"Wrong field in SEQUENCE( OF)?: ", ""),
    (r"Wrong tag in tagged type - ", ""),
    (r"class:(\w+)\(\d\) (?:Primitive )?tag:(\d+)(?: ?\(.*?\))?", lambda it: f"{it[1].lower()} {it[2]}"),
    (r"dissect_ber_constrained_bitstring\(\): frame:\d+ offset:\d+ Was passed an", "an"),
    (r"^Malformed Packet.*", "malformed packet"),
    (r"tvb_reported_length_remaining: ", "the rest, "),
]


class Said:
    """What a reader says: the words, and the octet where it says that they hold, None where it names none."""

    def __init__(self, words, place=None):
        self.words, self.place = words, place

    def __str__(self):
        return self.words if self.place is None else f"{self.place}: {self.words}"


def tshark_says(messages):
    """The first that tshark's tree says of a fault with an octet, else the first, for each message. It is asked without
    those of its readers that look into parameters."""
    with tempfile.NamedTemporaryFile(prefix="faults-", suffix=".pcap") as file:
        tshark.write_capture(file, messages)
        words = ["tshark", "-n", "-r", file.name, "-T", "pdml", *tshark.OPTIONS]
        run = subprocess.run(words, stdout=subprocess.PIPE, stderr=subprocess.DEVNULL, check=True)
    packets = list(tree.fromstring(run.stdout).iter("packet"))
    if len(packets) != len(messages):
        sys.exit(f"tshark read {len(packets)} of {len(messages)} messages")
    return [first_of(list(faults(packet))) for packet in packets]


def faults(element):
    """What the tree of a packet says of faults, from the top."""
    for inner in element:
        unknown = re.fullmatch(r"([\w-]+): Unknown \((-?\d+)\)", inner.get("showname", ""))
        if inner.get("name") == "_ws.expert":
            note = next(it.get("show") for it in inner.iter() if it.get("name") == "_ws.expert.message")
            is_malformed = note.startswith("Malformed Packet")
            yield Said(shorter(note), None if is_malformed else int(element.get("pos")))
        elif unknown:
            yield Said(f"{unknown[1]}: unknown ({unknown[2]})", int(inner.get("pos")))
        yield from faults(inner)


def shorter(words):
    for long, short in SHORTER:
        words = re.sub(long, short, words)
    return small(words)


def small(words):
    """Words that begin with a small letter, where the second is one."""
    return words[0].lower() + words[1:] if words[1:2].islower() else words


def first_of(found):
    """The first of what has a place, else the first."""
    return next((it for it in found if it.place is not None), found[0] if found else Said(NOTHING))


def ask(words, message):
    """What a program prints of a message in a file, its words of errors without the file's name, and its status."""
    with tempfile.NamedTemporaryFile(prefix="faults-", suffix=".ber") as file:
        file.write(message)
        file.flush()
        run = subprocess.run([*words, file.name], capture_output=True, encoding="latin-1", timeout=SECONDS)
    return run.stdout, run.stderr.replace(f"{file.name}: ", "").replace(file.name, ""), run.returncode


def asn1parse_says(message):
    printed, errors, _ = ask(["openssl", "asn1parse", "-inform", "DER", "-in"], message)
    bad = re.search(r"^ *(\d+):d=.*?:BAD (\w+)", printed, re.M)
    if bad:
        return Said(f"BAD {bad[2]}", int(bad[1]))
    error = re.search(r"error:\w+:[^:]*:\w+:([^:]*):", errors)
    if error or "Error" in printed + errors:
        behind = re.findall(r"^ *(\d+):d=", printed, re.M)
        words = error[1] if error else "error"
        return Said(words + (f", behind the head at {behind[-1]}" if behind else ""))
    return Said(NOTHING)


def unber_says(message):
    printed, errors, status = ask(["unber"], message)
    where = re.search(r"^(.*?)(?: \(\d+ >= \d+\))? at (\d+)\b", errors)
    if where:
        return Said(small(where[1]), int(where[2]))
    if errors or status:
        return Said(small(errors.strip() or "error"))
    return Said(NOTHING if printed else SILENT)
