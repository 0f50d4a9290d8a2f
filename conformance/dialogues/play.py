"""Plays scripts over two plain engines and prints what docs/FORMATS.md says (play).
play.py < SCRIPT"""

import re
import sys

from engine import Engine
from primitives import Refused

ADDRESSES = {"A": b"\x41", "B": b"\x42"}
OTHER = {"A": "B", "B": "A"}
KINDS = ("general", "invoke", "result", "error")


class BadLine(Exception):
    """A line of no known form, or one whose message doesn't fit."""


def require_form(holds):
    if not holds:
        raise BadLine


# ---- words


def number(low, high):
    """A reader of decimal numbers from one to another."""

    def read(word):
        require_form(re.fullmatch(r"0|-?[1-9][0-9]{0,19}", word) and low <= int(word) <= high)
        return int(word)

    return read


def octets(word):
    require_form(re.fullmatch(r"([0-9a-fA-F]{2})+", word))
    return bytes.fromhex(word)


def or_nothing(read, nothing=None):
    """A reader of what `read` reads, and of `-`."""
    return lambda word: nothing if word == "-" else read(word)


def address(word):
    read = octets_or_empty(word)
    require_form(len(read) <= 255)
    return read


def one_of(*words):
    def read(word):
        require_form(word in words)
        return word

    return read


octets_or_empty = or_nothing(octets, b"")
octets_or_absent = or_nothing(octets)
dialogue = number(0, 2**32 - 1)
identifier = number(-128, 127)
code = number(-(2**31), 2**31 - 1)
milliseconds = number(0, 2**64 - 1)
DIALOGUE_PORTION = [octets_or_absent, octets_or_empty]
RESULT = [dialogue, identifier, or_nothing(code), octets_or_absent]
REQUESTS = {
    "new": ("new_dialogue", []),
    "invoke": (
        "invoke",
        [dialogue, identifier, number(1, 4), code, milliseconds, or_nothing(identifier), octets_or_absent],
    ),
    "last": ("last", RESULT),
    "more": ("more", RESULT),
    "error": ("error", [dialogue, identifier, code, octets_or_absent]),
    "reject": ("reject", [dialogue, or_nothing(identifier), one_of(*KINDS), number(0, 127)]),
    "cancel": ("cancel", [dialogue, identifier]),
    "uni": ("uni", [dialogue, *DIALOGUE_PORTION]),
    "begin": ("begin", [dialogue, *DIALOGUE_PORTION]),
    "beginto": ("begin", [dialogue, address, *DIALOGUE_PORTION]),
    "continue": ("go_on", [dialogue, *DIALOGUE_PORTION]),
    "end": ("finish", [dialogue, *DIALOGUE_PORTION]),
    "prearranged": ("prearranged", [dialogue]),
}
ABORTS = {"user": "abort_for_user", "unsupported": "abort_unsupported"}


def read_words(readers, words):
    require_form(len(readers) == len(words))
    return [read(word) for read, word in zip(readers, words)]


# ---- the play


class Player:
    """Two engines, and the messages that each has sent, with what became of them."""

    def __init__(self, make_engine=Engine):
        self.make_engine = make_engine
        self.engines = {side: make_engine(0) for side in ADDRESSES}
        self.messages = {side: [] for side in ADDRESSES}
        self.begun = False

    def play(self, script):
        """What a script prints, and whether it has no bad line."""
        printed = []
        lines = script.split("\n")
        for place, line in enumerate(lines[:-1] if lines[-1] == "" else lines, 1):
            try:
                printed += self.line(line)
            except BadLine:
                return [*printed, f"line {place} bad"], False
        return printed, True

    def line(self, line):
        """What one line prints."""
        if line == "" or line.startswith("#"):
            return []
        words = line.split(" ")
        is_first, self.begun = not self.begun, True
        if words[0] == "idle" and is_first:
            (limit,) = read_words([number(0, 2**62)], words[1:])
            self.engines = {side: self.make_engine(limit) for side in ADDRESSES}
            return []
        if words[0] == "advance":
            (moment,) = read_words([milliseconds], words[1:])
            return [text for side in ADDRESSES for text in self.ask(side, "advance", [moment])]
        if words[0] in ("deliver", "again", "lose"):
            require_form(len(words) == 2)
            return self.move(words[0], words[1])
        require_form(words[0] in ADDRESSES and len(words) > 1)
        return self.side_line(words[0], words[1], words[2:])

    def side_line(self, side, word, words):
        if word == "raw":
            return self.receive(side, *read_words([octets_or_empty], words), ADDRESSES[OTHER[side]])
        if word == "rawfrom":
            sender, received = read_words([address, octets_or_empty], words)
            return self.receive(side, received, sender)
        if word == "abort":
            asked, why, information = read_words([dialogue, one_of(*ABORTS), octets_or_empty], words)
            return self.ask(side, ABORTS[why], [asked, information])
        require_form(word in REQUESTS)
        name, readers = REQUESTS[word]
        values = read_words(readers, words)
        if word in ("last", "more"):
            # Without a body there is no parameter.
            require_form(values[2] is not None or values[3] is None)
        if word in ("uni", "begin"):
            values.insert(1, ADDRESSES[OTHER[side]])
        return self.ask(side, name, values)

    def ask(self, side, name, values):
        try:
            outputs = getattr(self.engines[side], name)(*values)
        except Refused as refusal:
            return [f"{side} refused {refusal.args[0]}"]
        return self.tell(side, outputs)

    def receive(self, side, received, sender):
        return self.tell(side, self.engines[side].receive(received, sender))

    def move(self, word, name):
        """Delivers or loses a message that was sent, once, or delivers one again."""
        require_form(re.fullmatch(r"[AB][1-9][0-9]{0,9}", name) and int(name[1:]) <= len(self.messages[name[0]]))
        side, message = name[0], self.messages[name[0]][int(name[1:]) - 1]
        require_form(message["fate"] == ("received" if word == "again" else "sent"))
        if word == "lose":
            message["fate"] = "lost"
            return []
        require_form(message["to"] == ADDRESSES[OTHER[side]])
        message["fate"] = "received"
        return self.receive(OTHER[side], message["octets"], ADDRESSES[side])

    def tell(self, side, outputs):
        """The lines of what an engine answers."""
        lines = []
        for output in outputs:
            text = self.sent(side, *output[1:]) if output[0] == "send" else told(output)
            lines.append(f"{side} {text}")
        return lines

    def sent(self, side, message, to):
        self.messages[side].append({"octets": message, "to": to, "fate": "sent"})
        text = f"send {side}{len(self.messages[side])} {message.hex()}"
        return text if to == ADDRESSES[OTHER[side]] else f"{text} to {hexadecimal(to)}"


# ---- the answers


def told(output):
    """The line of an output, behind its side."""
    match output:
        case ("new" | "number" | "givenup" | "dropped", value):
            return f"{output[0]} {value}"
        case ("done",):
            return "done"
        case ("uni", portion):
            return f"uni {context_of(portion)}"
        case ("begin" | "continue" | "end", place, portion):
            return f"{output[0]} {place} {context_of(portion)}"
        case ("uabort", place, pdu):
            return f"uabort {place} {told_pdu(pdu)}"
        case ("pabort", place, why):
            return f"pabort {place} {f'cause {why}' if isinstance(why, int) else why}"
        case ("invoked", place, known):
            linked = or_dash(known["linked"])
            return f"invoked {or_dash(place)} id {known['id']} linked {linked} op {told_code(known)}"
        case ("more" | "last" | "error", place, value, known):
            word = "code" if output[0] == "error" else "op"
            return f"{output[0]} {place} id {known['id']} number {value} {word} {told_code(known)}"
        case ("rejected", place, known, kind, problem, by):
            return f"rejected {place} id {known['id']} number {known['number']} {kind} {problem} by {by}"
        case ("localreject", place, rejected, kind, problem):
            return f"localreject {or_dash(place)} id {or_dash(rejected)} {kind} {problem}"
        case ("remotereject", place, rejected, kind, problem, by):
            return f"remotereject {or_dash(place)} id {or_dash(rejected)} {kind} {problem} by {by}"
        case ("lapsed" | "ended", place, known):
            return f"{output[0]} {place} id {known['id']} number {known['number']}"


def hexadecimal(value):
    return value.hex() if value else "-"


def or_dash(value):
    return "-" if value is None else str(value)


def context_of(portion):
    """The context and the information of a dialogue portion that may be missing."""
    known = portion or {"context": None, "information": None}
    return f"context {hexadecimal(known['context'])} info {hexadecimal(known['information'])}"


def told_pdu(pdu):
    if pdu is None:
        return "-"
    if pdu["pdu"] == "foreign":
        return f"foreign {pdu['octets'].hex()}"
    information = hexadecimal(pdu["information"])
    if pdu["pdu"] == "abrt":
        return f"abrt {pdu['source']} info {information}"
    version = "yes" if pdu["version"] else "no"
    by, diagnostic = pdu["diagnostic"]
    source = f"result {pdu['result']} {by} {diagnostic}"
    return f"aare version {version} context {pdu['context'].hex()} {source} info {information}"


def told_code(known):
    """The code and the parameter of an Invoke, a result or an error."""
    parameter = f"param {hexadecimal(known['parameter'])}"
    if known["code"] is None:
        return f"- {parameter}"
    form, value = known["code"]
    return f"{form} {value if form == 'local' else value.hex()} {parameter}"


def main():
    printed, is_good = Player().play(sys.stdin.read())
    sys.stdout.write("".join(line + "\n" for line in printed))
    return 0 if is_good else 1


if __name__ == "__main__":
    sys.exit(main())
