#!/usr/bin/env python3
"""Plays a script (docs/FORMATS.md, play) by two engines of the package tcap, and prints its text.

    play.py SCRIPT [SEEN]     status 1 where a line is bad; SEEN: a file into which it is written how often each status
                              was answered and each kind of output told, by a line `status NUMBER NAME COUNT` or
                              `kind NUMBER NAME COUNT`; NUMBER is that of tcap.h, NAME the class that told it, or Ok

The three lines more that play.c names are played here too.
"""
from __future__ import annotations

import collections
import pathlib
import re
import sys
from collections.abc import Callable
from dataclasses import dataclass, field

sys.path.insert(0, str(pathlib.Path(__file__).resolve().parent.parent / "python" / "tests"))

import tcap
from play_text import PROBLEMS, hexed, text_of
from refusing import Memory
from tcap import Dialogue, Engine, Local

KINDS: tuple[type, ...] = (  # in the order of tcap_kind, from 1
    tcap.Send, tcap.UniInd, tcap.BeginInd, tcap.ContinueInd, tcap.EndInd, tcap.UAbortInd, tcap.PAbortInd, tcap.InvokeInd,
    tcap.ResultLInd, tcap.ResultNLInd, tcap.UErrorInd, tcap.LCancelInd, tcap.ClosedInd, tcap.LRejectInd,
    tcap.RRejectInd, tcap.URejectInd, tcap.Dropped,
)  # fmt: skip


class Bad(Exception):
    """A line is of no form."""


# ---- words


def integer(word: str, low: int, high: int) -> int:
    if not re.fullmatch("0|-?[1-9][0-9]*", word) or not low <= int(word) <= high:
        raise Bad
    return int(word)


def octets(word: str) -> bytes:
    if word == "-":
        return b""
    if not re.fullmatch("([0-9a-fA-F]{2})+", word):
        raise Bad
    return bytes.fromhex(word)


def address(word: str) -> bytes:
    at = octets(word)
    if len(at) > 255:
        raise Bad
    return at


def identifier(word: str) -> int | None:
    return None if word == "-" else integer(word, -128, 127)


@dataclass
class Side:
    letter: str
    address: bytes
    engine: Engine
    sent: list[tuple[bytes, bytes, str]] = field(default_factory=list)  # octets, where to, their fate


class Play:
    """Two engines, and the messages between them."""

    def __init__(self, idle: int) -> None:
        self.memory, self.idle, self.now = Memory(), idle, 0
        self.seen: collections.Counter[tuple[str, int, str]] = collections.Counter()
        self.sides = {
            "A": Side("A", b"\x41", Engine(max_dialogues=16, idle_ms=idle)),
            "B": Side("B", b"\x42", Engine(max_dialogues=16, idle_ms=idle)),
        }

    def side(self, word: str) -> Side:
        if word not in self.sides:
            raise Bad
        return self.sides[word]

    def other(self, side: Side) -> Side:
        return self.sides["B" if side.letter == "A" else "A"]

    def call(self, side: Side, make: Callable[[], object], name: str = "") -> None:
        """Makes a call and prints what is answered, by this name, and told."""
        try:
            value = make()
        except tcap.TcapError as error:
            self.seen["status", error.status, type(error).__name__] += 1
            print(side.letter, "refused", int(error.status))
        else:
            self.seen["status", 0, "Ok"] += 1
            if name:
                print(side.letter, name, *([value.id if isinstance(value, Dialogue) else value] if value else []))
        for output in side.engine:
            self.seen["kind", 1 + KINDS.index(type(output)), type(output).__name__] += 1
            print(side.letter, self.send(side, output) if isinstance(output, tcap.Send) else text_of(output))

    def send(self, side: Side, output: tcap.Send) -> str:
        side.sent.append((output.message, output.address, "waits"))
        text = f"send {side.letter}{len(side.sent)} {output.message.hex()}"
        return text if output.address == self.other(side).address else f"{text} to {hexed(output.address)}"

    def carry(self, verb: str, name: str) -> None:
        """`deliver M`, `again M`, `lose M`."""
        side = self.side(name[:1])
        at = integer(name[1:], 1, max(1, len(side.sent))) - 1
        message, address, fate = side.sent[at] if side.sent else (b"", b"", "")
        to = self.other(side)
        if fate != ("received" if verb == "again" else "waits") or (verb != "lose" and address != to.address):
            raise Bad
        side.sent[at] = message, address, "lost" if verb == "lose" else "received"
        if verb != "lose":
            self.call(to, lambda: to.engine.receive(self.now, side.address, message))

    def advance(self, word: str) -> None:
        at = integer(word, 0, 2**64 - 1)
        self.now = max(self.now, at) if at <= 2**62 else self.now
        for side in self.sides.values():
            self.call(side, lambda: side.engine.advance(at))

    def open(self, side: Side, dialogues: str, message: str, dialogue: str, number: str) -> None:
        side.engine.close()
        side.engine = Engine(
            max_dialogues=integer(dialogues, 1, 65535),
            max_message=integer(message, 1, 65535),
            idle_ms=self.idle,
            first_dialogue=integer(dialogue, 1, 2**32 - 1),
            first_number=integer(number, 1, 2**64 - 1),
        )

    def line(self, words: list[str]) -> None:
        """Does what a line asks for."""
        match words:
            case ["deliver" | "again" | "lose" as verb, name]:
                self.carry(verb, name)
            case ["advance", moment]:
                self.advance(moment)
            case ["memory", "refused" | "given" as word]:
                self.memory.refuse_from(0 if word == "refused" else None, is_for_good=True)
            case [letter, "new"]:
                side = self.side(letter)
                self.call(side, side.engine.dialogue, "new")
            case [letter, "raw", message]:
                self.receive(self.side(letter), self.other(self.side(letter)).address, octets(message))
            case [letter, "rawfrom", sender, message]:
                self.receive(self.side(letter), address(sender), octets(message))
            case [letter, "open", *limits] if len(limits) == 4:
                self.open(self.side(letter), *limits)
            case [letter, verb, dialogue, *rest]:
                side = self.side(letter)
                self.request(side, verb, side.engine.dialogue_of(integer(dialogue, 0, 2**32 - 1)), rest)
            case _:
                raise Bad

    def receive(self, side: Side, sender: bytes, message: bytes) -> None:
        self.call(side, lambda: side.engine.receive(self.now, sender, message))

    def request(self, side: Side, verb: str, d: Dialogue, words: list[str]) -> None:
        """A request on a dialogue."""
        now, to = self.now, self.other(side).address
        match [verb, *words]:
            case ["uni" | "begin" | "continue" | "end", context, info]:
                c, i = octets(context) or None, octets(info)
                self.call(side, {
                    "uni": lambda: d.uni(now, to, context=c, info=i),
                    "begin": lambda: d.begin(now, to, context=c, info=i),
                    "continue": lambda: d.go_on(now, context=c, info=i),
                    "end": lambda: d.end(now, context=c, info=i),
                }[verb])  # fmt: skip
            case ["beginto", name, context, info]:
                a, c, i = address(name), octets(context) or None, octets(info)
                self.call(side, lambda: d.begin(now, a, context=c, info=i))
            case ["prearranged"]:
                self.call(side, lambda: d.end(now, termination=tcap.Termination.PREARRANGED))
            case ["abort", "user" | "unsupported" as why, info]:
                i, reason = octets(info), tcap.AbortReason(0 if why == "user" else 1)
                self.call(side, lambda: d.u_abort(now, reason, i))
            case ["cancel", word]:
                number = integer(word, -128, 127)
                self.call(side, lambda: d.u_cancel(number), "givenup")
            case ["reject", word, kind, code] if kind in PROBLEMS:
                rejected, problem = identifier(word), 256 * PROBLEMS.index(kind) + integer(code, 0, 255)
                self.call(side, lambda: d.u_reject(rejected, problem), "done")
            case ["last" | "more" | "error", word, code, parameter]:
                self.answer(side, verb, d, integer(word, -128, 127), code, octets(parameter) or None)
            case ["invoke", word, op_class, code, timeout, linked, parameter]:
                self.invoke(side, d, integer(word, -128, 127), op_class, code, timeout, linked, parameter)
            case _:
                raise Bad

    def answer(self, side: Side, verb: str, d: Dialogue, i: int, word: str, p: bytes | None) -> None:
        """`last`, `more`, `error`."""
        if word == "-" and (verb == "error" or p):
            raise Bad
        code = None if word == "-" else Local(integer(word, -(2**31), 2**31 - 1))
        if verb == "error" and code:
            error = code
            self.call(side, lambda: d.u_error(i, error, p), "done")
        else:
            self.call(side, lambda: (d.result_l if verb == "last" else d.result_nl)(i, code, p), "done")

    def invoke(
        self, side: Side, d: Dialogue, i: int, op_class: str, code: str, timeout: str, linked: str, parameter: str
    ) -> None:
        which, ms = Local(integer(code, -(2**31), 2**31 - 1)), integer(timeout, 0, 2**64 - 1)
        of, link, p = integer(op_class, 1, 4), identifier(linked), octets(parameter) or None
        self.call(side, lambda: d.invoke(i, which, p, timeout_ms=ms, op_class=of, linked_id=link), "number")


def idle_of(numbered: list[tuple[int, str]]) -> int:
    """The idle limit that a first line gives, which is taken off then; 0 where none does."""
    match numbered[0][1].split(" ") if numbered else []:
        case ["idle", moment]:
            limit = integer(moment, 0, 2**62)
            del numbered[0]
            return limit
    return 0


def main(words: list[str]) -> int:
    lines = pathlib.Path(words[0]).read_text().split("\n")
    numbered = [(number, line) for number, line in enumerate(lines, 1) if line and not line.startswith("#")]
    number = numbered[0][0] if numbered else 0
    try:
        play = Play(idle_of(numbered))
        for number, line in numbered:
            play.line(line.split(" "))
    except Bad:
        print("line", number, "bad")
        return 1
    if len(words) > 1:
        seen = [f"{what} {at} {name} {count}\n" for (what, at, name), count in sorted(play.seen.items())]
        pathlib.Path(words[1]).write_text("".join(seen))
    return 0


if __name__ == "__main__":
    sys.exit(main(sys.argv[1:]))
