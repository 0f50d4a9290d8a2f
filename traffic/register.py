#!/usr/bin/env python3
"""register.py PROGRAM [DIALOGUES [SEED]]: a register under an invoker, with messages that are lost, repeated and late.

PROGRAM is crates/register/out/register, which `rt run` there builds; 100,000 dialogues and seed 1 where none are given.
The invoker is written here by hand, after Q.773 and Q.774: it knows nothing of the engine. It begins dialogues with one
to three operations, or with none and invokes in the Continue that follows, and keeps books. Status 1 where they differ."""

import collections
import heapq
import random
import signal
import subprocess
import sys

NUMBER, OTHER, CENTRE = "91447700090010", "91447700090020", "91447700090099"
INFO = "3015040832140500000000F1A009810791447700091000"
AC = "060704000001001403"
AARQ = "6B1E281C060700118605010101A011600F80020780A109" + AC
AARE = "6B2A2828060700118605010101A01D611B80020780A109" + AC + "A203020100A305A103020100"
PEERS = ["0B12", "-", "1104000447700900"]
# So long the register may take for an answer; then the run ends.
SECONDS = 60
LOST, REPEATED, LATE = 0.06, 0.06, 0.1
LAPSE = 5_000  # an invocation's timer, in milliseconds


def tlv(tag, content):
    size = len(content) // 2
    assert size < 65_536
    length = f"{size:02X}" if size < 128 else f"81{size:02X}" if size < 256 else f"82{size:04X}"
    return tag + length + content


def elements(octets):
    """The elements of some octets, whose lengths are of the short or the long definite form."""
    found = []
    while octets:
        tag, size, at = octets[0], octets[1], 2
        if size & 0x80:
            at += size & 0x7F
            size = int.from_bytes(octets[2:at], "big")
        assert len(octets) >= at + size
        found.append((tag, octets[at : at + size]))
        octets = octets[at + size :]
    return found


def routing(number):
    return tlv("30", tlv("80", number) + "8101FF" + tlv("82", CENTRE))


def invoke(identifier, operation):
    """An Invoke and the component that has to answer it, none for class 4."""
    own = f"0201{identifier:02X}"
    code, parameter, answer = {
        "known": ("2D", routing(NUMBER), tlv("A2", own + tlv("30", "02012D" + INFO))),
        "unknown number": ("2D", routing(OTHER), tlv("A3", own + "020101")),
        "mistyped": ("2D", "0401AA", tlv("A4", own + "810102")),
        "present": ("30", "040832140500000000F1", None),
        "unknown operation": ("63", "", tlv("A4", own + "810101")),
    }[operation]
    return tlv("A1", own + "0201" + code + parameter), answer


class Dialogue:
    def __init__(self, draw, identifier):
        self.identifier, self.peer = f"{identifier:08X}", draw.choice(PEERS)
        self.has_context, self.first = draw.random() < 0.5, draw.random() < 0.25
        kinds = ["known", "known", "unknown number", "mistyped", "present", "unknown operation"]
        self.invokes = [invoke(at + 1, draw.choice(kinds)) for at in range(draw.randint(1, 3))]
        self.answers = {at + 1: answer for at, (_, answer) in enumerate(self.invokes)}
        self.over, self.asked = False, 0
        self.closed = collections.Counter()

    def components(self):
        return tlv("6C", "".join(component for component, _ in self.invokes))

    def begin(self):
        return tlv("62", "4804" + self.identifier + (AARQ if self.has_context else "") + ("" if self.first else self.components()))

    def go_on(self, far):
        return tlv("65", "4804" + self.identifier + "4904" + far + self.components())


class Run:
    def __init__(self, program, dialogues, seed):
        self.draw, self.books = random.Random(seed), collections.Counter()
        self.program = subprocess.Popen([program], stdin=subprocess.PIPE, stdout=subprocess.PIPE, text=True)
        self.dialogues = {f"{at:08X}": Dialogue(self.draw, at) for at in range(1, dialogues + 1)}
        self.queue, self.serial, self.clock = [], 0, 0

    def post(self, moment, kind, what):
        self.serial += 1
        heapq.heappush(self.queue, (moment, self.serial, kind, what))

    def carry(self, kind, what):
        """Through the network: lost, or once or twice, some of it late."""
        self.books[kind + " sent"] += 1
        copies = self.draw.choices([0, 2, 1], [LOST, REPEATED, 1 - LOST - REPEATED])[0]
        self.books[kind + " lost"] += copies == 0
        self.books[kind + " repeated"] += copies == 2
        for _ in range(copies):
            delay = self.draw.randint(500, 3_000) if self.draw.random() < LATE else self.draw.randint(1, 50)
            self.post(self.clock + delay, kind, what)

    def at_register(self, peer, octets):
        """A message reaches the register: its one line in answer."""
        self.program.stdin.write(f"at {self.clock}\n{peer} {octets}\n")
        self.program.stdin.flush()
        signal.alarm(SECONDS)
        to, answer = self.program.stdout.readline().split()
        signal.alarm(0)
        assert to.upper() == peer, "another address"
        return bytes.fromhex(answer)

    def check_answer(self, dialogue, is_begin, octets):
        """Each Invoke that came with a message is answered once in what was sent for it, in its order."""
        (tag, content), = elements(octets)
        parts = elements(content)
        if tag == 0x67:
            # A Continue that was repeated, to a dialogue that the first one ended.
            assert not is_begin and parts == [(0x49, bytes.fromhex(dialogue.identifier)), (0x4A, b"\1")]
            self.books["aborted"] += 1
            return
        asks = not (is_begin and dialogue.first)
        assert tag == (0x64 if asks else 0x65)
        wanted = [(0x49, bytes.fromhex(dialogue.identifier))]
        if not asks:
            assert parts[0][0] == 0x48
            parts = parts[1:]
        if is_begin and dialogue.has_context:
            wanted += elements(bytes.fromhex(AARE))
        answers = "".join(answer for _, answer in dialogue.invokes if answer) if asks else ""
        if answers:
            wanted += elements(bytes.fromhex(tlv("6C", answers)))
        assert parts == wanted, (parts, wanted)
        if asks:
            self.books["invokes told"] += len(dialogue.invokes)
            self.books["answers sent"] += sum(answer is not None for _, answer in dialogue.invokes)
            self.books["silent by class"] += sum(answer is None for _, answer in dialogue.invokes)

    def at_invoker(self, dialogue, octets):
        """A message reaches the invoker. What comes to a dialogue that is over is passed over, as Q.774 says."""
        (tag, content), = elements(octets)
        parts = elements(content)
        answers = elements(dict(parts).get(0x6C, b""))
        self.books["answers come"] += len(answers)
        if dialogue.over:
            self.books["answers to none"] += len(answers)
        elif tag == 0x65:
            if dialogue.asked == 0:
                self.ask(dialogue)
                self.carry("request", (dialogue, False, dialogue.go_on(dict(parts)[0x48].hex().upper())))
        else:
            for _, component in answers:
                self.close(dialogue, elements(component)[0][1][0], "answered")
            for identifier in dialogue.answers if dialogue.asked else ():
                if not dialogue.closed[identifier]:
                    self.close(dialogue, identifier, "ended")
            dialogue.over = True

    def ask(self, dialogue):
        dialogue.asked = len(dialogue.invokes)
        self.books["invoked"] += dialogue.asked
        self.post(self.clock + LAPSE, "timer", dialogue)

    def close(self, dialogue, identifier, how):
        dialogue.closed[identifier] += 1
        self.books[how] += 1

    def lapse(self, dialogue):
        for identifier in dialogue.answers if not dialogue.over else ():
            if not dialogue.closed[identifier]:
                self.close(dialogue, identifier, "lapsed")
        dialogue.over = True

    def run(self):
        for at, dialogue in enumerate(self.dialogues.values()):
            self.post(at * 2, "start", dialogue)
        while self.queue:
            self.clock, _, kind, what = heapq.heappop(self.queue)
            if kind == "start":
                if not what.first:
                    self.ask(what)
                self.carry("request", (what, True, what.begin()))
            elif kind == "timer":
                self.lapse(what)
            elif kind == "request":
                dialogue, is_begin, octets = what
                answer = self.at_register(dialogue.peer, octets)
                self.check_answer(dialogue, is_begin, answer)
                self.carry("answer", (dialogue, answer))
            else:
                self.at_invoker(*what)
        self.program.stdin.close()
        assert self.program.stdout.read() == "", "more is sent than was asked for"
        assert self.program.wait() == 0

    def judge(self):
        books = self.books
        equal = {
            "each invocation is closed once": all(
                dialogue.closed[identifier] == (1 if dialogue.asked else 0)
                for dialogue in self.dialogues.values()
                for identifier in dialogue.answers
            ),
            "invoked = answered + ended + lapsed": books["invoked"] == books["answered"] + books["ended"] + books["lapsed"],
            "invokes told = answers sent + silent by class": books["invokes told"] == books["answers sent"] + books["silent by class"],
            "answers come = answered + answers to none": books["answers come"] == books["answered"] + books["answers to none"],
        }
        for name in sorted(books):
            print(f"{books[name]:>9}  {name}")
        for claim, holds in equal.items():
            print("equal" if holds else "DIFFER", "-", claim)
        return all(equal.values())


def main():
    if not 2 <= len(sys.argv) <= 4:
        sys.exit(__doc__)
    run = Run(sys.argv[1], *(int(word) for word in (sys.argv[2:] + ["100000", "1"][len(sys.argv) - 2 :])))
    run.run()
    sys.exit(0 if run.judge() else 1)


if __name__ == "__main__":
    main()
