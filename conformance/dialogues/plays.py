"""Plays scripts by `tcap play` and by the plain engine, and compares what they print.
plays.py PROGRAM SEED COUNT"""

import collections
import subprocess
import sys

from engine import Engine
from kinds import WANTED, kind_of
from play import Player
from scripts import script


def play_by_program(program, text):
    """The lines that the program prints, and its status."""
    run = subprocess.run([program, "play"], input=text.encode(), capture_output=True)
    return run.stdout.decode(errors="backslashreplace").split("\n")[:-1], run.returncode


def play_plainly(text, make_engine=Engine):
    """The lines that plain engines print, and the status by docs/FORMATS.md."""
    printed, is_good = Player(make_engine).play(text)
    return printed, 0 if is_good else 1


def first_difference(ours, theirs):
    """The place of the first line in which two plays differ, and both lines, none if they don't."""
    for place in range(max(len(ours[0]), len(theirs[0]))):
        pair = tuple(lines[place] if place < len(lines) else "(no line)" for lines, _ in (ours, theirs))
        if pair[0] != pair[1]:
            return place + 1, *pair
    if ours[1] != theirs[1]:
        return len(ours[0]), f"status {ours[1]}", f"status {theirs[1]}"
    return None


def shortest_front(program, text):
    """The shortest front of a script that is played differently, by its lines."""
    lines = text.split("\n")
    for count in range(1, len(lines)):
        front = "\n".join(lines[:count]) + "\n"
        if first_difference(play_plainly(front), play_by_program(program, front)):
            return front
    return text


class Comparison:
    """What was played, and what differs."""

    def __init__(self, program, seed):
        self.program, self.seed = program, seed
        self.lines = self.differing = 0
        self.first = None
        self.counts = {"plain": collections.Counter(), "program": collections.Counter()}

    def play(self, number):
        text = script(self.seed, number)
        plain, program = play_plainly(text), play_by_program(self.program, text)
        self.lines += len(plain[0])
        self.counts["plain"].update(map(kind_of, plain[0]))
        self.counts["program"].update(map(kind_of, program[0]))
        if first_difference(plain, program):
            self.differing += 1
            self.first = self.first or number

    def missing(self):
        """The kinds that no line of one side has."""
        return [(side, kind) for side, counts in self.counts.items() for kind in WANTED if not counts[kind]]

    def print(self, count):
        print(f"{count} scripts of seed {self.seed}, {self.lines} lines; {self.differing} scripts differ")
        print(f"  {'':28}{'plain':>9}{'program':>9}")
        others = set(self.counts["plain"]) | set(self.counts["program"])
        for kind in [*WANTED, *sorted(others - set(WANTED))]:
            print(f"  {kind:28}{self.counts['plain'][kind]:9}{self.counts['program'][kind]:9}")
        for side, kind in self.missing():
            print(f"no line of this kind ({side}): {kind}")
        if self.first:
            self.print_first()

    def print_first(self):
        front = shortest_front(self.program, script(self.seed, self.first))
        place, ours, theirs = first_difference(play_plainly(front), play_by_program(self.program, front))
        print(f"script {self.first} differs in line {place}\n  plain:   {ours}\n  program: {theirs}\n{front}")


def main(program, seed, count):
    comparison = Comparison(program, seed)
    for number in range(1, int(count) + 1):
        comparison.play(number)
    comparison.print(int(count))
    return 1 if comparison.differing or comparison.missing() else 0


if __name__ == "__main__":
    sys.exit(main(*sys.argv[1:]))
