"""Plays scripts by wrong engines until each differs from what `tcap play` prints, and compares programs that
print lines of no form.
planted_plays.py PROGRAM SEED"""

import pathlib
import sys
import tempfile

import wrong_engines
from kinds import OF_NO_FORM
from plays import Comparison, first_difference, play_by_program, play_plainly
from scripts import script

MOST = 2_000
LINES_OF_NO_FORM = ["", "A", "A send", "A send A1 zz", "A uabort 1", "A invoked 1 id 1", "A localreject 1", "A refused"]


class Programmed:
    """What the program prints of each script, played once."""

    def __init__(self, program, seed):
        self.program, self.seed = program, seed
        self.plays = []

    def play(self, number):
        """The script of this number, counted from 1, and what the program prints of it."""
        while len(self.plays) < number:
            text = script(self.seed, len(self.plays) + 1)
            self.plays.append((text, play_by_program(self.program, text)))
        return self.plays[number - 1]


def find(programmed, make_engine):
    """The first script that a wrong engine plays differently, and where."""
    for number in range(1, MOST + 1):
        text, right = programmed.play(number)
        difference = first_difference(play_plainly(text, make_engine), right)
        if difference:
            return number, difference
    return None


def is_reported(line, seed):
    """Whether a comparison with a program that prints this line alone says that it differs, and what it printed."""
    with tempfile.TemporaryDirectory() as folder:
        program = pathlib.Path(folder, "program")
        program.write_text(f"#!/bin/sh\ncat > /dev/null\necho '{line}'\n")
        program.chmod(0o755)
        comparison = Comparison(program, seed)
        comparison.play(1)
    return comparison.differing == 1 and comparison.counts["program"] == {OF_NO_FORM: 1}


def shown(line):
    return line if len(line) <= 200 else line[:200] + ".."


def main(program, seed):
    programmed = Programmed(program, seed)
    missed = 0
    for name, make_engine in wrong_engines.WRONG.items():
        found = find(programmed, make_engine)
        if found is None:
            missed += 1
            print(f"{name}: not found in {MOST} scripts")
            continue
        number, (place, wrong, right) = found
        print(f"{name}: script {number}, line {place}")
        print(f"  wrong:   {shown(wrong)}\n  program: {shown(right)}", flush=True)
    print(f"{len(wrong_engines.WRONG) - missed} of {len(wrong_engines.WRONG)} wrong engines found")
    unreported = [line for line in LINES_OF_NO_FORM if not is_reported(line, seed)]
    for line in unreported:
        print(f"not reported, where a program prints it: '{line}'")
    return 1 if missed or unreported else 0


if __name__ == "__main__":
    sys.exit(main(*sys.argv[1:]))
