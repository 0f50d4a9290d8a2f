"""Puts each wrong program of planted/ in the program's place, and says which message finds it.
planted_messages.py PROGRAM OUT SEED"""

import os
import sys

import readers
from compare import alone
from comparison import Comparison
from messages import messages
from program import Tcap

# Few messages find most of them; the last number is the most that one may need.
COUNTS = [0, 50, 200, 1000, 4000]


def failures(tcap, others, given):
    """The failures of a program on messages, those of the quickest comparison first."""
    for reader in others:
        comparison = Comparison(tcap, reader, others[0])
        comparison.compare(given)
        yield from comparison.failures
        if reader is others[0]:
            yield from alone(tcap, given)


def find(wrong, right, others, given):
    """The first failure of a wrong program on a message at which the right one has none, or None."""
    for start, end in zip(COUNTS, COUNTS[1:]):
        for message, words, _ in failures(Tcap(wrong), others, given[start:end]):
            if not any(failures(right, others, [message])):
                return message, words
    return None


def main(program, out, seed):
    os.environ["PLANTED_IN"] = os.path.abspath(program)
    folder = os.path.join(os.path.dirname(os.path.abspath(__file__)), "planted")
    given, others, right = messages(seed, COUNTS[-1]), readers.others(out), Tcap(program)
    missed = 0
    for name in sorted(os.listdir(folder)):
        found = find(os.path.join(folder, name), right, others, given)
        missed += found is None
        print(f"{name}: " + (f"found, {found[1]}\n    {found[0].hex()[:200]}" if found else "NOT FOUND"), flush=True)
    print(f"\n{missed} not found")
    return 1 if missed else 0


if __name__ == "__main__":
    sys.exit(main(*sys.argv[1:]))
