"""Compares what `tcap` says of messages with what the other readers read and with the messages themselves.
compare.py PROGRAM OUT SEED COUNT"""

import sys
from concurrent.futures import ProcessPoolExecutor
from itertools import repeat

import readers
from comparison import Comparison
from messages import messages
from program import Tcap
from rules import rule_fault
from tally import total

# The messages are of four seeds, a word with each of these behind it, and each seed has a process.
ENDS = ["", "2", "3", "4"]


def alone(tcap, given):
    """What is wrong in what the program says by itself: a message, words, and nothing beside them."""
    faults = zip(given + given, tcap.each(tcap.fault, given) + tcap.each(lambda it: rule_fault(tcap, it), given))
    return [(message, words, "") for message, words in faults if words]


def print_failures(failures):
    """Each failure with the shortest message that shows it."""
    titles = {}
    for message, title, answers in failures:
        titles.setdefault(title, []).append((message, answers))
    for title, found in titles.items():
        message, answers = min(found, key=lambda it: len(it[0]))
        print(f"FAILS {len(found):6}  {title}\n        {message.hex()}{answers}")
    print(f"\n{len(failures)} failures")


def compare(program, out, seed, count):
    """Compares messages of one seed. Gives how many are good, the tally of each reader, and the failures."""
    given, tcap, others = messages(seed, count), Tcap(program), readers.others(out)
    good = sum(map(readers.is_taken, tcap.read(given)))
    failures = alone(tcap, given)
    tallies = []
    for reader in others:
        comparison = Comparison(tcap, reader, others[0])
        comparison.compare(given)
        tallies.append(comparison.tally)
        failures += comparison.failures
    return good, tallies, failures


def main(program, out, seed, count):
    seeds = [seed + end for end in ENDS]
    counts = [(int(count) + place) // len(seeds) for place in range(len(seeds))]
    with ProcessPoolExecutor(len(seeds)) as pool:
        parts = list(pool.map(compare, repeat(program), repeat(out), seeds, counts))
    good, tallies, failures = zip(*parts)
    print(f"{count} messages of the seeds {' '.join(seeds)}, {sum(good)} of them good")
    for reader in zip(*tallies):
        total(reader).print()
    print_failures(sum(failures, []))
    return 1 if any(failures) else 0


if __name__ == "__main__":
    sys.exit(main(*sys.argv[1:]))
