#!/usr/bin/env python3
"""Runs each workload of workloads.txt by turns in two built checkouts: bench/run OLD NEW [SEED].

A line of workloads.txt is NAME CRATE WORD..: the program crates/CRATE/out/CRATE with these words, in the folder bench/;
SEED stands for a number below 2^32, and a last word <FILE for its standard input. Prints both medians and their ratio.
A workload that OLD fails at once is timed in NEW alone: an older program may not know it.
Status 1 where two outputs differ or a program fails; 2 where it can't be run.
"""
import pathlib
import statistics
import subprocess
import sys
import time

TURNS = 7


def stop(why, status=2):
    """Says why nothing is measured, and ends."""
    print(f"bench/run: {why}", file=sys.stderr)
    sys.exit(status)


def words_of(line, seed):
    """The name, the crate, the words and the input of a workload."""
    name, crate, *words = [seed if word == "SEED" else word for word in line.split()]
    given = words.pop()[1:] if words and words[-1].startswith("<") else None
    return name, crate, words, given


def timed(checkout, crate, words, given, may_fail=False):
    """The seconds that a run takes, and what it prints; None where it fails and may do so."""
    bench = checkout / "bench"
    program = checkout / "crates" / crate / "out" / crate
    if not program.is_file():
        stop(f"{program} isn't there: `rt run` in {program.parent.parent} builds it")
    with open(bench / given if given else "/dev/null", "rb") as stdin:
        began = time.perf_counter()
        done = subprocess.run([program, *words], cwd=bench, stdin=stdin, stdout=subprocess.PIPE)
        took = time.perf_counter() - began
    if done.returncode and may_fail:
        return None
    if done.returncode:
        stop(f"{program} {' '.join(words)} ends with status {done.returncode}", 1)
    return took, done.stdout


def main():
    if not 3 <= len(sys.argv) <= 4:
        stop("bench/run OLD NEW [SEED]")
    old, new = (pathlib.Path(word).resolve() for word in sys.argv[1:3])
    seed = sys.argv[3] if len(sys.argv) == 4 else "1"
    if not seed.isdecimal() or int(seed) >= 2**32:
        stop("SEED is a number below 2^32")
    lines = (pathlib.Path(__file__).resolve().parent / "workloads.txt").read_text(encoding="utf-8").splitlines()
    print(f"{'workload':<12}{'old':>8}{'new':>8}{'old/new':>9}  medians of {TURNS} turns, seconds, seed {seed}")
    for line in filter(str.strip, lines):
        name, crate, words, given = words_of(line, seed)
        knows = timed(old, crate, words, given, may_fail=True) is not None
        checkouts = (old, new) if knows else (new,)
        took, said = tuple([] for _ in checkouts), set()
        for _ in range(TURNS):
            for seconds, checkout in zip(took, checkouts):
                one, output = timed(checkout, crate, words, given)
                seconds.append(one)
                said.add(output)
            if len(said) > 1:
                stop(f"the outputs of {name} differ", 1)
        *before, now = map(statistics.median, took)
        if before:
            print(f"{name:<12}{before[0]:8.3f}{now:8.3f}{before[0] / now:9.2f}", flush=True)
        else:
            print(f"{name:<12}{'-':>8}{now:8.3f}{'-':>9}", flush=True)


if __name__ == "__main__":
    main()
