#!/usr/bin/env python3
"""What the programs for captures and for pipes take: bench/programs.py [MESSAGES].

Runs the built crates/tcap, tcap_judge and tcap_live (`rt run` there builds them; TCAP, TCAP_JUDGE and TCAP_LIVE name other
files), and prints a table:
- a stream of so many messages (1,000,000), good ones and faulty ones, by `tcap stream` and by `tcap_judge --stream`:
  seconds of the processor, the most memory at once, and instructions a message by callgrind, of a shorter stream;
- the time in which tcap_live answers a line through a pipe: the median and the greatest of 10,000.
Status 2 where a program isn't there or ends as it shouldn't. Needs Debian's valgrind.
"""
import os
import pathlib
import statistics
import subprocess
import sys
import tempfile
import time

CRATES = pathlib.Path(__file__).resolve().parent.parent / "crates"
SHORT, SHORTER = 20_000, 10_000
LINES = 10_000


def stop(why):
    """Says why nothing is measured, and ends."""
    print(f"bench/programs.py: {why}", file=sys.stderr)
    sys.exit(2)


def program(name):
    """Where a program is."""
    path = pathlib.Path(os.environ.get(name.upper()) or CRATES / name / "out" / name)
    if not path.is_file():
        stop(f"{path} isn't there: `rt run` in crates/{name} builds it")
    return path


def element(tag, *contents):
    """An element of definite form, of less than 128 octets."""
    inside = b"".join(contents)
    return bytes([tag, len(inside)]) + inside


def messages():
    """A few good messages, as a register has them."""
    origin, destination = element(0x48, b"\0\0\0\1"), element(0x49, b"\0\0\0\2")
    invoke = element(0xA1, element(0x02, b"\1"), element(0x02, b"\56"), element(0x04, bytes(20)))
    result = element(0xA2, element(0x02, b"\1"), element(0x30, element(0x02, b"\56"), element(0x04, bytes(8))))
    return [
        element(0x62, origin, element(0x6C, invoke)),
        element(0x65, origin, destination, element(0x6C, result)),
        element(0x64, destination, element(0x6C, result)),
    ]


def faulty(message):
    """The message with another tag in the place of its first identifier."""
    return message[:2] + b"\x4f" + message[3:]


def most_memory(process):
    """The most memory in octets that a process that runs has had at once; 0 where it has ended."""
    try:
        with open(f"/proc/{process.pid}/status", encoding="ascii") as status:
            return next((int(line.split()[1]) * 1024 for line in status if line.startswith("VmHWM")), 0)
    except OSError:
        return 0


def used(words, stream):
    """The seconds of the processor that a run takes, and its most memory in octets, looked at every millisecond."""
    before, memory = os.times(), 0
    with open(stream, "rb") as stdin, subprocess.Popen(words, stdin=stdin, stdout=subprocess.DEVNULL) as child:
        while child.poll() is None:
            memory = max(memory, most_memory(child))
            time.sleep(0.001)
    if child.returncode not in (0, 1):
        stop(f"{' '.join(map(str, words))} ends with status {child.returncode}")
    after = os.times()
    took = after.children_user + after.children_system - before.children_user - before.children_system
    return took, memory


def instructions(words, stream):
    """The instructions of a run by callgrind."""
    call = ["valgrind", "--tool=callgrind", "--callgrind-out-file=/dev/null", *words]
    with open(stream, "rb") as stdin:
        done = subprocess.run(call, stdin=stdin, stdout=subprocess.DEVNULL, stderr=subprocess.PIPE, text=True, check=False)
    found = [line.split()[-1] for line in done.stderr.splitlines() if "Collected" in line]
    if len(found) != 1:
        stop(f"{' '.join(map(str, call))}: {done.stderr}")
    return int(found[0])


def written(folder, name, these, count):
    """A file with so many messages, these by turns."""
    path = pathlib.Path(folder) / name
    with open(path, "wb") as file:
        for at in range(count):
            file.write(these[at % len(these)])
    return path


def streams(count):
    """The rows of both programs over a stream."""
    runs = {"tcap stream": [program("tcap"), "stream"], "tcap_judge --stream": [program("tcap_judge"), "--stream"]}
    print("| Stream | Program | Seconds of the processor | Memory, MB | Instructions a message |")
    print("|---|---|---|---|---|")
    with tempfile.TemporaryDirectory() as folder:
        for kind, these in (("good", messages()), ("faulty", [faulty(it) for it in messages()])):
            long = written(folder, f"{kind}-long", these, count)
            short, shorter = (written(folder, f"{kind}-{size}", these, size) for size in (SHORT, SHORTER))
            for name, words in runs.items():
                seconds, memory = used(words, long)
                each = (instructions(words, short) - instructions(words, shorter)) / (SHORT - SHORTER)
                print(f"| {count:,} {kind} | `{name}` | {seconds:.2f} | {memory / 1e6:.1f} | {each:,.0f} |")


def answers():
    """The seconds in which each line of a co-process is answered, in order of size."""
    live = subprocess.Popen([program("tcap_live")], stdin=subprocess.PIPE, stdout=subprocess.PIPE, bufsize=0)
    took = []
    for _ in range(LINES):
        began = time.perf_counter()
        live.stdin.write(b"timer\n")
        if not live.stdout.read(4096):
            stop("tcap_live ended")
        took.append(time.perf_counter() - began)
    live.stdin.close()
    live.wait()
    return sorted(took)


def main():
    if len(sys.argv) > 2 or not all(word.isdecimal() for word in sys.argv[1:]):
        stop("bench/programs.py [MESSAGES]")
    streams(int(sys.argv[1]) if len(sys.argv) == 2 else 1_000_000)
    took = answers()
    print()
    print(
        f"tcap_live answers a line through a pipe in {statistics.median(took) * 1e6:.0f} microseconds (median of {LINES:,}); "
        f"99 of 100 in {took[LINES * 99 // 100] * 1e6:.0f}, the slowest in {took[-1] * 1e6:.0f}."
    )


if __name__ == "__main__":
    sys.exit(main())
