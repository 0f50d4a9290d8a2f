"""Two engines, each a process of tcap_live, and a pipe between them that loses every third and every fourth message."""
import sys
from collections import Counter
from subprocess import PIPE, Popen

LAST = {"new", "number", "done", "givenup", "refused", "timer", "state", "bad"}
ends = {address: Popen([sys.argv[1]], stdin=PIPE, stdout=PIPE, text=True) for address in ("41", "42")}
counts = Counter()


def happens(address, line):
    """Hands a line to the engine at an address, carries what it sends, and answers what it is asked."""
    print(line, file=ends[address].stdin, flush=True)
    answer = []
    while not answer or answer[-1][0] not in LAST:
        answer.append(ends[address].stdout.readline().split()[1:])
    for word, *rest in answer:
        counts[word] += 1
        if word == "invoked":
            happens(address, f"last {rest[0]} {rest[2]} 10 -")
            happens(address, f"end {rest[0]} - -")
        if word == "send" and counts["send"] % 3 and counts["send"] % 4:
            happens(rest[0], f"receive {address} {rest[1]}")


for dialogue in range(1, 11):
    happens("41", "new")
    happens("41", f"invoke {dialogue} 1 1 10 {dialogue * 1000} - -")
    happens("41", f"begin {dialogue} 42 0.4.0.0.1.0.1.3 -")
happens("41", "advance 10000")
print(f"10 invoked, {counts['send']} messages sent: {counts['last']} results, {counts['lapsed']} lapses")
