#!/usr/bin/env python3
"""The dialogues of cost.c through the package: cost.py DIALOGUES."""
import sys

import tcap
from tcap import InvokeInd, Local, ResultLInd, Send

PARAMETER, OPERATION, NAMES = b"\x04\x01\xaa", Local(2), (b"vlr", b"hlr")
engines = tcap.Engine(idle_ms=0), tcap.Engine(idle_ms=0)
results = 0


def serve(at: int) -> None:
    """Takes what waits at one engine; messages go to the other, and each Invoke is answered."""
    global results
    for output in engines[at]:
        match output:
            case Send(message=message):
                engines[1 - at].receive(0, NAMES[at], message)
            case InvokeInd(dialogue=tcap.Dialogue() as dialogue, invoke_id=invoke_id):
                dialogue.result_l(invoke_id, OPERATION, PARAMETER)
                dialogue.end(0)
            case ResultLInd():
                results += 1


for _ in range(int(sys.argv[1])):
    asked = engines[0].dialogue()
    asked.invoke(1, OPERATION, PARAMETER, timeout_ms=5000)
    asked.begin(0, NAMES[1])
    serve(0)
    serve(1)
    serve(0)
print(results)
