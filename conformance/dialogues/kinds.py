"""The kinds of the lines that a play prints, for the count of each."""

import re

TYPES = {"61": "unidirectional", "62": "begin", "64": "end", "65": "continue", "67": "abort"}
# OutOfMemory, DialogueIdsSpent and NumbersSpent can't come in a script.
REFUSALS = [2, 3, 4, 5, 6, 7, 8, 11, 12, 13, 14, 15]
REQUESTED = ("new", "number", "done", "givenup")
TOLD = ("uni", "begin", "continue", "end", "more", "last", "error", "lapsed", "ended")
# `uni` goes to the other side's address always.
SENDS = ["send unidirectional"] + [f"send {kind}{to}" for kind in list(TYPES.values())[1:] for to in ("", " to")]
LOCAL_REJECTS = ["general 0", "general 1", "general 2", "invoke 5", "result 0", "error 0"]
WANTED = [
    *REQUESTED,
    *TOLD,
    *(f"refused {fault}" for fault in REFUSALS),
    *SENDS,
    *(f"uabort {pdu}" for pdu in ("abrt", "aare", "foreign", "-")),
    *(f"pabort cause {cause}" for cause in range(5)),
    *(f"pabort {why}" for why in ("abnormal", "nocommon", "idle")),
    *("invoked linked", "invoked"),
    *(f"rejected by {by}" for by in ("local", "provider", "user")),
    *(f"localreject {problem}" for problem in LOCAL_REJECTS),
    *(f"remotereject by {by}" for by in ("provider", "user")),
    *(f"dropped {why}" for why in ("toolong", "badmessage", "nodialogue", "baddialogue")),
    "line bad",
]
# A line without the words or the octets that its kind has.
OF_NO_FORM = "of no form"


def kind_of(line):
    """The kind of a line that a program prints for a play, also where no play prints such a line."""
    if re.fullmatch(r"line \d+ bad", line):
        return "line bad"
    try:
        return kind_of_words(line.split(" ")[1:])
    except (IndexError, KeyError):
        return OF_NO_FORM


def kind_of_words(words):
    """The kind of a line by the words behind its side."""
    name = words[0]
    if name == "send":
        return f"send {TYPES[words[2][:2]]}" + (" to" if "to" in words else "")
    if name == "uabort":
        return f"uabort {words[2]}"
    if name == "pabort":
        return " ".join(["pabort", *words[2:]])
    if name == "invoked":
        return "invoked" if words[5] == "-" else "invoked linked"
    if name in ("rejected", "remotereject"):
        return f"{name} by {words[-1]}"
    if name == "localreject":
        return f"localreject {words[4]} {words[5]}"
    if name in ("refused", "dropped"):
        return f"{name} {words[1]}"
    return name
