"""The program `tcap`: what `show` prints, and whether `check`, `canon` and the octets of the message agree."""

import re
import subprocess
from concurrent.futures import ThreadPoolExecutor

from elements import Fault
from faulty import portion_fault
from plain import plain
from standing import canonical, is_outside_shown, shown_words, standing_words

WORKERS = 4
# Some octets keep a program for ever; the right one answers at once.
SECONDS = 30
VERDICTS = ["too long", "unknown type", "badly formatted", "incorrect"]


class Tcap:
    """The program, asked once for each command and message."""

    def __init__(self, program):
        self.program = program
        self.said = {}

    @staticmethod
    def each(function, messages):
        """What a function gives for each message."""
        with ThreadPoolExecutor(WORKERS) as pool:
            return list(pool.map(function, messages))

    def read(self, messages):
        """What `show` says of messages, in the form of the other readers."""
        return self.each(self.answer, messages)

    def is_good(self, message):
        return self.say("show", message)[0] == 0

    def answer(self, message):
        """The fields where the verdict is good, joined by "|", or "refused" and the line of the fault."""
        status, text = self.say("show", message)
        lines = [line.strip() for line in text.splitlines()]
        if status:
            return "refused " + next((line for line in lines if re.match("fault|faulty|foreign", line)), "silently")
        fields = [line for line in lines if not re.match(r"(dialogue|components) \d", line)]
        return plain("|".join(fields).replace("abrt user", "abrt 0").replace("abrt provider", "abrt 1"))

    def say(self, command, message):
        """The status and the text of a command for a message; None and nothing where it doesn't end."""
        if (command, message) not in self.said:
            words = [self.program, command, message.hex()]
            try:
                run = subprocess.run(words, capture_output=True, encoding="latin-1", timeout=SECONDS)
                self.said[command, message] = run.returncode, run.stdout
            except subprocess.TimeoutExpired:
                self.said[command, message] = None, ""
        return self.said[command, message]

    def fault(self, message):
        """What is wrong in what the commands say of a message, or None."""
        status, text = self.say("show", message)
        verdict = verdict_of(text)
        if verdict is None or status != (0 if verdict == "good" else 1):
            return f"show ends with status {status} and has the verdict {verdict}"
        if self.say("check", message) != (status, verdict + "\n"):
            return f"check doesn't say {verdict}, as show does"
        if status == 1 and self.say("canon", message) != (1, verdict + "\n"):
            return f"canon doesn't say {verdict}, as show does"
        try:
            return self.octets_fault(message, verdict, text)
        except (LookupError, ValueError, AttributeError, Fault):
            return "show has fields that aren't in the message"

    def octets_fault(self, message, verdict, text):
        """What `show` and `canon` have otherwise than the octets of a message, or None. Raises an error where
        the message hasn't the parts that the verdict says."""
        if not text.startswith("fault ") and not is_outside_shown(text, message):
            return "show has another name, identifier or count than the message"
        if verdict != "good":
            return portion_fault(self, message, verdict) if not text.startswith("fault ") else None
        if shown_words(text) != standing_words(message):
            return "show prints other octets than stand in the message"
        return self.canon_fault(message)

    def canon_fault(self, message):
        """What is wrong in the canonical form of a good message, or None."""
        form = canonical(message)
        if self.say("canon", message) != (0, form.hex() + "\n"):
            return "canon isn't the message in its shortest lengths"
        if self.say("canon", form) != (0, form.hex() + "\n"):
            return "canon of canon is another"
        same = self.is_good(form) and self.fields(form) == self.fields(message)
        return None if same else "show of canon is another"

    def fields(self, message):
        """The lines of `show` without the counts of octets."""
        _, text = self.say("show", message)
        return [line for line in text.splitlines() if not re.match(r"  (dialogue|components) \d", line)]

    def verdict(self, message):
        """The verdict by the text of `show`."""
        return verdict_of(self.say("show", message)[1])


def verdict_of(text):
    """The verdict by what `show` prints, None where it has none."""
    if text.startswith("fault "):
        return text[:-1] if text[6:-1] in VERDICTS else None
    portions = re.split(r"^  (dialogue|components) \d+\n", text, flags=re.MULTILINE)
    parts = dict(zip(portions[1::2], portions[2::2]))
    dialogue = parts.get("dialogue", "").strip()
    if dialogue == "faulty" or dialogue.startswith("foreign ") and not text.startswith("abort\n"):
        return "fault dialogue"
    components = parts.get("components", "").splitlines()
    faulty = [number for number, line in enumerate(components, 1) if line.startswith("    faulty ")]
    if not faulty:
        return "good"
    return f"fault component {faulty[0]}" if faulty == [len(components)] else None
