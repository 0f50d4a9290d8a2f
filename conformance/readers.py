"""Each reader's answer to a list of messages: the fields of each, joined by "|", or "refused" and why.
README.md has the form of the fields."""

import re
import subprocess
import sys

import tshark
from plain import plain


def is_taken(answer):
    return not answer.startswith("refused")


class Reader:
    """A reader that is asked once for each message."""

    def __init__(self):
        self.answers = {}

    def read(self, messages):
        """The answers to messages."""
        new = [message for message in dict.fromkeys(messages) if message not in self.answers]
        if new:
            self.answers.update(zip(new, map(plain, self.ask(new))))
        return [self.answers[message] for message in messages]


class Lines(Reader):
    """A program that reads messages in hexadecimal, a line each, and writes a line for each."""

    def __init__(self, title, words, folder):
        super().__init__()
        self.title, self.words, self.folder = title, words, folder

    def ask(self, messages):
        given = "".join(message.hex() + "\n" for message in messages)
        run = subprocess.run(self.words, cwd=self.folder, input=given, capture_output=True, encoding="latin-1")
        answers = run.stdout.splitlines()
        if run.returncode or len(answers) != len(messages):
            print(f"{self.title} read {len(answers)} of {len(messages)} messages: {run.stderr}", file=sys.stderr)
            sys.exit(2)
        return answers


class Tshark(Reader):
    """tshark, which reads neither the code and parameter of an error nor a foreign dialogue portion:
    these aren't compared."""

    title = "tshark"

    def ask(self, messages):
        return tshark.read(messages)

    @staticmethod
    def compared(answer):
        return re.sub(r"(error -?\d+|foreign) [^|]*", r"\1", answer)


def are_equal(reader, ours, theirs):
    """Whether two fields say the same, as far as the reader has them."""
    compared = getattr(reader, "compared", lambda answer: answer)
    return compared(ours) == compared(theirs)


def others(folder):
    """The readers beside the program, the one of the ITU's grammar first."""
    return [
        Lines("ITU", ["erl", "-noshell", "-s", "itu_reader", "main"], folder),
        Tshark(),
        Lines("asn1c", ["./asn1c_reader"], folder),
    ]
