"""One other reader beside the program: the counts, and the classes of each message that they read otherwise."""

import re

import readers
from expected import AGREE, BOTH_REFUSE, DIFFER, GRAMMAR_TOO, THEY, WE, rows
from search import State, search, search_others
from tally import Tally


class Difference:
    """A message that is read otherwise, and how far it is explained."""

    def __init__(self, reader, message, side):
        self.message, self.side = message, side
        self.explanation = explanation(reader, message, side)
        self.go_on(None)

    def go_on(self, side):
        """Hands in how the message that was asked for is read. Afterwards `asked` is the next one, or None
        where the search is over; `found` is then what it found."""
        self.asked = self.found = None
        try:
            self.asked = self.explanation.send(side)
        except StopIteration as over:
            self.found = over.value


def explanation(reader, message, side):
    """Whether a difference is explained, and the last state of the search for that."""
    state = yield from search(reader, State(message, side, []))
    if state.side == AGREE:
        return True, state
    return False, (yield from search_others(reader, state))


class Comparison:
    """The messages that the program and a reader read; `grammar` is the reader of the ITU's grammar."""

    def __init__(self, program, reader, grammar):
        self.program, self.reader, self.grammar = program, reader, grammar
        self.tally = Tally(reader.title)
        self.failures = []

    def compare(self, messages):
        """Counts each message, and finds the classes of each that is read otherwise."""
        differences = []
        for message, side in zip(messages, self.sides(messages)):
            self.tally.sides[side] += 1
            if side not in (AGREE, BOTH_REFUSE):
                differences.append(Difference(self.reader.title, message, side))
        while asking := [difference for difference in differences if difference.asked]:
            for difference, side in zip(asking, self.sides([difference.asked for difference in asking])):
                difference.go_on(side)
        self.conclude(differences)

    def sides(self, messages):
        """How each message is read."""
        return list(map(self.side, self.program.read(messages), self.reader.read(messages)))

    def side(self, our, their):
        if readers.is_taken(our) != readers.is_taken(their):
            return WE if readers.is_taken(our) else THEY
        if not readers.is_taken(our):
            return BOTH_REFUSE
        return AGREE if readers.are_equal(self.reader, our, their) else DIFFER

    def conclude(self, differences):
        """Counts each difference under the first class that explains it, or as a failure."""
        grammar = self.grammar.read([difference.found[1].message for difference in differences])
        for difference, answer in zip(differences, grammar):
            explained, (message, side, steps) = difference.found
            if explained:
                self.tally.explained(steps)
            elif steps:
                self.fail(difference.message, *steps[0])
            elif self.is_forgiven(difference.side, side) and not readers.is_taken(answer):
                self.tally.classes[side, GRAMMAR_TOO] += 1
            else:
                self.fail(difference.message, side, "no class: " + self.refusal(message))

    def is_forgiven(self, before, after):
        """Whether what no class ends is forgiven where the grammar refuses it too: if nothing turned the side."""
        return before == after and GRAMMAR_TOO in rows(self.reader.title, after)

    def fail(self, message, side, title):
        our, their = self.answers(message)
        self.tally.classes[side, title] += 1
        self.failures.append((message, f"{self.reader.title}, {side}: {title}", f"\n        {our}\n        {their}"))

    def refusal(self, message):
        """How the side that refuses a message does, without the numbers in it."""
        refusing = [answer for answer in self.answers(message) if not readers.is_taken(answer)]
        return re.sub(r"^refused |-?\d+ (?=general)", "", refusing[0]) if refusing else "other fields"

    def answers(self, message):
        return self.program.read([message]) + self.reader.read([message])
