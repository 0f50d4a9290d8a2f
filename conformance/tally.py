"""How many messages the program and a reader read alike and otherwise, and by which classes."""

import collections

from expected import AGREE, BOTH_REFUSE, DIFFER, THEY, WE


class Tally:
    """The counts of one reader."""

    def __init__(self, title):
        self.title = title
        self.sides = collections.Counter()
        self.classes = collections.Counter()
        self.together = collections.Counter()

    def explained(self, steps):
        """Counts a difference under the first of the classes that explain it."""
        self.classes[steps[0]] += 1
        self.together[len(steps)] += 1

    def print(self):
        print(f"\n{self.title}")
        for side in (AGREE, BOTH_REFUSE, DIFFER, WE, THEY):
            print(f"  {side:12} {self.sides[side]:6}")
        for (side, title), count in sorted(self.classes.items(), key=lambda item: (item[0][0], -item[1])):
            print(f"  {side:12} {count:6}  {title}")
        for number, count in sorted(self.together.items()):
            print(f"  explained by {number} {'class' if number == 1 else 'classes together'}: {count}")


def total(tallies):
    """The counts of several tallies of one reader together."""
    whole = Tally(tallies[0].title)
    for tally in tallies:
        whole.sides += tally.sides
        whole.classes += tally.classes
        whole.together += tally.together
    return whole
