"""What a writer of scripts knows of its play, and the words that it draws."""

from handmade import BAD, GOOD, Maker
from play import ADDRESSES, KINDS, OTHER, Player


class Drawing:
    """A play so far, and draws from what there is in it."""

    def __init__(self, rng):
        self.rng = rng
        self.maker = Maker(rng)
        self.odds = self.maker.odds
        self.player = Player()
        self.lines = []
        self.asked = []

    # ---- what there is

    def side(self):
        return self.rng.choice("AB")

    def dialogue(self, *states):
        """A side and one of its dialogues in one of the states, if there is any."""
        known = [(side, dialogue) for side in "AB" for dialogue in self.player.engines[side].dialogues]
        fitting = [pair for pair in known if pair[1]["state"] in states]
        return self.rng.choice(fitting) if fitting else None

    def fates(self, fate):
        """The names of the messages with this fate that went to the other side."""
        names = []
        for side, messages in self.player.messages.items():
            for place, message in enumerate(messages, 1):
                is_here = message["to"] == ADDRESSES[OTHER[side]]
                if message["fate"] == fate and (is_here or fate == "sent" and self.odds(10)):
                    names.append((f"{side}{place}", is_here))
        return names

    def latest(self, side):
        """Delivers the last message of a side, mostly, if it can be."""
        messages = self.player.messages[side]
        to_other = messages and messages[-1]["to"] == ADDRESSES[OTHER[side]]
        if to_other and messages[-1]["fate"] == "sent" and self.odds(75):
            yield f"deliver {side}{len(messages)}"

    # ---- words

    def drawn(self, name, none):
        """One of the good of this name, rarely one of the bad, or `-`."""
        if self.odds(none):
            return "-"
        return self.rng.choice((BAD if self.odds(6) else GOOD)[name]).hex()

    def context(self, none=50):
        return self.drawn("contexts", none)

    def information(self, none=70):
        return self.drawn("information", none)

    def parameter(self):
        return self.maker.parameter().hex() if self.odds(10) else self.drawn("parameters", 60)

    def code(self):
        return self.rng.choice([2, 7, 44, 127, 128, -1, -129, 2**31 - 1, -(2**31)])

    def invoke_id(self):
        return self.rng.choice([1, 1, 2, 2, 3, 7, 0, -1, 127, -128])

    def operation_class(self):
        return self.rng.choice([1, 1, 1, 2, 3, 4])

    def timeout(self):
        return self.rng.choice([7, 500, 1000, 1000, 2000, 3000, 5000, 9000, 2**62, 0 if self.odds(15) else 1])

    def linked(self, side, identifier):
        """A linked identifier, mostly of an Invoke that was told in the dialogue."""
        asked = [known[2] for known in self.asked if known[:2] == (side, identifier)]
        if asked and self.odds(50):
            return self.rng.choice(asked)
        return self.invoke_id() if self.odds(12) else "-"

    def invoke(self, side, identifier, operation_class=None):
        words = [side, "invoke", identifier, self.invoke_id(), operation_class or self.operation_class()]
        words += [self.code(), self.timeout(), self.linked(side, identifier), self.parameter()]
        return " ".join(map(str, words))

    def answer(self, side, identifier, invoke_id):
        chosen = self.rng.randrange(20)
        if chosen < 3:
            problem = self.rng.choice([0, 1, 2, 3, 4, 5, 7, 9])
            rejected = invoke_id if self.odds(90) else "-"
            return f"{side} reject {identifier} {rejected} {self.rng.choice(KINDS)} {problem}"
        if chosen < 7:
            return f"{side} error {identifier} {invoke_id} {self.code()} {self.parameter()}"
        body = "- -" if self.odds(30) else f"{self.code()} {self.parameter()}"
        return f"{side} {'more' if chosen < 10 else 'last'} {identifier} {invoke_id} {body}"
