"""Scripts for `tcap play`, drawn at random; the same for the same seed and number.
scripts.py SEED NUMBER"""

import random
import re
import sys

from bad_lines import BAD_LINES
from drawing import Drawing
from handmade import SENDERS
from longer import LongLines
from play import KINDS, OTHER
from primitives import LATEST

# How often each action is taken; a kind of script has others besides, or more of some.
ACTIONS = {"open": 8, "reply": 12, "carry": 7, "finish": 4, "deliver": 9, "again": 2, "lose": 1, "advance": 4,
           "made_message": 4, "damaged_message": 2, "any_request": 2, "reject_answer": 2, "cancel": 1, "comment": 1}
SCRIPT_KINDS = {
    "requests": {},
    "handmade": {"made_message": 12, "damaged_message": 5, "open": 6},
    "time": {"advance": 10, "open": 6},
    "full engines": {"many_dialogues": 8, "open": 6, "again": 6, "made_message": 8},
    "any requests": {"any_request": 8, "damaged_message": 4},
    "long": {"long_parameter": 10, "full_queue": 8, "long_information": 10, "long_message": 4},
}


class Writer(Drawing, LongLines):
    """Draws the lines of one script, and plays them to know which messages and dialogues there are."""

    def script(self):
        kind = self.rng.choices(list(SCRIPT_KINDS), [40, 30, 30, 12, 36, 2])[0]
        if kind == "time" or self.odds(20):
            self.write(f"idle {self.rng.choice([0, 1, 500, 1000, 1000, 2000, 2000, 5000, 2**62])}")
        weights = ACTIONS | SCRIPT_KINDS[kind]
        length = self.rng.randrange(20, 90)
        while len(self.lines) < length and sum(map(len, self.lines)) < 300_000:
            action = self.rng.choices(list(weights), list(weights.values()))[0]
            for line in getattr(self, action)():
                self.write(line)
        if self.odds(6):
            self.lines.append(self.bad_line())
            self.lines += self.lines[:2]
        return "\n".join(self.lines) + ("" if self.odds(10) else "\n")

    def write(self, line):
        """Adds a line and plays it."""
        self.lines.append(line)
        for printed in self.player.line(line):
            invoked = re.match(r"([AB]) invoked (\d+) id (-?\d+) ", printed)
            if invoked:
                self.asked.append((invoked[1], int(invoked[2]), int(invoked[3])))

    def bad_line(self):
        if self.odds(60):
            return self.rng.choice(BAD_LINES)
        sent = [(side, place) for side in "AB" for place in range(len(self.player.messages[side]))]
        if sent and self.odds(50):
            side, place = self.rng.choice(sent)
            return f"{self.rng.choice(['deliver', 'again', 'lose'])} {side}{place + 1}"
        words = self.rng.choice(self.lines).split(" ")
        del words[self.rng.randrange(len(words))]
        return " ".join(words)

    # ---- actions, each with its lines; one that has no place in the play has none

    def open(self):
        """A new dialogue with Invokes and what begins it."""
        side = self.side()
        yield f"{side} new"
        engine = self.player.engines[side]
        identifier = engine.next_dialogue - 1
        is_uni = self.odds(12)
        for _ in range(self.rng.choice([0, 1, 1, 1, 2, 3])):
            yield self.invoke(side, identifier, 4 if is_uni and self.odds(85) else None)
        if self.odds(90):
            context = self.context()
            portion = f"{context} {self.information(98 if context == '-' else 60)}"
            to = self.rng.choice(SENDERS).hex() or "-"
            word = "uni" if is_uni else "begin"
            is_to = self.odds(12) and not is_uni
            yield f"{side} beginto {identifier} {to} {portion}" if is_to else f"{side} {word} {identifier} {portion}"
            yield from self.latest(side)

    def many_dialogues(self):
        """Many new dialogues of one side."""
        side = self.side()
        for _ in range(self.rng.randrange(3, 17)):
            yield f"{side} new"

    def reply(self):
        """Answers to the Invokes that were told in a dialogue, and mostly the message that carries them."""
        asked = [pair for pair in self.asked if self.stands(pair)]
        if not asked:
            return
        side, identifier, _ = self.rng.choice(asked[-6:])
        for pair in [pair for pair in asked if pair[:2] == (side, identifier)]:
            answer = self.answer(*pair)
            if " more " not in answer and self.odds(80):
                self.asked.remove(pair)
            yield answer
        if self.odds(80):
            yield from self.send_on(side, identifier)

    def stands(self, pair):
        return any(dialogue["id"] == pair[1] for dialogue in self.player.engines[pair[0]].dialogues)

    def send_on(self, side, identifier):
        """A Continue, rarely an End, and mostly its delivery."""
        dialogue = next((known for known in self.player.engines[side].dialogues if known["id"] == identifier), None)
        if dialogue is None:
            return
        may_answer = dialogue["state"] == "received" and dialogue["context"] is not None
        context = self.context(60) if may_answer else self.context(97)
        information = self.information(70) if may_answer else self.information(97)
        yield f"{side} {'end' if self.odds(15) else 'continue'} {identifier} {context} {information}"
        yield from self.latest(side)

    def carry(self):
        """A Continue, with Invokes of its own."""
        found = self.dialogue("received", "active")
        if found is None:
            return
        side, dialogue = found
        for _ in range(self.rng.choice([0, 0, 1, 2])):
            yield self.invoke(side, dialogue["id"])
        yield from self.send_on(side, dialogue["id"])

    def finish(self):
        found = self.dialogue("sent", "received", "active") if self.odds(50) else self.dialogue("received")
        if found is None:
            return
        side, identifier = found[0], found[1]["id"]
        has_portion = found[1]["context"] is not None
        information = self.information(70) if has_portion else self.information(96)
        yield self.rng.choice([
            f"{side} prearranged {identifier}",
            f"{side} abort {identifier} user {information}",
            f"{side} abort {identifier} unsupported {information}",
        ])
        yield from self.latest(side)

    def deliver(self):
        """Messages in order or not."""
        for _ in range(self.rng.choice([1, 1, 2, 4])):
            names = [name for name, is_here in self.fates("sent") if is_here]
            if names:
                yield f"deliver {names[0] if self.odds(50) else self.rng.choice(names)}"

    def again(self):
        names = [name for name, _ in self.fates("received")]
        if names:
            yield f"again {self.rng.choice(names)}"

    def lose(self):
        names = [name for name, _ in self.fates("sent")]
        if names:
            yield f"lose {self.rng.choice(names)}"

    def comment(self):
        """A comment or an empty line."""
        yield self.rng.choice(["", "# a comment", "#"])

    def advance(self):
        """A moment: just at, before or past one at which something is due, or any other."""
        clock = self.player.engines["A"].clock
        due = list(self.due())
        if due and self.odds(60):
            moment, then = self.rng.choice(due)
            moment = max(0, moment + self.rng.choice([-1, 0, 0, 0, 1, 400]))
        else:
            moment, then = max(0, clock + self.rng.choice([-500, -1, 0, 1, 10, 300, 700, 1000, 2000])), []
        if self.odds(2):
            moment = self.rng.choice([0, 2**62, 2**62 + 1, 2**64 - 1])
        elif moment > LATEST // 2 and self.odds(95):
            # Few plays go on at so late a clock.
            moment = clock + 900
        yield f"advance {moment}"
        yield from then

    def due(self):
        """The moments at which something is due, some with a line that tells whether an identifier is free."""
        for side, engine in self.player.engines.items():
            for dialogue in engine.dialogues:
                yield dialogue.get("touched", engine.clock) + engine.idle_limit, []
                for known in dialogue["invocations"]:
                    again = f"{side} invoke {dialogue['id']} {known['id']} 1 2 1000 - -"
                    moment = known.get("until") or known.get("deadline") or engine.clock
                    yield moment, [again] if self.odds(70) else []

    def received(self, side, octets, found=None):
        """Octets that a side receives, mostly from the other side's address."""
        if self.odds(70):
            return f"{side} raw {octets.hex() or '-'}"
        sender = self.rng.choice(SENDERS)
        if found and found[1].get("address") and self.odds(50):
            sender = found[1]["address"]
        return f"{side} rawfrom {sender.hex() or '-'} {octets.hex() or '-'}"

    def made_message(self):
        """A message made by hand, mostly to a live dialogue."""
        found = self.dialogue("sent", "active") if self.odds(75) else None
        if self.odds(8):
            found = self.dialogue("fresh", "received")
        side = found[0] if found else self.side()
        kinds = ["begin"] * 5 + ["unidirectional"] * 3 + ["continue", "end", "abort"]
        if found:
            kinds = ["continue"] * 10 + ["end", "abort"] * 2
        kind = self.rng.choice(kinds)
        yield self.received(side, self.maker.message(kind, found and found[1]), found)

    def damaged_message(self):
        """A damaged message, of those that were sent or one made by hand."""
        found = self.dialogue("sent", "active")
        sent = [(OTHER[side], message["octets"]) for side in "AB" for message in self.player.messages[side]]
        if sent and self.odds(50):
            side, octets = self.rng.choice(sent[-8:])
        else:
            kind = self.rng.choice(["unidirectional", "begin", "end", "continue", "continue", "abort"])
            side = found[0] if found else self.side()
            octets = self.maker.message(kind, found and found[1])
        yield self.received(side, self.maker.damaged(octets))

    def reject_answer(self):
        """A Reject of an answer for which its identifier waits, and the identifier in use again."""
        found = self.dialogue("received", "active")
        if found is None:
            return
        side, dialogue = found
        waiting = [known["id"] for known in dialogue["invocations"] if known["stage"] == "waiting"]
        if waiting:
            invoke_id = self.rng.choice(waiting)
            yield f"{side} reject {dialogue['id']} {invoke_id} {self.rng.choice(KINDS)} {self.rng.choice([1, 2, 3])}"
            yield f"{side} invoke {dialogue['id']} {invoke_id} 1 5 1000 - -"

    def cancel(self):
        found = self.dialogue("fresh", "sent", "received", "active")
        if found:
            known = [invocation["id"] for invocation in found[1]["invocations"]]
            yield f"{found[0]} cancel {found[1]['id']} {self.rng.choice(known or [1])}"

    def any_request(self):
        """A request on any dialogue, whatever its state is."""
        found = self.dialogue("fresh", "sent", "received", "active")
        side, identifier = self.side(), self.rng.randrange(9)
        if found and self.odds(85):
            side, identifier = found[0], found[1]["id"]
        portion = f"{self.context(60)} {self.information(60)}"
        yield self.rng.choice([
            f"{side} {self.rng.choice(['uni', 'begin', 'continue', 'end'])} {identifier} {portion}",
            f"{side} abort {identifier} {self.rng.choice(['user', 'unsupported'])} {self.information()}",
            self.answer(side, identifier, self.invoke_id()),
            self.invoke(side, identifier),
            f"{side} cancel {identifier} {self.invoke_id()}",
        ])


def script(seed, place):
    """The script of a seed and a number."""
    return Writer(random.Random(f"{seed}/{place}")).script()


def main(seed, place):
    sys.stdout.write(script(seed, int(place)))


if __name__ == "__main__":
    main(*sys.argv[1:])
