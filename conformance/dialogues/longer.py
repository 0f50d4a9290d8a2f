"""Lines of scripts with long parameters, long user information and long messages, near each limit."""

from codec import LONGEST, write_element, write_message
from handling import QUEUE_LIMIT
from handmade import GOOD
from portions import write_abort, write_request, write_response

# The octets before the contents of a long parameter, in an Invoke, in a result and in a Begin with an Invoke.
INVOKE_HEAD, RESULT_HEAD, BEGIN_HEAD = 14, 18, 28
SHORTEST_LONG = 300
# A result of no invocation, whose Reject is one octet longer than that of what can't be read behind it.
REJECTED = bytes.fromhex("A203020163A1FF")


class LongLines:
    """The actions of a writer of scripts that reach the limits of lengths."""

    def long_parameter(self):
        """An Invoke or a result that leaves little room in a queue, or none."""
        found = self.dialogue("fresh", "received", "active", "sent")
        if found:
            yield from self.fill_queue(*found)
            for _ in range(self.rng.randrange(3)):
                yield self.invoke(found[0], found[1]["id"])

    def full_queue(self):
        """A queue filled, and a message whose components give Rejects for which it has room or not."""
        found = self.dialogue("active", "sent")
        if found is None:
            return
        side, dialogue = found
        yield from self.fill_queue(side, dialogue)
        yield self.received(side, self.maker.message("continue", dialogue, REJECTED), found)
        yield from self.send_on(side, dialogue["id"])

    def fill_queue(self, side, dialogue):
        room = QUEUE_LIMIT - sum(len(queued["octets"]) for queued in dialogue["queue"])
        size = room - self.rng.choice([0, 0, 7, 7, 8, 9, 15, -1, -1, room // 2])
        if self.odds(10):
            size = LONGEST + INVOKE_HEAD
        if size < SHORTEST_LONG:
            return
        if dialogue["state"] in ("received", "active") and self.odds(50):
            parameter = write_element(0x04, bytes(size - RESULT_HEAD)).hex()
            yield f"{side} last {dialogue['id']} 1 2 {parameter}"
        else:
            parameter = write_element(0x04, bytes(size - INVOKE_HEAD)).hex()
            yield f"{side} invoke {dialogue['id']} {self.rng.randrange(-128, 128)} 1 2 1000 - {parameter}"

    def long_information(self):
        """A request with information by which the message reaches the limit, passes it, or stays below."""
        found = self.dialogue("fresh", "received", "received")
        if found is None or (found[1]["state"] == "received" and found[1]["context"] is None):
            return
        side, dialogue = found
        if dialogue["state"] == "fresh":
            word = "begin"
        else:
            word = self.rng.choice(["continue", "end", "abort"])
        context = self.rng.choice(GOOD["contexts"])
        wanted = LONGEST + self.rng.choice([0, 0, 1, 1, -1, 100, -5000])
        information = b"\x28\x00"
        for _ in range(3):
            # A longer information has longer lengths around it too.
            missing = wanted - self.message_size(dialogue, word, context, information)
            information = write_element(0x28, bytes(max(0, min(LONGEST, len(information) + missing - 4))))
        between = "user" if word == "abort" else context.hex()
        yield f"{side} {word} {dialogue['id']} {between} {information.hex()}"
        yield from self.latest(side)

    @staticmethod
    def message_size(dialogue, word, context, information):
        queue = b"".join(queued["octets"] for queued in dialogue["queue"])
        peer = dialogue["peer"]
        if word == "begin":
            return len(write_message(word, bytes(4), portion=write_request(context, information), components=queue))
        if word == "abort":
            return len(write_message(word, destination=peer, portion=write_abort("user", information)))
        portion = write_response(context, 0, ("user", 0), information)
        origin = bytes(4) if word == "continue" else None
        return len(write_message(word, origin, peer, portion=portion, components=queue))

    def long_message(self):
        """A Begin of the greatest length, or of one octet more."""
        parameter_size = LONGEST - BEGIN_HEAD + self.rng.choice([0, 1, 1])
        operation = b"\x02\x01\x05" + write_element(0x04, bytes(parameter_size))
        invoke = write_element(0xA1, b"\x02\x01\x01" + operation)
        octets = write_message("begin", bytes(4), components=invoke)
        yield f"{self.side()} raw {octets.hex()}"
