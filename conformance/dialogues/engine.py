"""A plain engine of TCAP dialogues: its dialogues, its clock and what it receives, by docs/PROFILE.md
(Identifiers; Dialogue portions by state; Time; Reception)."""

import codec
import portions
from primitives import LATEST, Primitives, Refused, require

LIVE = ("sent", "active")
UNRECOGNIZED_TRANSACTION, RESOURCE_LIMITATION = 1, 4
DIALOGUES_FULL, MOMENT_TOO_LATE = 8, 14


class Engine(Primitives):
    """One engine; dialogues, invocations and queues are lists that are looked through."""

    def __init__(self, idle_limit, max_dialogues=16):
        self.dialogues = []
        self.max_dialogues = max_dialogues
        self.idle_limit = idle_limit
        self.next_dialogue = 1
        self.next_number = 1
        self.clock = 0

    # ---- dialogues

    def new_dialogue(self):
        require(self.may_be_born(), DIALOGUES_FULL)
        return [("new", self.add_dialogue("fresh")["id"])]

    def may_be_born(self):
        return len(self.dialogues) < self.max_dialogues

    def add_dialogue(self, state, peer=None, address=None, context=None):
        dialogue = self.dialogue(self.draw_identifier(), state)
        dialogue |= {"peer": peer, "address": address, "context": context}
        self.dialogues.append(dialogue)
        return dialogue

    def draw_identifier(self):
        self.next_dialogue += 1
        return self.next_dialogue - 1

    def dialogue(self, identifier, state):
        return {"id": identifier, "state": state, "queue": [], "invocations": []}

    def end_dialogue(self, dialogue):
        """The dialogue is over: Ended for each invocation that is Queued or Sent, by number."""
        self.dialogues.remove(dialogue)
        open_ones = [known for known in dialogue["invocations"] if known["stage"] != "waiting"]
        return [("ended", dialogue["id"], known) for known in sorted(open_ones, key=lambda known: known["number"])]

    def live_dialogue(self, destination):
        """The dialogue that a message is to: its four octets, and Sent or Active."""
        for dialogue in self.dialogues:
            if dialogue["state"] in LIVE and self.own_transaction(dialogue) == destination:
                return dialogue
        return None

    # ---- time

    def advance(self, moment):
        require(moment <= LATEST, MOMENT_TOO_LATE)
        if moment < self.clock:
            return []
        self.clock = moment
        lapses = self.lapse()
        self.free_identifiers()
        return lapses + self.end_idle()

    def lapse(self):
        """Lapsed for each invocation that is at or past its deadline, by deadline, dialogue, number."""
        due = []
        for dialogue in self.dialogues:
            for known in dialogue["invocations"]:
                if known["stage"] == "sent" and known["deadline"] <= self.clock:
                    due.append((known["deadline"], dialogue["id"], known["number"], known))
        outputs = []
        for _, identifier, _, invocation in sorted(due, key=lambda row: row[:3]):
            self.close(self.find(identifier), invocation)
            outputs.append(("lapsed", identifier, invocation))
        return outputs

    def free_identifiers(self):
        for dialogue in self.dialogues:
            for known in list(dialogue["invocations"]):
                if known["stage"] == "waiting" and known["until"] <= self.clock:
                    self.close(dialogue, known)

    def end_idle(self):
        """PAbort Idle for each dialogue that reached the idle limit, by that moment, then dialogue."""
        if not self.idle_limit:
            return []
        due = []
        for dialogue in self.dialogues:
            if dialogue["state"] in LIVE and dialogue["touched"] + self.idle_limit <= self.clock:
                due.append((dialogue["touched"], dialogue["id"], dialogue))
        outputs = []
        for _, identifier, dialogue in sorted(due, key=lambda row: row[:2]):
            outputs += [("pabort", identifier, "idle"), *self.end_dialogue(dialogue)]
        return outputs

    # ---- reception

    def receive(self, octets, sender):
        """What bytes from an address come to."""
        if len(octets) > codec.LONGEST:
            return [("dropped", "toolong")]
        try:
            message = codec.read_message(octets)
        except codec.FaultyMessage as fault:
            return self.receive_faulty(octets, sender, fault.args[0])
        message["portion"] = portions.read_portion(message["portion"])
        if message["kind"] == "unidirectional":
            return self.receive_unidirectional(message)
        if message["kind"] == "begin":
            return self.receive_begin(message, sender)
        dialogue = self.live_dialogue(message["destination"])
        if dialogue is None:
            return self.receive_without_dialogue(message, sender)
        if message["kind"] == "abort":
            return self.receive_abort(dialogue, message)
        return self.receive_in_dialogue(dialogue, message, sender)

    def receive_faulty(self, octets, sender, cause):
        origin, destination = codec.read_front(octets)
        first = octets[:1]
        outputs = []
        if origin is not None and first not in (b"\x61", b"\x64", b"\x67"):
            outputs += self.provider_abort(origin, sender, cause=cause)
        dialogue = self.live_dialogue(destination)
        if dialogue is not None and first in (b"\x64", b"\x65", b"\x67"):
            outputs += [("pabort", dialogue["id"], cause), *self.end_dialogue(dialogue)]
        return outputs or [("dropped", "badmessage")]

    def receive_unidirectional(self, message):
        portion = message["portion"]
        if portion is not None and not (portion["pdu"] == "audt" and portion["version"]):
            return [("dropped", "baddialogue")]
        # It is handled as for a dialogue without invocations, which is forgotten after it.
        nobody = self.dialogue(None, "over")
        return [("uni", portion), *self.handle(nobody, message["components"])]

    def receive_begin(self, message, sender):
        portion, origin = message["portion"], message["origin"]
        if not self.may_be_born():
            return self.provider_abort(origin, sender, cause=RESOURCE_LIMITATION)
        if portion is not None and portion["pdu"] != "aarq":
            return self.provider_abort(origin, sender, portion=portions.write_abort("provider"))
        if portion is not None and not portion["version"]:
            refusal = portions.write_response(portion["context"], 1, portions.NO_COMMON_PORTION)
            return self.provider_abort(origin, sender, portion=refusal)
        context = None if portion is None else portion["context"]
        dialogue = self.add_dialogue("received", origin, sender, context)
        return [("begin", dialogue["id"], portion), *self.handle(dialogue, message["components"])]

    def receive_without_dialogue(self, message, sender):
        """A message to no live dialogue."""
        if message["kind"] == "continue":
            return self.provider_abort(message["origin"], sender, cause=UNRECOGNIZED_TRANSACTION)
        return [("dropped", "nodialogue")]

    def receive_in_dialogue(self, dialogue, message, sender):
        """A Continue or an End to a live dialogue."""
        if not self.is_normal(dialogue, message["portion"]):
            return self.receive_abnormal(dialogue, message, sender)
        if message["kind"] == "continue":
            self.carry_on(dialogue, message, sender)
        outputs = [(message["kind"], dialogue["id"], message["portion"])]
        outputs += self.handle(dialogue, message["components"])
        if message["kind"] == "end":
            outputs += self.end_dialogue(dialogue)
        return outputs

    def carry_on(self, dialogue, message, sender):
        """A normal Continue touches its dialogue; the first fixes the peer's identifier and address."""
        if dialogue["state"] == "sent":
            dialogue |= {"state": "active", "peer": message["origin"], "address": sender}
        dialogue["touched"] = self.clock

    def is_normal(self, dialogue, portion):
        if dialogue["state"] == "active" or dialogue["context"] is None:
            return portion is None
        return portion is not None and portion["pdu"] == "aare" and portion["result"] == 0

    def receive_abnormal(self, dialogue, message, sender):
        outputs = []
        if message["kind"] == "continue":
            is_active = dialogue["state"] == "active"
            peer = dialogue["peer"] if is_active else message["origin"]
            address = dialogue["address"] if is_active else sender
            outputs += self.provider_abort(peer, address, portion=portions.write_abort("provider"))
        return [*outputs, ("pabort", dialogue["id"], "abnormal"), *self.end_dialogue(dialogue)]

    def receive_abort(self, dialogue, message):
        told = self.told_abort(dialogue["id"], message["cause"], message["portion"])
        return [told, *self.end_dialogue(dialogue)]

    def told_abort(self, identifier, cause, portion):
        """What an Abort says, whatever the state and the context are."""
        if cause is not None:
            return "pabort", identifier, cause
        if portion is None or portion["pdu"] == "foreign":
            return "uabort", identifier, portion
        if portion["pdu"] == "abrt" and portion["source"] == "user":
            return "uabort", identifier, portion
        if portion["pdu"] == "aare" and portion["result"] == 1:
            if portion["diagnostic"] == portions.NO_COMMON_PORTION:
                return "pabort", identifier, "nocommon"
            return "uabort", identifier, portion
        return "pabort", identifier, "abnormal"

    def provider_abort(self, destination, address, cause=None, portion=None):
        """An Abort by the provider."""
        octets = codec.write_message("abort", destination=destination, cause=cause, portion=portion)
        return [("send", octets, address)]
