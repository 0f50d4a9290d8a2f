"""Plain engines with one wrong rule each, which a comparison of plays must find."""

from components import read_component
from engine import Engine


class DoubleResult(Engine):
    """Tells a repeated Return Result Last twice."""

    def handle_unrecognized(self, dialogue, component):
        for known in dialogue["invocations"]:
            is_repeated = known["id"] == component["id"] and known["stage"] == "waiting"
            if is_repeated and component["name"] == "last" and self.is_reported(component, known):
                return [("last", dialogue["id"], known["number"], component)]
        return super().handle_unrecognized(dialogue, component)


class StaleTimer(Engine):
    """Tells a lapse after the result, whose timer is left behind."""

    def await_reject(self, dialogue, invocation):
        super().await_reject(dialogue, invocation)
        dialogue.setdefault("stale", []).append(invocation)

    def lapse(self):
        outputs = super().lapse()
        for dialogue in self.dialogues:
            stale = dialogue.get("stale", [])
            due = [known for known in stale if known["deadline"] <= self.clock]
            outputs += [("lapsed", dialogue["id"], known) for known in due]
            dialogue["stale"] = [known for known in stale if known not in due]
        return outputs


class ClassTwoResult(Engine):
    """Tells a result of an operation of class 2 as a result."""

    def is_reported(self, component, invocation):
        return super().is_reported(component, invocation) or (component["name"], invocation["class"]) == ("last", 2)


class RejectOfResultCloses(Engine):
    """Closes the user's invocation on a Reject with a Result problem."""

    def rejected_invocation(self, dialogue, component):
        if component["kind"] == "result":
            return self.sent_invocation(dialogue, component["id"])
        return super().rejected_invocation(dialogue, component)


class LapseByIdentifier(Engine):
    """Lets a lapse close all invocations of its identifier, in every dialogue."""

    def lapse(self):
        outputs = super().lapse()
        lapsed = [invocation["id"] for _, _, invocation in outputs]
        for dialogue in self.dialogues:
            for known in list(dialogue["invocations"]):
                if known["id"] in lapsed and known["stage"] == "sent":
                    self.close(dialogue, known)
        return outputs


class ComponentsAfterFault(Engine):
    """Handles the components after a faulty one too."""

    def components_of(self, portion):
        components, at = [], 0
        while at < len(portion):
            component, at = read_component(portion, at)
            components.append(component)
        return components


class EndBeforeComponents(Engine):
    """Closes open invocations at an End before its components are handled."""

    def receive_in_dialogue(self, dialogue, message, sender):
        if message["kind"] == "continue" or not self.is_normal(dialogue, message["portion"]):
            return super().receive_in_dialogue(dialogue, message, sender)
        ended = self.end_dialogue(dialogue)
        dialogue["invocations"] = []
        handled = self.handle(dialogue, message["components"])
        return [("end", dialogue["id"], message["portion"]), *handled, *ended]


class EndedAtOnce(Engine):
    """Tells Ended of each invocation as soon as it is sent."""

    def send(self, dialogue, kind, address, portion):
        outputs = super().send(dialogue, kind, address, portion)
        for known in [known for known in dialogue["invocations"] if known["stage"] == "sent"]:
            self.close(dialogue, known)
            outputs.append(("ended", dialogue["id"], known))
        return outputs


class ReusedDialogueIdentifier(Engine):
    """Gives the identifier of a dialogue that is over out again."""

    def draw_identifier(self):
        known = [dialogue["id"] for dialogue in self.dialogues]
        return min(set(range(1, len(known) + 2)) - set(known))


class ClockSetBack(Engine):
    """Sets its clock back to an earlier moment."""

    def advance(self, moment):
        self.clock = min(self.clock, moment)
        return super().advance(moment)


class IdentifierFreedEarly(Engine):
    """Frees an identifier as soon as its result is told."""

    def await_reject(self, dialogue, invocation):
        self.close(dialogue, invocation)


class MovingPeer(Engine):
    """Takes the origin of a later Continue for the peer's identifier."""

    def carry_on(self, dialogue, message, sender):
        super().carry_on(dialogue, message, sender)
        dialogue["peer"] = message["origin"]


class RecognisedBegin(Engine):
    """Recognises a repeated Begin, and makes no second dialogue."""

    def receive_begin(self, message, sender):
        for dialogue in self.dialogues:
            is_repeated = (dialogue["peer"], dialogue["address"]) == (message["origin"], sender)
            if is_repeated and dialogue["state"] == "received":
                return []
        return super().receive_begin(message, sender)


class CrossedQueues(Engine):
    """Sends the queue of one dialogue in a message of another."""

    def queue_of(self, dialogue):
        others = [known["queue"] for known in self.dialogues if known is not dialogue and known["queue"]]
        return others[0] if others else dialogue["queue"]


class EndedPastDeadline(Engine):
    """Tells Ended, in a dialogue that is idle, for an invocation past its deadline."""

    def lapse(self):
        self.idle_ends = self.end_idle()
        return super().lapse()

    def advance(self, moment):
        self.idle_ends = []
        return super().advance(moment) + self.idle_ends


class MovingAddress(Engine):
    """Keeps the address of a later Continue."""

    def carry_on(self, dialogue, message, sender):
        super().carry_on(dialogue, message, sender)
        dialogue["address"] = sender


class AbortToKeptAddress(Engine):
    """Sends the Abort with cause 1 to the address that some dialogue keeps."""

    def receive_without_dialogue(self, message, sender):
        kept = [dialogue["address"] for dialogue in self.dialogues if dialogue["address"] is not None]
        return super().receive_without_dialogue(message, kept[0] if kept else sender)


WRONG = {
    "double result": DoubleResult,
    "stale timer": StaleTimer,
    "class two result": ClassTwoResult,
    "Reject of a result closes": RejectOfResultCloses,
    "lapse by identifier": LapseByIdentifier,
    "components after a fault": ComponentsAfterFault,
    "End before components": EndBeforeComponents,
    "ended at once": EndedAtOnce,
    "reused dialogue identifier": ReusedDialogueIdentifier,
    "clock set back": ClockSetBack,
    "identifier freed early": IdentifierFreedEarly,
    "moving peer": MovingPeer,
    "recognised Begin": RecognisedBegin,
    "crossed queues": CrossedQueues,
    "ended past the deadline": EndedPastDeadline,
    "moving address": MovingAddress,
    "cause 1 to a kept address": AbortToKeptAddress,
}
