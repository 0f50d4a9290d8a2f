"""The request primitives by docs/PROFILE.md (States; Requests and their faults; What requests write)."""

import codec
import components
import portions
from handling import Handling

UNKNOWN_DIALOGUE, WRONG_STATE, IDENTIFIER_IN_USE, NO_SUCH_INVOCATION = 2, 3, 4, 5
BAD_TIMEOUT, TOO_LONG, BAD_CONTEXT, BAD_PARAMETER = 6, 7, 11, 12
NOT_CLASS_FOUR, NO_CONTEXT = 13, 15
LATEST = 2**62
ANSWERING = ("received", "active")


class Refused(Exception):
    """A request that is refused; its argument is the number of the fault."""


def require(holds, fault):
    if not holds:
        raise Refused(fault)


def require_parameter(parameter):
    require(parameter is None or codec.is_only_element(parameter), BAD_PARAMETER)


class Primitives(Handling):
    """The requests of a user, each checked in the order of its faults before anything changes."""

    dialogues: list
    next_number: int

    def find(self, identifier):
        for dialogue in self.dialogues:
            if dialogue["id"] == identifier:
                return dialogue
        raise Refused(UNKNOWN_DIALOGUE)

    # ---- components

    def invoke(self, identifier, invoke_id, operation_class, code, timeout, linked, parameter):
        """TC-INVOKE; the number of the invocation."""
        dialogue = self.find(identifier)
        require(1 <= timeout <= LATEST, BAD_TIMEOUT)
        require_parameter(parameter)
        require(all(known["id"] != invoke_id for known in dialogue["invocations"]), IDENTIFIER_IN_USE)
        operation = components.write_operation(code, parameter)
        octets = components.write_component("invoke", invoke_id, components.write_linked(linked), operation)
        require(self.has_room(dialogue, octets), TOO_LONG)
        invocation = {"id": invoke_id, "number": self.next_number, "class": operation_class}
        invocation |= {"timeout": timeout, "stage": "queued"}
        self.next_number += 1
        dialogue["invocations"].append(invocation)
        self.enqueue(dialogue, octets, invocation)
        return [("number", invocation["number"])]

    def last(self, identifier, invoke_id, code, parameter):
        """TC-RESULT-L."""
        return self.answer(identifier, parameter, "last", invoke_id, components.write_body(code, parameter))

    def more(self, identifier, invoke_id, code, parameter):
        """TC-RESULT-NL."""
        return self.answer(identifier, parameter, "more", invoke_id, components.write_body(code, parameter))

    def error(self, identifier, invoke_id, code, parameter):
        """TC-U-ERROR."""
        return self.answer(identifier, parameter, "error", invoke_id, components.write_operation(code, parameter))

    def answer(self, identifier, parameter, *component):
        dialogue = self.find(identifier)
        require(dialogue["state"] in ANSWERING, WRONG_STATE)
        require_parameter(parameter)
        octets = components.write_component(*component)
        require(self.has_room(dialogue, octets), TOO_LONG)
        self.enqueue(dialogue, octets)
        return [("done",)]

    def reject(self, identifier, invoke_id, kind, problem):
        """TC-U-REJECT; of a result or an error it frees the identifier that waits for it."""
        dialogue = self.find(identifier)
        require(dialogue["state"] in ANSWERING, WRONG_STATE)
        octets = components.write_reject(invoke_id, kind, problem)
        require(self.has_room(dialogue, octets), TOO_LONG)
        self.enqueue(dialogue, octets)
        for invocation in list(dialogue["invocations"]):
            is_answered = invocation["id"] == invoke_id and invocation["stage"] == "waiting"
            if is_answered and kind in ("result", "error"):
                self.close(dialogue, invocation)
        return [("done",)]

    def cancel(self, identifier, invoke_id):
        """TC-U-CANCEL; takes an Invoke that is still queued out of the queue."""
        dialogue = self.find(identifier)
        for invocation in dialogue["invocations"]:
            if invocation["id"] == invoke_id and invocation["stage"] != "waiting":
                self.close(dialogue, invocation)
                dialogue["queue"] = [kept for kept in dialogue["queue"] if kept["invocation"] is not invocation]
                return [("givenup", invocation["number"])]
        raise Refused(NO_SUCH_INVOCATION)

    # ---- dialogues

    def check(self, identifier, states, context, information):
        """The dialogue, after the faults that the requests of dialogue handling begin with."""
        dialogue = self.find(identifier)
        require(dialogue["state"] in states, WRONG_STATE)
        require(context is None or codec.is_object_identifier(context), BAD_CONTEXT)
        require(portions.is_information(information), BAD_PARAMETER)
        return dialogue

    def uni(self, identifier, address, context, information):
        """TC-UNI."""
        dialogue = self.check(identifier, ["fresh"], context, information)
        require(context is not None or not information, NO_CONTEXT)
        classes = [queued["invocation"]["class"] for queued in dialogue["queue"] if queued["invocation"]]
        require(dialogue["queue"] and all(known == 4 for known in classes), NOT_CLASS_FOUR)
        portion = None if context is None else portions.write_unidirectional(context, information)
        return self.send(dialogue, "unidirectional", address, portion) + self.end_dialogue(dialogue)

    def begin(self, identifier, address, context, information):
        """TC-BEGIN."""
        dialogue = self.check(identifier, ["fresh"], context, information)
        require(context is not None or not information, NO_CONTEXT)
        portion = None if context is None else portions.write_request(context, information)
        outputs = self.send(dialogue, "begin", address, portion)
        dialogue |= {"state": "sent", "address": address, "context": context, "touched": self.clock}
        return outputs

    def go_on(self, identifier, context, information):
        """TC-CONTINUE."""
        dialogue = self.check(identifier, ANSWERING, context, information)
        portion = self.answering_portion(dialogue, context, information)
        outputs = self.send(dialogue, "continue", dialogue["address"], portion)
        dialogue |= {"state": "active", "touched": self.clock}
        return outputs

    def finish(self, identifier, context, information):
        """TC-END, basic."""
        dialogue = self.check(identifier, ANSWERING, context, information)
        portion = self.answering_portion(dialogue, context, information)
        return self.send(dialogue, "end", dialogue["address"], portion) + self.end_dialogue(dialogue)

    def answering_portion(self, dialogue, context, information):
        """The AARE, which answers an AARQ alone."""
        if dialogue["state"] == "active" or dialogue["context"] is None:
            require(context is None and not information, NO_CONTEXT)
            return None
        return portions.write_response(context or dialogue["context"], 0, ("user", 0), information)

    def prearranged(self, identifier):
        """TC-END, prearranged."""
        return self.end_dialogue(self.find(identifier))

    def abort_for_user(self, identifier, information):
        """TC-U-ABORT for a reason of the user."""
        dialogue = self.check(identifier, ["fresh", "sent", *ANSWERING], None, information)
        is_answering = dialogue["state"] in ANSWERING
        has_portion = is_answering and dialogue["context"] is not None
        require(has_portion or not information, NO_CONTEXT)
        portion = portions.write_abort("user", information) if has_portion else None
        outputs = self.send_abort(dialogue, portion) if is_answering else []
        return outputs + self.end_dialogue(dialogue)

    def abort_unsupported(self, identifier, information):
        """TC-U-ABORT since the application context isn't supported."""
        dialogue = self.find(identifier)
        require(dialogue["state"] == "received" and dialogue["context"] is not None, WRONG_STATE)
        require(portions.is_information(information), BAD_PARAMETER)
        by_user = portions.NOT_SUPPORTED_BY_USER
        portion = portions.write_response(dialogue["context"], 1, by_user, information)
        return self.send_abort(dialogue, portion) + self.end_dialogue(dialogue)

    # ---- what they send

    def send_abort(self, dialogue, portion):
        octets = codec.write_message("abort", destination=dialogue["peer"], portion=portion)
        require(len(octets) <= codec.LONGEST, TOO_LONG)
        return [("send", octets, dialogue["address"])]

    def send(self, dialogue, kind, address, portion):
        """A message with the queue of its dialogue, which is empty then."""
        origin = self.own_transaction(dialogue) if kind in ("begin", "continue") else None
        peer = dialogue["peer"] if kind in ("continue", "end") else None
        queue = b"".join(queued["octets"] for queued in self.queue_of(dialogue))
        octets = codec.write_message(kind, origin, peer, portion=portion, components=queue)
        require(len(octets) <= codec.LONGEST, TOO_LONG)
        for invocation in dialogue["invocations"]:
            if invocation["stage"] == "queued":
                invocation |= {"stage": "sent", "deadline": self.clock + invocation["timeout"]}
        dialogue["queue"] = []
        return [("send", octets, address)]

    def queue_of(self, dialogue):
        return dialogue["queue"]

    def own_transaction(self, dialogue):
        return dialogue["id"].to_bytes(4, "big")
