"""The handling of components by docs/PROFILE.md (Operation classes; Handling of components)."""

from components import read_components, write_reject

QUEUE_LIMIT = 60_000
REJECT_TIMEOUT = 1_000
REPORTED = {"last": (1, 3), "more": (1, 3), "error": (1, 2)}
ANSWER_KINDS = {"last": "result", "more": "result", "error": "error"}
UNRECOGNIZED_LINKED = 5
UNRECOGNIZED_INVOCATION, UNEXPECTED = 0, 1
PROVIDER_PROBLEMS = {"general": (0, 1, 2), "invoke": (5,), "result": (0, 1), "error": (0, 1)}


class Handling:
    """What received components tell, and what they do to the invocations of a dialogue."""

    clock: int

    def components_of(self, portion):
        return read_components(portion)

    def handle(self, dialogue, portion):
        """What the components of a message tell, in order."""
        outputs = []
        for component in self.components_of(portion):
            outputs += self.handle_component(dialogue, component)
        return outputs

    def handle_component(self, dialogue, component):
        if component["name"] == "faulty":
            return self.handle_faulty(dialogue, component)
        if component["name"] == "invoke":
            return self.handle_invoke(dialogue, component)
        if component["name"] == "reject":
            return self.handle_reject(dialogue, component)
        return self.handle_answer(dialogue, component)

    def handle_faulty(self, dialogue, component):
        if not component["was_reject"]:
            self.queue_reject(dialogue, component["id"], "general", component["code"])
        return [("localreject", dialogue["id"], component["id"], "general", component["code"])]

    def handle_invoke(self, dialogue, component):
        linked = component["linked"]
        if linked is not None and self.sent_invocation(dialogue, linked) is None:
            return self.reject_here(dialogue, component["id"], "invoke", UNRECOGNIZED_LINKED)
        return [("invoked", dialogue["id"], component)]

    def handle_answer(self, dialogue, component):
        """A result or an error, by the table of the operation classes."""
        invocation = self.sent_invocation(dialogue, component["id"])
        if invocation is None:
            return self.handle_unrecognized(dialogue, component)
        if not self.is_reported(component, invocation):
            return self.handle_unexpected(dialogue, component, invocation)
        if component["name"] != "more":
            self.await_reject(dialogue, invocation)
        return [(component["name"], dialogue["id"], invocation["number"], component)]

    def is_reported(self, component, invocation):
        return invocation["class"] in REPORTED[component["name"]]

    def handle_unrecognized(self, dialogue, component):
        kind = ANSWER_KINDS[component["name"]]
        return self.reject_here(dialogue, component["id"], kind, UNRECOGNIZED_INVOCATION)

    def handle_unexpected(self, dialogue, component, invocation):
        kind = ANSWER_KINDS[component["name"]]
        self.close(dialogue, invocation)
        self.queue_reject(dialogue, component["id"], kind, UNEXPECTED)
        return [("rejected", dialogue["id"], invocation, kind, UNEXPECTED, "local")]

    def handle_reject(self, dialogue, component):
        kind, problem = component["kind"], component["problem"]
        by = "provider" if problem in PROVIDER_PROBLEMS[kind] else "user"
        invocation = self.rejected_invocation(dialogue, component)
        if invocation is None:
            return [("remotereject", dialogue["id"], component["id"], kind, problem, by)]
        self.close(dialogue, invocation)
        return [("rejected", dialogue["id"], invocation, kind, problem, by)]

    def rejected_invocation(self, dialogue, component):
        """The invocation that a received Reject closes: one that is Sent, by a General or Invoke problem."""
        if component["kind"] in ("result", "error"):
            return None
        return self.sent_invocation(dialogue, component["id"])

    # ---- the Rejects that are formed here

    def reject_here(self, dialogue, identifier, kind, problem):
        self.queue_reject(dialogue, identifier, kind, problem)
        return [("localreject", dialogue["id"], identifier, kind, problem)]

    def queue_reject(self, dialogue, identifier, kind, problem):
        """Queues a Reject where it fits. In an End or a Unidirectional it goes with the dialogue, unsent."""
        octets = write_reject(identifier, kind, problem)
        if self.has_room(dialogue, octets):
            self.enqueue(dialogue, octets)

    def has_room(self, dialogue, octets):
        return sum(len(queued["octets"]) for queued in dialogue["queue"]) + len(octets) <= QUEUE_LIMIT

    def enqueue(self, dialogue, octets, invocation=None):
        dialogue["queue"].append({"octets": octets, "invocation": invocation})

    # ---- the invocations

    def sent_invocation(self, dialogue, identifier):
        for invocation in dialogue["invocations"]:
            if invocation["id"] == identifier and invocation["stage"] == "sent":
                return invocation
        return None

    def await_reject(self, dialogue, invocation):
        """After its answer an invocation waits for a Reject, its identifier in use."""
        invocation["stage"] = "waiting"
        invocation["until"] = self.clock + REJECT_TIMEOUT

    def close(self, dialogue, invocation):
        dialogue["invocations"].remove(invocation)
