"""Messages at random, the same for the same seed: well formed ones, also with what only some decoders
take, and damaged ones."""

import random

from ber import Element, integer_size
from damage import damaged

# Content octets of a parameter that is long: where lengths change their form, and far above.
LONG = [126, 127, 128, 199, 200, 201, 255, 256, 300, 1000]
LONGEST = [5000, 20000, 60000]
# A word of a shell holds no more.
MESSAGE_LIMIT = 65535

STRUCTURED = bytes.fromhex("00118605010101")
UNSTRUCTURED = bytes.fromhex("00118605010201")


def messages(seed, count):
    """So many messages, each as octets."""
    return [Maker(random.Random(f"{seed} {number}")).message() for number in range(count)]


class Maker:
    """Makes one message by a generator of random numbers."""

    def __init__(self, rng):
        self.rng = rng
        # In how many of a hundred choices the rare is taken: what a sender hardly writes.
        self.rare = rng.choice([0, 0, 2, 10])
        # What else is drawn more often in one message than in others.
        kinds = ["indefinite", "lengths", "long", "deep", "information", "foreign", "nothing", "nothing"]
        self.often = rng.choice(kinds)

    def is_rare(self):
        return self.rng.randrange(100) < self.rare

    def is_often(self, what, times):
        """Whether something is drawn that is drawn once in so many times where it is the one drawn often."""
        return self.often == what and self.rng.randrange(times) == 0

    def message(self):
        message = self.element(*self.parts())
        if self.is_often("indefinite", 2):
            message.form = "indefinite"
        octets = message.octets()
        for _ in range(self.rng.choice([0, 0, 0, 1, 1, 2])):
            octets = damaged(self.rng, octets)
        return octets[:MESSAGE_LIMIT]

    # ---- the encoding

    def element(self, tag, inside):
        """An element, its length in one of the forms."""
        form = 0
        if self.rng.randrange(20) == 0 or self.is_often("lengths", 3):
            form = self.rng.choice([1, 1, 2, 4, 9])
        if isinstance(inside, list) and (self.rng.randrange(20) == 0 or self.is_often("indefinite", 4)):
            form = "indefinite"
        return Element(bytes(self.tag(tag)), inside, form)

    def tag(self, tag):
        octets = [tag] if isinstance(tag, int) else list(tag)
        if self.is_rare() and self.is_rare() and len(octets) == 1:
            return [octets[0] | 0x1F, octets[0] & 0x1F]
        return octets

    def octet_string(self, tag, octets):
        if self.is_rare() and self.is_rare():
            parts = [self.element(0x04, octets[:1]), self.element(0x04, octets[1:])]
            return self.element(tag | 0x20, parts)
        return self.element(tag, octets)

    def integer(self, tag, number):
        spare = 1 if self.is_rare() and self.is_rare() else 0
        octets = number.to_bytes(integer_size(number) + spare, "big", signed=True)
        if self.is_rare() and self.rng.randrange(20) == 0:
            octets = b""
        return self.element(tag, octets)

    def small(self, named):
        """A number with a name, or another one."""
        if self.is_rare():
            return self.rng.choice([-1, 5, 100, 127, 128, 200, 70000])
        return self.rng.randrange(named)

    def identifier(self):
        """The octets of an object identifier."""
        octets = [self.rng.choice([0, 0x11, 0x28, 0x2A, 0x51, 0x77])]
        for _ in range(self.rng.choice([1, 3, 6, 300]) if self.is_rare() else self.rng.randrange(1, 8)):
            number = self.rng.randrange(1 << self.rng.choice([7, 14, 40]))
            while number >= 128 and self.rng.randrange(2):
                octets.append(0x80 | (number & 0x7F) or 0x81)
                number >>= 7
            octets.append(number & 0x7F)
        if self.is_rare() and self.is_rare():
            octets.insert(self.rng.randrange(len(octets)), 0x80)
        return bytes(octets)

    # ---- the transaction portion

    def parts(self):
        """The tag and the parts of a message."""
        kind = self.rng.choice(["unidirectional", "begin", "end", "continue", "continue", "abort"])
        if self.is_often("foreign", 3):
            kind = "abort"
        if kind == "unidirectional":
            return 0x61, self.dialogue(["audt"]) + [self.components()]
        if kind == "begin":
            return 0x62, [self.transaction(0x48)] + self.dialogue(["aarq"]) + self.maybe_components()
        if kind == "end":
            return 0x64, [self.transaction(0x49)] + self.dialogue(["aare"]) + self.maybe_components()
        if kind == "continue":
            identifiers = [self.transaction(0x48), self.transaction(0x49)]
            return 0x65, identifiers + self.dialogue(["aare"]) + self.maybe_components()
        return 0x67, [self.transaction(0x49)] + self.reason()

    def transaction(self, tag):
        size = self.rng.choice([0, 5, 8]) if self.is_rare() else self.rng.choice([1, 2, 3, 4, 4, 4, 4])
        return self.octet_string(tag, self.rng.randbytes(size))

    def reason(self):
        choice = 2 if self.often == "foreign" else self.rng.randrange(4)
        if choice == 0:
            return []
        if choice == 1:
            return [self.integer(0x4A, self.small(5))]
        return [self.element(0x6B, [self.external(["abrt", "aare", "foreign"])])]

    # ---- the dialogue portion

    def dialogue(self, kinds):
        if self.often != "information" and self.rng.randrange(2):
            return []
        if self.is_rare():
            kinds = ["aarq", "aare", "abrt", "audt", "foreign"]
        return [self.element(0x6B, [self.external(kinds)])]

    def external(self, kinds):
        kind = self.rng.choice(kinds)
        if kind == "foreign":
            return self.any_external()
        syntax = UNSTRUCTURED if kind == "audt" else STRUCTURED
        tag = {"aarq": 0x60, "audt": 0x60, "aare": 0x61, "abrt": 0x64}[kind]
        pdu = self.element(tag, self.pdu(kind))
        parts = [self.element(0x06, syntax), self.element(0xA0, [pdu])]
        return self.element(0x28, self.with_rare_parts(parts))

    def any_external(self):
        """An EXTERNAL of any syntax, in each of its three encodings."""
        encoding = self.rng.choice([self.element(0xA0, [self.parameter(2)]),
                                    self.element(0x81, self.rng.randbytes(self.rng.randrange(9))),
                                    self.element(0x82, b"\x00" + self.rng.randbytes(self.rng.randrange(9)))])
        parts = [self.element(0x06, self.identifier()), encoding]
        if self.is_rare() or self.is_often("foreign", 10):
            parts = parts[:1]
        return self.element(0x28, self.with_rare_parts(parts))

    def with_rare_parts(self, parts):
        """The parts of an EXTERNAL, and rarely those that dialogue PDUs don't need."""
        if self.is_rare():
            parts = parts[:1] + [self.integer(0x02, self.rng.randrange(300))] + parts[1:]
        if self.is_rare():
            parts = parts[:-1] + [self.element(0x07, b"word")] + parts[-1:]
        return parts

    def pdu(self, kind):
        if kind == "abrt":
            return [self.integer(0x80, self.small(2))] + self.information()
        context = [self.element(0xA1, [self.element(0x06, self.identifier())])]
        if kind == "aare":
            result = self.element(0xA2, [self.integer(0x02, self.small(2))])
            source = self.element(self.rng.choice([0xA1, 0xA2]), [self.integer(0x02, self.small(3))])
            context += [result, self.element(0xA3, [source])]
        return self.version() + context + self.information()

    def version(self):
        bits = self.rng.choice([None, b"\x07\x80", b"\x07\x80", b"\x07\x00", b"\x00", b"\x06\xc0", b"\x03\xff\x88"])
        if self.is_rare():
            bits = self.rng.choice([b"", b"\x07", b"\x08\x80"])
        return [] if bits is None else [self.element(0x80, bits)]

    def information(self):
        if self.often != "information" and self.rng.randrange(2):
            return []
        count = self.rng.choice([0, 1, 1, 1, 2]) if self.often != "information" else self.rng.randrange(1, 5)
        return [self.element(0xBE, [self.any_external() for _ in range(count)])]

    # ---- the component portion

    def maybe_components(self):
        return [] if self.rng.randrange(4) == 0 else [self.components()]

    def components(self):
        count = 0 if self.is_rare() else self.rng.choice([1, 1, 1, 2, 3, 6])
        return self.element(0x6C, [self.component() for _ in range(count)])

    def component(self):
        tag = self.rng.choice([0xA1, 0xA1, 0xA2, 0xA3, 0xA4, 0xA7])
        if tag == 0xA4:
            kind = self.rng.randrange(4)
            identifier = self.element(0x05, b"") if self.rng.randrange(3) == 0 else self.invoke_id(0x02)
            return self.element(tag, [identifier, self.integer(0x80 + kind, self.small([3, 8, 3, 5][kind]))])
        identifier = self.element(0x05, b"") if self.is_rare() else self.invoke_id(0x02)
        if tag == 0xA1:
            return self.element(tag, [identifier] + self.linked() + [self.code()] + self.maybe_parameter())
        if tag == 0xA3:
            return self.element(tag, [identifier, self.code()] + self.maybe_parameter())
        parameter = self.maybe_parameter() if self.is_rare() else [self.parameter(3)]
        body = [] if self.rng.randrange(4) == 0 else [self.element(0x30, [self.code()] + parameter)]
        return self.element(tag, [identifier] + body)

    def invoke_id(self, tag):
        number = self.rng.choice([-129, 128, 255, 1000]) if self.is_rare() else self.rng.randrange(-128, 128)
        return self.integer(tag, number)

    def linked(self):
        if self.rng.randrange(3):
            return []
        return [self.element(0x81, b"") if self.is_rare() else self.invoke_id(0x80)]

    def code(self):
        if self.rng.randrange(4) == 0:
            return self.element(0x06, self.identifier())
        bits = self.rng.choice([40, 70]) if self.is_rare() else self.rng.choice([6, 7, 8, 15, 31])
        return self.integer(0x02, self.rng.randrange(-(1 << bits), 1 << bits))

    def maybe_parameter(self):
        return [] if self.rng.randrange(3) == 0 else [self.parameter(3)]

    def parameter(self, depth):
        """One element of any tag, at most so deep but rarely."""
        if self.is_rare() and self.is_rare() or self.is_often("deep", 6):
            return self.deep(self.rng.randrange(26, 36))
        if self.is_often("long", 3):
            return self.long()
        first, further = self.any_tag()
        if self.rng.randrange(2) and depth:
            inside = [self.parameter(depth - 1) for _ in range(self.rng.randrange(4))]
            if self.is_rare():
                inside = self.rng.randbytes(self.rng.randrange(1, 6))
            return self.element([first | 0x20] + further, inside)
        return self.element([first] + further, self.rng.randbytes(self.rng.choice([0, 1, 2, 8, 200])))

    def any_tag(self):
        """The first octet of a tag and the further ones."""
        if self.is_rare() and self.rng.randrange(4) == 0:
            return 0x00, []
        number = self.rng.choice([[0], [4], [5], [16], [30], [0x1F, 0x1F], [0x1F, 0x81, 0x02]])
        if self.is_rare():
            further = [[0x05], [0x80, 0x05], [0x81, 0x82, 0x83, 0x04], [0x81, 0x82, 0x83, 0x84, 0x05]]
            number = [0x1F] + self.rng.choice(further)
        first = self.rng.choice([0x00, 0x40, 0x80, 0xC0]) | number[0]
        return first or 0x04, number[1:]

    def long(self):
        """An element of many octets: primitive, or constructed of any form of length."""
        size = self.rng.choice(LONG)
        if self.rng.randrange(40) == 0:
            size, self.often = self.rng.choice(LONGEST), "nothing"
        inside = self.rng.randbytes(size)
        if self.rng.randrange(2):
            return self.element(0x04, inside)
        parts = [Element(b"\x04", inside[: size // 2]), Element(b"\x04", inside[size // 2 :])]
        return Element(b"\x30", parts, self.rng.choice([0, 2, 4, "indefinite", "indefinite"]))

    def deep(self, depth):
        """An element of indefinite length in another, so often."""
        element = Element(b"\x30", [], "indefinite")
        for _ in range(depth - 1):
            element = Element(b"\x30", [element], "indefinite")
        return element
