"""Messages made by hand for scripts: of all types, with portions and components as they should be and others,
and damaged ones."""

from codec import write_element, write_integer
from portions import STRUCTURED, UNSTRUCTURED

TAGS = {"unidirectional": 0x61, "begin": 0x62, "end": 0x64, "continue": 0x65, "abort": 0x67}
GOOD_TEXTS = {
    "contexts": ["04000001000103", "04000001001902", "2A", "06818002", "0401", "0481808001", "01" * 255],
    "information": ["2800", "280401020304", "28002800", "28800401AA0000", "2881020000"],
    "parameters": ["0401AA", "3003800101", "0500", "30800401BB0000", "1F810100", "DF7F8100", "04820001CC",
                   "1F8181810100", "1F81800000", "A280308000000000", "3080" * 32 + "0000" * 32],
}
BAD_TEXTS = {
    "contexts": ["80", "8001", "0480", "048001", "048180", "FF", "01" * 256],
    "information": ["0400", "28", "2801", "280000", "28000400", "2880", "28800000FF"],
    "parameters": ["04", "0402AA", "0401AA00", "3080", "0080", "048000", "04FF", "1F800000", "1F800100",
                   "1F818181810100", "3080" * 33 + "0000" * 33, "3083010000", "30800001", "05000500", "05800000",
                   "04FF" + "00" * 127],
}
GOOD = {name: [bytes.fromhex(text) for text in texts] for name, texts in GOOD_TEXTS.items()}
BAD = {name: [bytes.fromhex(text) for text in texts] for name, texts in BAD_TEXTS.items()}
FOREIGN_TEXTS = ["28080603040001A0010A", "280306012A", "280606012A020105", "288006012A81000000"]
FOREIGN = [bytes.fromhex(text) for text in FOREIGN_TEXTS]
SENDERS = [b"\x41", b"\x42", b"", b"\x43\x00", b"\x49\x00\x17", b"\x49\x00\x23", b"\x77" * 255]


class Maker:
    """Makes messages by a generator of random numbers."""

    def __init__(self, rng):
        self.rng = rng

    def odds(self, percent):
        return self.rng.randrange(100) < percent

    def element(self, tag, content):
        """An element, rarely with another length form than the shortest."""
        if self.odds(94):
            return write_element(tag, content)
        if tag & 0x20 and self.odds(50):
            return bytes([tag, 0x80]) + content + b"\x00\x00"
        size = self.rng.choice([3, 3, 4, 9])
        return bytes([tag, 0x80 | size]) + len(content).to_bytes(size, "big") + content

    # ---- messages

    def message(self, kind, dialogue=None, components=None):
        """A message, to a dialogue where there is one, with these components or any."""
        content = b""
        if kind in ("begin", "continue") or self.odds(2):
            content += self.element(0x48, self.origin())
        if kind in ("continue", "end", "abort"):
            content += self.element(0x49, self.destination(dialogue))
        if kind == "abort":
            content += self.reason()
        else:
            content += self.portion(kind, dialogue)
            if kind == "unidirectional" or self.odds(75):
                content += self.element(0x6C, components or self.components(dialogue))
        if self.odds(3):
            content += self.rng.choice([b"\x04\x00", b"\x6c\x00", b"\x00"])
        tag = TAGS[kind] if self.odds(98) else 0x63
        if self.odds(3):
            # A stated length that isn't that of what follows, or isn't any.
            lengths = ["82FFFF", "83010000", "8300FFFF", "0C", "0E", "80", "FF"]
            return bytes([tag]) + bytes.fromhex(self.rng.choice(lengths)) + content
        return self.element(tag, content)

    def origin(self):
        if self.odds(4):
            return self.rng.choice([b"", bytes(5)])
        other = self.rng.randbytes(self.rng.randrange(1, 5))
        return self.rng.choice([b"\x00\x00\x00\x01", b"\x07", b"\x00\x09", other])

    def destination(self, dialogue):
        if dialogue is None or self.odds(4):
            return self.rng.choice([b"\x01", b"\x00\x00\x01", b"\x00\x00\x00\xff", bytes(5), b""])
        return dialogue["id"].to_bytes(4, "big")

    def reason(self):
        chosen = self.rng.randrange(10)
        if chosen < 2:
            return b""
        if chosen < 6:
            causes = [b"\x00", b"\x01", b"\x02", b"\x03", b"\x04", b"\x04", b"\x7f", b"\x80", b"\x00\x01"]
            return self.element(0x4A, self.rng.choice(causes))
        return self.element(0x6B, self.any_external())

    # ---- dialogue portions

    def portion(self, kind, dialogue):
        """A dialogue portion, mostly one that fits."""
        if self.odds(9):
            return self.element(0x6B, self.any_external())
        if kind == "begin":
            return b"" if self.odds(45) else self.element(0x6B, self.request(STRUCTURED))
        if kind == "unidirectional":
            return b"" if self.odds(45) else self.element(0x6B, self.request(UNSTRUCTURED))
        if dialogue and dialogue["state"] == "sent" and dialogue["context"] is not None:
            return self.element(0x6B, self.response([0]))
        return b""

    def any_external(self):
        chosen = self.rng.randrange(12)
        if chosen < 2:
            return self.request(self.rng.choice([STRUCTURED, STRUCTURED, UNSTRUCTURED]))
        if chosen < 5:
            return self.response([0, 1, 1])
        if chosen < 8:
            source = self.rng.choice([b"\x00", b"\x00", b"\x00", b"\x01", b"\x02", b""])
            syntax = UNSTRUCTURED if self.odds(8) else STRUCTURED
            return self.external(syntax, 0x62 if self.odds(8) else 0x64, self.element(0x80, source))
        if chosen < 10:
            return self.rng.choice(FOREIGN)
        return self.damaged(self.rng.choice([self.response([0, 1]), self.request(STRUCTURED), b""]))

    def request(self, syntax):
        return self.external(syntax, 0x60, self.version() + self.context())

    def response(self, results):
        result = self.element(0xA2, self.element(0x02, bytes([self.rng.choice(results)])))
        codes = [b"\x00", b"\x01", b"\x02", b"\x02", b"\x7f", b"\x80"] if self.odds(30) else [b"\x00", b"\x02"]
        code, by = self.rng.choice(codes), self.rng.choice([0xA1, 0xA2])
        source = self.element(0xA3, self.element(by, self.element(0x02, code)))
        return self.external(STRUCTURED, 0x61, self.version() + self.context() + result + source)

    def version(self):
        rare = [b"\x07\x00", b"\x00", b"\x06\xc0", b"", b"\x08\x80", b"\x01", b"\x03\x7f\x88"]
        if self.odds(30):
            return b""
        return self.element(0x80, self.rng.choice(rare) if self.odds(15) else b"\x07\x80")

    def context(self):
        context = self.rng.choice((BAD if self.odds(6) else GOOD)["contexts"])
        return self.element(0xA1, self.element(0x06, context))

    def external(self, syntax, tag, content):
        if self.odds(30):
            information = BAD["information"] if self.odds(10) else [b"", *GOOD["information"]]
            content += self.element(0xBE, self.rng.choice(information))
        single = self.element(0xA0, self.element(tag, content))
        if self.odds(2):
            single += b"\x81\x00"
        return self.element(0x28, self.element(0x06, syntax) + single)

    # ---- components

    def components(self, dialogue):
        count = self.rng.choice([0, 1, 1, 1, 1, 2, 2, 3, 5])
        return b"".join(self.component(dialogue) for _ in range(count))

    def component(self, dialogue):
        if self.odds(12):
            return self.faulty_component(dialogue)
        tag = self.rng.choice([0xA1, 0xA1, 0xA2, 0xA2, 0xA2, 0xA3, 0xA4, 0xA4, 0xA7])
        identifier = self.identifier(dialogue)
        if tag == 0xA4:
            if self.odds(12):
                identifier = self.element(0x05, b"")
            return self.element(tag, identifier + self.problem())
        if tag == 0xA1:
            linked = b"" if self.odds(60) else self.identifier(dialogue, 0x80)
            return self.element(tag, identifier + linked + self.operation())
        if tag == 0xA3:
            return self.element(tag, identifier + self.operation())
        body = b"" if self.odds(25) else self.element(0x30, self.operation())
        return self.element(tag, identifier + body)

    def identifier(self, dialogue, tag=0x02):
        """An invoke identifier, mostly of an invocation of the dialogue."""
        known = [invocation["id"] for invocation in dialogue["invocations"]] if dialogue else []
        number = self.rng.choice(known) if known and self.odds(75) else self.rng.choice([1, 2, 3, 7, -1, 127, -128])
        return self.element(tag, number.to_bytes(1, "big", signed=True))

    def problem(self):
        tag = self.rng.choice([0x80, 0x81, 0x81, 0x82, 0x83])
        return self.element(tag, bytes([self.rng.choice([0, 0, 1, 1, 2, 3, 4, 5, 7, 127])]))

    def operation(self):
        code = write_integer(0x02, self.rng.choice([0, 2, 44, -1, 128, -129, 2**31 - 1, -(2**31)]))
        if self.odds(15):
            code = self.element(0x06, self.rng.choice(GOOD["contexts"]))
        return code + (b"" if self.odds(40) else self.parameter())

    def parameter(self):
        """A parameter, at times one around which lengths pass 127."""
        if self.odds(12):
            return write_element(0x04, bytes(self.rng.randrange(90, 130)))
        return self.rng.choice(GOOD["parameters"])

    def faulty_component(self, dialogue):
        tag, result = self.rng.choice([0xA1, 0xA2, 0xA3, 0xA4, 0xA7]), self.rng.choice([0xA2, 0xA7])
        identifier, code = self.identifier(dialogue), b"\x02\x01\x02"
        faults = [
            self.element(0xA5, identifier + code),
            self.element(0x30, code + code),
            b"\x81\x03\x02\x01\x05",
            self.element(tag, b"\x02\x02\x00\x05" + code),
            self.element(tag, b"\x05\x00" + code),
            self.element(tag, identifier + b"\x04\x00"),
            self.element(tag, identifier + b"\x80\x01\x80"),
            self.element(tag, identifier + b"\x02\x05\x01\x02\x03\x04\x05"),
            self.element(tag, identifier + b"\x02\x02\x00\x05"),
            self.element(tag, identifier + b"\x02\x02\xff\x80"),
            self.element(tag, identifier + b"\x06\x03\x04\x81\x80"),
            self.element(tag, identifier + b"\x06\x02\x80\x01"),
            self.element(tag, identifier + code + b"\x05\x00\x05\x00"),
            self.element(0xA1, identifier + code + self.rng.choice(BAD["parameters"])),
            self.element(tag, identifier + b"\x02\x05"),
            self.element(tag, identifier + b"\x30\x00"),
            self.element(tag, identifier + b"\x30\x03\x02\x05\x01"),
            self.element(result, b"\x05\x00\x30\x01\x02"),
            self.element(result, identifier + b"\x30\x02\x02\x05\x05\x00"),
            self.element(result, identifier + self.rng.choice(BAD["parameters"])),
            self.element(tag, identifier + b"\x30\x07\x02\x01\x02\x05\x00\x05\x00"),
            bytes([tag, 0x20]) + identifier,
            bytes([tag, 0x80]) + identifier,
            bytes([tag, 0xFF]) + identifier,
            b"\xbf\x21\x06" + identifier + code,
            b"\x00\x00",
            self.element(tag, b""),
        ]
        return self.rng.choice(faults)

    # ---- damage

    def damaged(self, octets):
        """Octets with one set, some inserted or the last ones cut off."""
        for _ in range(self.rng.choice([1, 1, 1, 2, 3])):
            at = self.rng.randrange(len(octets) + 1)
            chosen = self.rng.randrange(4)
            octet = self.rng.choice([0x00, 0x80, 0xFF, 0x02, 0x30, 0xA1, 0x48, 0x49, 0x6C, self.rng.randrange(256)])
            if chosen == 0:
                octets = octets[:at]
            elif chosen == 1:
                octets = octets[:at] + bytes([octet]) + octets[at:]
            else:
                octets = octets[:at] + bytes([octet]) + octets[at + 1 :]
        return octets
