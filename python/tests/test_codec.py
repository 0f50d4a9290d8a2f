"""tcap_codec.h in Python: expected values from X.690, docs/FORMATS.md and tcap.h."""
from __future__ import annotations

import pytest

import tcap
from tcap import TransactionIds

# X.690, 8.19: numbers of seven bits an octet, the first of 40 times the first number and the second.
OIDS = [
    ("0.4.0.0.1.0.1.3", "04000001000103"),  # tcap.h
    ("2.100.3", "813403"),  # the example of 8.19.5
    ("0.0", "00"),
    ("0.39", "27"),
    ("1.0", "28"),
    ("1.39.127.128.16383.16384", "4f7f8100ff7f818000"),
    ("2.0.4294967295", "508fffffff7f"),
    ("2.4294967215", "8fffffff7f"),
]
NO_TEXTS = [
    "", "0", "0.", ".0.4", "0..4", "0.4.", "3.1", "0.40", "1.40", "0.04", "00.4", "0.4 ", " 0.4", "0.4\n", "0,4", "0.-4", "0.+4",
    "0.4a", "0.4\u0664", "0.\u0664", "0.\ud800", "2.4294967216", "0.4.4294967296", "0.4\0.1",
]  # fmt: skip
NO_OCTETS = ["", "80", "0480", "04800100", "0481", "049080808000"]  # 8.19.2: no first octet 80; above 2^32 - 1

INVOKE = "a10b02010102010230030401aa"
BEGIN = "62154804000000016c0d" + INVOKE
SHOWN = "begin\n  otid 00000001\n  components 13\n    invoke 1 linked - op local 2 param 30030401aa\n"
# Octets, the verdict, what is shown, the canonical form (docs/FORMATS.md; docs/USING.md has three of them).
MESSAGES = [
    (BEGIN, "good", SHOWN, BEGIN),
    ("6280480400000001" + "6c80" + INVOKE + "0000" + "0000", "good", SHOWN, BEGIN),
    ("620748050000000001", "fault incorrect", "fault incorrect\n", None),
    ("62134804dead00016c0ba109800103020101020102", "fault component 1",
     "begin\n  otid dead0001\n  components 11\n    faulty - general 1\n", None),
    ("", "fault badly formatted", "fault badly formatted\n", None),
    ("6300", "fault unknown type", "fault unknown type\n", None),
    ("6708" + "490409080706" + "4a01", "fault badly formatted", "fault badly formatted\n", None),
    ("6709" + "490409080706" + "4a0104", "good", "abort\n  dtid 09080706\n  cause 4\n", "6709" + "490409080706" + "4a0104"),
]  # fmt: skip
FRONTS = [
    (BEGIN, TransactionIds(b"\0\0\0\1", None)),
    ("6507" + "480105" + "49020607", TransactionIds(b"\5", b"\6\7")),
    ("640649040a0b0c0d", TransactionIds(None, b"\x0a\x0b\x0c\x0d")),
    ("62154804000000016c", TransactionIds(b"\0\0\0\1", None)),
    ("", TransactionIds(None, None)),
]


@pytest.mark.parametrize(("text", "octets"), OIDS)
def test_an_object_identifier_by_text(text: str, octets: str) -> None:
    assert (tcap.oid(text).hex(), tcap.oid_text(bytes.fromhex(octets))) == (octets, text)


@pytest.mark.parametrize("text", NO_TEXTS)
def test_a_text_of_none(text: str) -> None:
    with pytest.raises(tcap.BadOid, match="."):
        tcap.oid(text)


@pytest.mark.parametrize("octets", NO_OCTETS)
def test_octets_of_none(octets: str) -> None:
    with pytest.raises(tcap.BadOid, match="."):
        tcap.oid_text(bytes.fromhex(octets))


@pytest.mark.parametrize(("octets", "verdict", "shown", "canonical"), MESSAGES)
def test_a_message_is_judged(octets: str, verdict: str, shown: str, canonical: str | None) -> None:
    message = bytes.fromhex(octets)
    assert (tcap.check(message), tcap.show(message)) == (verdict, shown)
    assert tcap.canon(message) == (None if canonical is None else bytes.fromhex(canonical))


@pytest.mark.parametrize(("octets", "ids"), FRONTS)
def test_the_front_of_a_message(octets: str, ids: TransactionIds) -> None:
    assert tcap.front(bytes.fromhex(octets)) == ids


def test_a_long_text_has_room() -> None:
    parameter = b"\x04\x82\x20\x00" + bytes(0x2000)
    invoke = b"\xa1\x82\x20\x0a\2\1\1\2\1\2" + parameter
    message = b"\x62\x82\x20\x18\x48\4\0\0\0\1\x6c\x82\x20\x0e" + invoke
    assert tcap.check(message) == "good" and tcap.canon(message) == message
    assert tcap.show(message).endswith(f" op local 2 param {parameter.hex()}\n")
