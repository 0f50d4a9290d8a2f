"""Which class may explain a difference, by the reader and the side that takes the message, and why. Any
other difference fails the run. The rules are those of docs/PROFILE.md."""

from laxer import LAXER
from stricter import STRICTER

# How the program and a reader read a message.
AGREE, BOTH_REFUSE, DIFFER, WE, THEY = "agree", "both refuse", "both, otherwise", "only we", "only they"
GRAMMAR_TOO = "the ITU's grammar refuses it too"
ALL = "ITU tshark asn1c"

# (side, class, the readers, the reason)
TABLE = [
    (THEY, "a linked identifier that is absent (81 00)", "ITU tshark",
     "A linked identifier is there or left out (own)."),
    (THEY, "an identifier that is NULL, other than a Reject's", "ITU",
     "Only a Reject's identifier may be 05 00 (own)."),
    (THEY, "an integer of no octet", ALL,
     "An integer has an octet; these decoders take none for 0."),
    (THEY, "an identifier outside -128 to 127", ALL,
     "The range of an Invoke's holds in every component (own)."),
    (THEY, "a local code of more than four octets", ALL,
     "A local code has one to four octets (own)."),
    (THEY, "a cause, problem, result, diagnostic or source out of its range", ALL,
     "A result and a source are 0 or 1, a problem and a diagnostic 0 to 127 (own), a cause too."),
    (THEY, "an integer in more octets than it needs", ALL,
     "Integers are in the fewest octets; these decoders take more."),
    (THEY, "a listed tag in the long form", ALL,
     "The long form of a number isn't the listed tag; to these decoders it is."),
    (THEY, "a foreign dialogue portion outside an Abort", ALL,
     "It is a fault of the portion; the grammar has any EXTERNAL."),
    (THEY, "a dialogue PDU in an EXTERNAL with other parts", ALL,
     "A PDU stands behind its syntax in A0, and nothing else there."),
    (THEY, "an EXTERNAL without a direct reference", ALL,
     "A foreign EXTERNAL begins with its syntax (own)."),
    (THEY, "a constructed string", "ITU tshark",
     "A string is primitive (own); X.690 has constructed ones."),
    (THEY, "an object identifier whose number begins with 80, or ends within one", ALL,
     "Neither is an object identifier; these decoders don't look."),
    (THEY, "an object identifier of more than 255 octets", ALL,
     "An object identifier has at most 255 octets (own)."),
    (THEY, "a protocol version that is no bit string", ALL,
     "Its first octet counts 0 to 7 unused bits; these decoders don't look at it."),
    (THEY, "a 33rd open element of indefinite length", ALL,
     "At most 32 are open, one in another (own)."),
    (THEY, "an element that begins with 00, where it is read", ALL,
     "X.690 keeps this tag for the end of contents; these decoders take it elsewhere."),
    (THEY, "a tag whose number begins with 80, where it is read", ALL,
     "The first further octet isn't 80; these decoders take it."),
    (THEY, "a tag of more than four further octets, where it is read", "tshark asn1c",
     "At most four are taken (own)."),
    (THEY, "a transaction identifier of no octet or of more than four", "tshark asn1c",
     "They don't look at SIZE (1..4)."),
    (THEY, GRAMMAR_TOO, "tshark asn1c",
     "tshark shows and doesn't judge, and asn1c forgives some missing octets."),
    (WE, "a component portion without components", "ITU",
     "It is accepted (own); the grammar has SIZE (1..MAX)."),
    (WE, "a result's body without a parameter", "ITU",
     "It is accepted (own); the grammar has both or neither."),
    (WE, "a tag number above 65,535 that isn't looked into", ALL,
     "A tag has four further octets (own), any inside a definite length; each of these decoders has a limit."),
    (WE, "a parameter whose inside isn't BER", ALL,
     "The contents of a definite length are any octets (own)."),
    (WE, "user information whose EXTERNALs aren't whole", ALL,
     "Elements with tag 28 are kept and not looked into (own)."),
    (WE, "a foreign EXTERNAL in an Abort that isn't whole", "ITU asn1c",
     "What follows its syntax isn't looked into (own)."),
    (WE, "a protocol version of other bits than one", "tshark",
     "Only the first bit is looked at; tshark calls others unknown."),
    (WE, "something else in a parameter", "tshark",
     "tshark reads into parameters, some tags of them in a way of its own."),
    (WE, "something else in user information", "tshark",
     "tshark reads into EXTERNALs, and looks for known syntaxes."),
    (WE, "something else in a foreign portion of an Abort", "tshark",
     "tshark looks for a dialogue PDU in each EXTERNAL."),
    (WE, "an element of indefinite length", "asn1c",
     "asn1c refuses many an explicit tag of indefinite length."),
    (DIFFER, "user information whose EXTERNALs aren't whole", "asn1c",
     "asn1c takes a bit string of no octet and an explicit tag that is primitive, and writes others for them."),
    (DIFFER, "a foreign EXTERNAL in an Abort that isn't whole", "asn1c",
     "The same in a foreign portion."),
]


def permitted(reader, side):
    """The classes that may explain a difference."""
    return [title for title in rows(reader, side) if title != GRAMMAR_TOO]


def others(reader, side):
    """All other classes."""
    return [title for title, _ in STRICTER + LAXER if title not in rows(reader, side)]


def rows(reader, side):
    """What the table has for a reader and a side."""
    return [title for at, title, who, _ in TABLE if at == side and reader in who.split()]
