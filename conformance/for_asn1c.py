"""Makes modules that asn1c reads of wireshark's grammar of TCAP and the ITU's dialogue PDUs:
for_asn1c.py FROM TO. In place of what wireshark adapted to its own needs stands what Q.773 has: the
dialogue portion is an EXTERNAL, and the code of an error is local or global."""

import re
import sys


def changed(text, pattern, put):
    """The text with the one place of a pattern changed."""
    text, count = re.subn(pattern, put, text, flags=re.DOTALL)
    if count != 1:
        sys.exit(f"for_asn1c.py: the grammar has {count} places like {pattern!r}")
    return text


def main(source, target):
    text = open(f"{source}/tcap.asn").read()
    text = changed(text, r"ExternalPDU ::=.*?-- End WS", "")
    text = changed(text, r"IMPLICIT DialogueOC\s+DialogueOC ::= OCTET STRING", "EXPLICIT EXTERNAL")
    text = changed(text, r"ErrorCode ::= CHOICE\s*\{.*?\}\s*END", "ErrorCode ::= ERROR\nEND")
    text = changed(text, r"BEGIN\s+--EXPORTS", "BEGIN\nIMPORTS External FROM ExternalType;\n--EXPORTS")
    texts = {"TCAPMessages": text}
    for name in ("DialoguePDUs", "UnidialoguePDUs"):
        text = open(f"{source}/{name}.asn").read()
        texts[name] = changed(text, r"(EXPORTS [^;]*;)", r"\1\nIMPORTS External FROM ExternalType;")
    for name, text in texts.items():
        with open(f"{target}/{name}.asn", "w") as module:
            module.write(text.replace("EXTERNAL", "External"))


main(*sys.argv[1:])
