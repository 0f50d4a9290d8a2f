"""What tshark reads of messages, by its own grammar of TCAP, from the tree that it prints."""

import struct
import subprocess
import sys
import tempfile
import xml.etree.ElementTree as tree

# A capture whose packets are TCAP and nothing below it. tshark knows this link by the number 45, which
# it takes for the subsystem number too; the users of that subsystem are turned off, so that it reads
# components by its own grammar of TCAP, and not by that of an operation's users.
USER_LINK = 147
OPTIONS = ["-o", 'uat:user_dlts:"User 0 (DLT=147)","tcap","0","","0",""', "-o", "gsm_map.tcap.ssn:45"]
for name in ("gsm_map", "camel", "inap"):
    OPTIONS += ["--disable-protocol", name]

KINDS = ["unidirectional", "begin", "end", "continue", "abort"]
PDUS = {"dialogueRequest": "aarq", "dialogueResponse": "aare", "dialogueAbort": "abrt"}
STRUCTURED, UNSTRUCTURED = "00118605010101", "00118605010201"
PROBLEMS = {
    "generalProblem": "general",
    "invokeProblem": "invoke",
    "returnResultProblem": "result",
    "returnErrorProblem": "error",
}


def read(messages):
    """What tshark says of each message: its fields, joined by "|", or "refused" and why."""
    with tempfile.NamedTemporaryFile(prefix="tcap-messages-", suffix=".pcap") as file:
        write_capture(file, messages)
        return packets(file.name, messages)


def write_capture(file, messages):
    """Writes a capture of messages, each a packet."""
    file.write(struct.pack("<IHHiIII", 0xA1B2C3D4, 2, 4, 0, 0, 0x40000, USER_LINK))
    for message in messages:
        file.write(struct.pack("<IIII", 0, 0, len(message), len(message)) + message)
    file.flush()


def packets(capture, messages):
    """What tshark says of each message of a capture."""
    words = ["tshark", "-n", "-r", capture, "-T", "pdml", *OPTIONS]
    with subprocess.Popen(words, stdout=subprocess.PIPE, stderr=subprocess.DEVNULL) as process:
        answers = []
        for _, element in tree.iterparse(process.stdout):
            if element.tag == "packet":
                answers.append(packet(element, messages[len(answers)]))
                element.clear()
    if process.returncode or len(answers) != len(messages):
        print(f"tshark read {len(answers)} of {len(messages)} messages, status {process.returncode}", file=sys.stderr)
        sys.exit(2)
    return answers


def packet(element, message):
    for field in element.iter():
        note = field.get("show", "")
        if field.get("name") == "_ws.expert.message" and not note.startswith("BER: Dissector for OID"):
            return "refused " + note
    for field in element.iter():
        name = field.get("name", "")
        if name == "tcap." + name[5:-8] + "_element" and name[5:-8] in KINDS:
            if int(field.get("pos")) + int(field.get("size")) < len(message) - trailing(message):
                return "refused octets after the value"
            return "|".join([name[5:-8]] + list(parts(field, message)))
    return "refused no message"


def trailing(message):
    """The octets of the end of an indefinite message, which the element of the tree doesn't have."""
    return 2 if message[1:2] == b"\x80" else 0


def parts(tree_of, octets):
    """The fields of a message, from its tree and its octets."""
    for name in ("otid", "dtid"):
        for field in tree_of.iter("field"):
            if field.get("name") == "tcap." + name:
                yield f"{name} {field.get('value')}"
    syntax = found(tree_of, "oid")
    syntax = STRUCTURED if syntax is None else syntax.get("value")
    if syntax not in (STRUCTURED, UNSTRUCTURED):
        yield "foreign"
    for field in tree_of.iter("field"):
        name = field.get("name").removeprefix("tcap.")
        if name == "p_abortCause":
            yield "cause " + field.get("show")
        elif name.removesuffix("_element") in PDUS and syntax in (STRUCTURED, UNSTRUCTURED):
            kind = PDUS[name.removesuffix("_element")]
            # tshark reads each PDU as that of a structured dialogue.
            yield pdu("audt" if kind == "aarq" and syntax == UNSTRUCTURED else kind, field, octets)
        elif name == "Component":
            yield component(field)


def found(holder, name):
    """The field of this name below a holder, or None."""
    return next((f for f in holder.iter("field") if f.get("name") == "tcap." + name), None)


def shown(holder, name):
    field = found(holder, name)
    return "-" if field is None else field.get("show")


def octets_of(holder, name):
    field = found(holder, name)
    return "none" if field is None else field.get("value", "none")


def information(pdu, octets):
    """The octets of user information; of an empty list of indefinite length tshark has the end."""
    field = found(pdu, "user_information")
    if field is None:
        return "-"
    value = field.get("value", "")
    if value == "0000" and octets[int(field.get("pos")) - 1] == 0x80:
        return "-"
    return value or "-"


def pdu(kind, field, octets):
    behind = " info " + information(field, octets)
    if kind == "abrt":
        return f"abrt {shown(field, 'abort_source')}{behind}"
    flag = [f.get("show") for f in field.iter("field") if f.get("name").endswith(".protocol.version.version1")]
    bits = found(field, "protocol_version")
    version = "yes" if bits is None or flag == ["1"] else "no"
    opening = f"{kind} version {version} context {octets_of(field, 'application_context_name')}"
    if kind != "aare":
        return opening + behind
    source = "user" if found(field, "dialogue_service_user") is not None else "provider"
    return f"{opening} result {shown(field, 'result')} {source} {shown(field, f'dialogue_service_{source}')}{behind}"


def component(field):
    kind = next((f.get("name")[5:-8] for f in field.iter("field") if f.get("name").endswith("_element")), "none")
    identifier = shown(field, "invokeID")
    if kind == "invoke":
        return f"invoke {identifier} linked {shown(field, 'linkedID')} op {coded(field, 'opCode')}"
    if kind in ("returnResultLast", "returnResultNotLast"):
        return f"result {'last' if kind == 'returnResultLast' else 'more'} {identifier} op {coded(field, 'opCode')}"
    if kind == "returnError":
        return f"error {identifier} code {coded(field, 'errorCode')}"
    for name, word in PROBLEMS.items():
        if found(field, name) is not None:
            return f"reject {shown(field, 'derivable')} {word} {shown(field, name)}"
    return "none"


def coded(component, name):
    """A code, and the parameter, which stands beside it."""
    for holder in component.iter("field"):
        for number, field in enumerate(holder):
            if field.get("name") == "tcap." + name:
                behind = holder[number + 1].get("value", "none") if number + 1 < len(holder) else "-"
                return f"{code(field)} param {behind}"
    return "- param -"


def code(field):
    if found(field, "localValue") is not None:
        return "local " + shown(field, "localValue")
    return "global " + octets_of(field, "globalValue")
