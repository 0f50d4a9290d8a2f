"""The text of outputs (docs/FORMATS.md, play: the answers)."""
from __future__ import annotations

import tcap
from tcap import Dialogue, Local

PROBLEMS = ("general", "invoke", "result", "error")
DROPS = ("toolong", "badmessage", "nodialogue", "baddialogue")
OWN_CAUSES = {256: "abnormal", 257: "nocommon", 258: "idle"}


def hexed(octets: bytes | None) -> str:
    return octets.hex() if octets else "-"


def dash(value: int | None) -> str:
    return "-" if value is None else str(value)


def place(dialogue: Dialogue | None) -> str:
    return "-" if dialogue is None else str(dialogue.id)


def coded(code: tcap.Code | None, parameter: bytes | None) -> str:
    match code:
        case Local(value):
            return f"local {value} param {hexed(parameter)}"
        case tcap.Global(octets):
            return f"global {octets.hex()} param {hexed(parameter)}"
    return f"- param {hexed(parameter)}"


def pdu_text(pdu: tcap.Pdu | None) -> str:
    def version(of: tcap.Aarq | tcap.Audt | tcap.Aare) -> str:
        return f"version {'yes' if of.is_version1 else 'no'} context {hexed(of.context)}"

    match pdu:
        case tcap.Aarq(info=info):
            return f"aarq {version(pdu)} info {hexed(info)}"
        case tcap.Audt(info=info):
            return f"audt {version(pdu)} info {hexed(info)}"
        case tcap.Aare(info=info, is_accepted=accepted, diagnostic=number):
            source = "user" if number < 256 else "provider"
            return f"aare {version(pdu)} result {0 if accepted else 1} {source} {number % 256} info {hexed(info)}"
        case tcap.Abrt(info, by_provider):
            return f"abrt {'provider' if by_provider else 'user'} info {hexed(info)}"
        case tcap.Foreign(external):
            return f"foreign {external.hex()}"
    return "-"


def reject_text(o: tcap.LRejectInd | tcap.RRejectInd | tcap.URejectInd, by: str) -> str:
    problem = f"{PROBLEMS[o.problem // 256]} {o.problem % 256}"
    if o.number is not None:
        return f"rejected {place(o.dialogue)} id {dash(o.invoke_id)} number {o.number} {problem} by {by}"
    text = f"{place(o.dialogue)} id {dash(o.invoke_id)} {problem}"
    return f"localreject {text}" if by == "local" else f"remotereject {text} by {by}"


def text_of(o: tcap.Output) -> str:
    """The words of an output, but of Send."""
    match o:
        case tcap.UniInd(context, info):
            return f"uni context {hexed(context)} info {hexed(info)}"
        case tcap.BeginInd(d, context, info):
            return f"begin {d.id} context {hexed(context)} info {hexed(info)}"
        case tcap.ContinueInd(d, context, info):
            return f"continue {d.id} context {hexed(context)} info {hexed(info)}"
        case tcap.EndInd(d, context, info):
            return f"end {d.id} context {hexed(context)} info {hexed(info)}"
        case tcap.UAbortInd(d, pdu):
            return f"uabort {d.id} {pdu_text(pdu)}"
        case tcap.PAbortInd(d, cause):
            return f"pabort {d.id} {OWN_CAUSES.get(cause) or f'cause {int(cause)}'}"
        case tcap.InvokeInd(d2, i, linked, code, p):
            return f"invoked {place(d2)} id {i} linked {dash(linked)} op {coded(code, p)}"
        case tcap.ResultLInd(d, n, i, result, p):
            return f"last {d.id} id {i} number {n} op {coded(result, p)}"
        case tcap.ResultNLInd(d, n, i, result, p):
            return f"more {d.id} id {i} number {n} op {coded(result, p)}"
        case tcap.UErrorInd(d, n, i, code, p):
            return f"error {d.id} id {i} number {n} code {coded(code, p)}"
        case tcap.LCancelInd(d, n, i):
            return f"lapsed {d.id} id {i} number {n}"
        case tcap.ClosedInd(d, n, i):
            return f"ended {d.id} id {i} number {n}"
        case tcap.LRejectInd():
            return reject_text(o, "local")
        case tcap.RRejectInd():
            return reject_text(o, "provider")
        case tcap.URejectInd():
            return reject_text(o, "user")
        case tcap.Dropped(cause):
            return f"dropped {DROPS[cause]}"
    return repr(o)
