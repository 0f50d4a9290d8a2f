//! What an engine wants sent and tells.

use crate::values::{Code, DropCause, Portion};
use tcap_sys::OutputRef;

/// The dialogue PDU of an Abort by the user (Q.773, Dialogue portion).
#[derive(Clone, Copy, Debug, PartialEq, Eq, Hash)]
#[allow(missing_docs)] // fields: as tcap.h names them
#[non_exhaustive]
pub enum Pdu<'a> {
    /// A dialogue request.
    Aarq { portion: Portion<'a>, is_version1: bool },
    /// A unidirectional dialogue.
    Audt { portion: Portion<'a>, is_version1: bool },
    /// A dialogue response. `diagnostic`: of [`crate::diagnostic`], or another number of its source.
    Aare { portion: Portion<'a>, is_version1: bool, is_accepted: bool, diagnostic: u16 },
    /// A dialogue abort, by the user or by the dialogue service provider.
    Abrt { info: &'a [u8], is_by_provider: bool },
    /// An EXTERNAL of another abstract syntax, whole.
    Foreign { external: &'a [u8] },
    /// A PDU of a newer library, by its number there.
    Other { pdu: u8 },
}

/// An output, by Q.771's names. Its octets are those of the engine, for as long as it is looked at.
///
/// `dialogue` is `None` in a Unidirectional. `number` is that of the invocation, as [`crate::Engine::invoke`] gave it;
/// in a Reject it is that of the invocation that is closed, `None` where it closes none. `problem`: of
/// [`crate::problem`], or another code of its kind.
#[derive(Clone, Copy, Debug, PartialEq, Eq, Hash)]
#[allow(missing_docs)] // fields: as tcap.h names them
#[non_exhaustive]
pub enum Output<'a> {
    /// A message to be sent: an N-UNITDATA request.
    Send { address: &'a [u8], message: &'a [u8] },
    /// TC-UNI indication: its components follow, with no dialogue.
    UniInd { portion: Portion<'a> },
    /// TC-BEGIN indication.
    BeginInd { dialogue: u32, portion: Portion<'a> },
    /// TC-CONTINUE indication.
    ContinueInd { dialogue: u32, portion: Portion<'a> },
    /// TC-END indication.
    EndInd { dialogue: u32, portion: Portion<'a> },
    /// TC-U-ABORT indication.
    UAbortInd { dialogue: u32, pdu: Option<Pdu<'a>> },
    /// TC-P-ABORT indication. `cause`: of [`crate::abort_cause`], or another number to 255 as received.
    PAbortInd { dialogue: u32, cause: u16 },
    /// TC-INVOKE indication.
    InvokeInd {
        dialogue: Option<u32>,
        invoke_id: i8,
        linked_id: Option<i8>,
        code: Code<'a>,
        parameter: Option<&'a [u8]>,
    },
    /// TC-RESULT-L indication: the last or only result. `code`: `None` where it has no body.
    ResultLInd { dialogue: u32, number: u64, invoke_id: i8, code: Option<Code<'a>>, parameter: Option<&'a [u8]> },
    /// TC-RESULT-NL indication: a result that others follow.
    ResultNLInd { dialogue: u32, number: u64, invoke_id: i8, code: Option<Code<'a>>, parameter: Option<&'a [u8]> },
    /// TC-U-ERROR indication.
    UErrorInd { dialogue: u32, number: u64, invoke_id: i8, code: Code<'a>, parameter: Option<&'a [u8]> },
    /// TC-L-CANCEL indication: the timer of the invocation ran out.
    LCancelInd { dialogue: u32, number: u64, invoke_id: i8 },
    /// (own) The dialogue of an open invocation is over.
    ClosedInd { dialogue: u32, number: u64, invoke_id: i8 },
    /// TC-L-REJECT indication: by the component sublayer here.
    LRejectInd { dialogue: Option<u32>, invoke_id: Option<i8>, problem: u16, number: Option<u64> },
    /// TC-R-REJECT indication: by that of the peer.
    RRejectInd { dialogue: Option<u32>, invoke_id: Option<i8>, problem: u16, number: Option<u64> },
    /// TC-U-REJECT indication: by the peer's user.
    URejectInd { dialogue: Option<u32>, invoke_id: Option<i8>, problem: u16, number: Option<u64> },
    /// (own) A message was dropped.
    Dropped { cause: DropCause },
    /// An output of a newer library, by the number of its kind there.
    Other { kind: u8 },
}

fn id_of(value: i16) -> Option<i8> {
    i8::try_from(value).ok()
}

fn code_of(of: OutputRef<'_>) -> Option<Code<'_>> {
    match of.code.kind {
        tcap_sys::ffi::TCAP_LOCAL => Some(Code::Local(of.code.local)),
        tcap_sys::ffi::TCAP_GLOBAL => Some(Code::Global(of.global())),
        _ => None,
    }
}

fn portion_of(of: OutputRef<'_>) -> Portion<'_> {
    Portion { context: of.context(), info: of.info() }
}

fn pdu_of(of: OutputRef<'_>) -> Option<Pdu<'_>> {
    let (portion, is_version1) = (portion_of(of), of.is_version1 != 0);
    match of.pdu {
        0 => None,
        1 => Some(Pdu::Aarq { portion, is_version1 }),
        2 => Some(Pdu::Audt { portion, is_version1 }),
        3 => {
            let (is_accepted, diagnostic) = (of.is_accepted != 0, of.diagnostic);
            Some(Pdu::Aare { portion, is_version1, is_accepted, diagnostic })
        }
        4 => Some(Pdu::Abrt { info: of.info(), is_by_provider: of.is_by_provider != 0 }),
        5 => Some(Pdu::Foreign { external: of.info() }),
        pdu => Some(Pdu::Other { pdu }),
    }
}

fn drop_cause_of(cause: u16) -> DropCause {
    match cause {
        0 => DropCause::TooLong,
        1 => DropCause::BadMessage,
        2 => DropCause::NoDialogue,
        3 => DropCause::BadDialogue,
        other => DropCause::Other(other),
    }
}

/// An output of dialogue handling, or another that has no invocation.
fn of_dialogue(of: OutputRef<'_>) -> Output<'_> {
    let (dialogue, portion) = (of.dialogue, portion_of(of));
    match of.kind {
        1 => Output::Send { address: of.address(), message: of.message() },
        2 => Output::UniInd { portion },
        3 => Output::BeginInd { dialogue, portion },
        4 => Output::ContinueInd { dialogue, portion },
        5 => Output::EndInd { dialogue, portion },
        6 => Output::UAbortInd { dialogue, pdu: pdu_of(of) },
        7 => Output::PAbortInd { dialogue, cause: of.cause },
        17 => Output::Dropped { cause: drop_cause_of(of.cause) },
        kind => Output::Other { kind },
    }
}

/// An output of component handling that names an invocation, whose identifier it has then.
fn of_invocation(of: OutputRef<'_>, invoke_id: i8) -> Option<Output<'_>> {
    let (dialogue, number, parameter) = (of.dialogue, of.number, of.parameter());
    let code = code_of(of);
    Some(match of.kind {
        8 => {
            let (dialogue, linked_id) = (Some(dialogue).filter(|id| *id != 0), id_of(of.linked_id));
            Output::InvokeInd { dialogue, invoke_id, linked_id, code: code?, parameter }
        }
        9 => Output::ResultLInd { dialogue, number, invoke_id, code, parameter },
        10 => Output::ResultNLInd { dialogue, number, invoke_id, code, parameter },
        11 => Output::UErrorInd { dialogue, number, invoke_id, code: code?, parameter },
        12 => Output::LCancelInd { dialogue, number, invoke_id },
        13 => Output::ClosedInd { dialogue, number, invoke_id },
        _ => return None,
    })
}

/// A Reject.
fn of_reject(of: OutputRef<'_>) -> Option<Output<'_>> {
    let (dialogue, invoke_id) = (Some(of.dialogue).filter(|id| *id != 0), id_of(of.invoke_id));
    let (problem, number) = (of.problem, Some(of.number).filter(|_| of.closes != 0));
    Some(match of.kind {
        14 => Output::LRejectInd { dialogue, invoke_id, problem, number },
        15 => Output::RRejectInd { dialogue, invoke_id, problem, number },
        16 => Output::URejectInd { dialogue, invoke_id, problem, number },
        _ => return None,
    })
}

/// An output of C as one of Rust.
pub(crate) fn output_of(of: OutputRef<'_>) -> Output<'_> {
    let named = id_of(of.invoke_id).and_then(|invoke_id| of_invocation(of, invoke_id));
    named.or_else(|| of_reject(of)).unwrap_or_else(|| of_dialogue(of))
}

/// Numbers of tcap.h, each other than the rest. That octets are told from the fields that have them is seen by the stories.
#[cfg(test)]
mod tests {
    use super::*;
    use std::ptr::null;
    use tcap_sys::ffi::{tcap_code, tcap_octets, tcap_portion};
    use tcap_sys::tcap_output;

    fn made() -> tcap_output {
        let octets = tcap_octets { at: null(), len: 0 };
        tcap_output {
            event: 11,
            number: 12,
            address: octets,
            message: octets,
            portion: tcap_portion { context: octets, info: octets },
            code: tcap_code { kind: 1, local: 13, global: octets },
            parameter: octets,
            dialogue: 14,
            invoke_id: -15,
            linked_id: 16,
            problem: 0x102,
            cause: 1,
            diagnostic: 257,
            kind: 6,
            pdu: 0,
            closes: 1,
            is_last: 0,
            has_context: 1,
            has_parameter: 0,
            is_version1: 1,
            is_accepted: 0,
            is_by_provider: 0,
        }
    }

    fn told(output: tcap_output) -> String {
        format!("{:?}", output_of(OutputRef::of_numbers(&output).unwrap()))
    }

    #[test]
    fn each_kind_is_told() {
        let (code, portion) = ("Local(13)", "portion: Portion { context: Some([]), info: [] }");
        let invoked = "dialogue: Some(14), invoke_id: -15, linked_id: Some(16)";
        let invocation = "dialogue: 14, number: 12, invoke_id: -15";
        let result = format!("{}, code: Some({}), parameter: None", invocation, code);
        let reject = "dialogue: Some(14), invoke_id: Some(-15), problem: 258, number: Some(12)";
        let rows = [
            (1, "Send { address: [], message: [] }".to_string()),
            (2, format!("UniInd {{ {} }}", portion)),
            (3, format!("BeginInd {{ dialogue: 14, {} }}", portion)),
            (4, format!("ContinueInd {{ dialogue: 14, {} }}", portion)),
            (5, format!("EndInd {{ dialogue: 14, {} }}", portion)),
            (6, "UAbortInd { dialogue: 14, pdu: None }".to_string()),
            (7, "PAbortInd { dialogue: 14, cause: 1 }".to_string()),
            (8, format!("InvokeInd {{ {}, code: {}, parameter: None }}", invoked, code)),
            (9, format!("ResultLInd {{ {} }}", result)),
            (10, format!("ResultNLInd {{ {} }}", result)),
            (11, format!("UErrorInd {{ {}, code: {}, parameter: None }}", invocation, code)),
            (12, format!("LCancelInd {{ {} }}", invocation)),
            (13, format!("ClosedInd {{ {} }}", invocation)),
            (14, format!("LRejectInd {{ {} }}", reject)),
            (15, format!("RRejectInd {{ {} }}", reject)),
            (16, format!("URejectInd {{ {} }}", reject)),
            (17, "Dropped { cause: BadMessage }".to_string()),
            (18, "Other { kind: 18 }".to_string()),
        ];
        for (kind, text) in rows {
            assert_eq!(told(tcap_output { kind, ..made() }), text);
        }
        for (cause, name) in ["TooLong", "BadMessage", "NoDialogue", "BadDialogue", "Other(4)"].iter().enumerate() {
            let output = tcap_output { kind: 17, cause: cause as u16, ..made() };
            assert_eq!(told(output), format!("Dropped {{ cause: {} }}", name));
        }
    }

    #[test]
    fn each_pdu_of_an_abort_is_told() {
        let portion = Portion { context: Some(&[]), info: &[] };
        let (absent, is_version1, diagnostic) = (Portion::default(), true, 257);
        let external: &[u8] = &[];
        let rows = [
            (made(), None),
            (tcap_output { pdu: 1, ..made() }, Some(Pdu::Aarq { portion, is_version1 })),
            (tcap_output { pdu: 2, ..made() }, Some(Pdu::Audt { portion, is_version1 })),
            (
                tcap_output { pdu: 2, has_context: 0, is_version1: 0, ..made() },
                Some(Pdu::Audt { portion: absent, is_version1: false }),
            ),
            (
                tcap_output { pdu: 3, ..made() },
                Some(Pdu::Aare { portion, is_version1, is_accepted: false, diagnostic }),
            ),
            (
                tcap_output { pdu: 3, is_accepted: 1, is_version1: 0, ..made() },
                Some(Pdu::Aare { portion, is_version1: false, is_accepted: true, diagnostic }),
            ),
            (tcap_output { pdu: 4, ..made() }, Some(Pdu::Abrt { info: &[], is_by_provider: false })),
            (tcap_output { pdu: 4, is_by_provider: 1, ..made() }, Some(Pdu::Abrt { info: &[], is_by_provider: true })),
            (tcap_output { pdu: 5, ..made() }, Some(Pdu::Foreign { external })),
            (tcap_output { pdu: 6, ..made() }, Some(Pdu::Other { pdu: 6 })),
        ];
        for (output, pdu) in rows {
            assert_eq!(told(output), format!("{:?}", Output::UAbortInd { dialogue: 14, pdu }));
        }
    }
}
