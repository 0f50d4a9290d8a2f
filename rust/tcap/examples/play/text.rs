//! The text of outputs.

use tcap::{abort_cause, Code, DropCause, Output, Pdu, Portion};

pub const PROBLEMS: [&str; 4] = ["general", "invoke", "result", "error"];

pub fn hexed(octets: &[u8]) -> String {
    match octets {
        [] => "-".into(),
        some => some.iter().map(|octet| format!("{:02x}", octet)).collect(),
    }
}

fn optional(octets: Option<&[u8]>) -> String {
    hexed(octets.unwrap_or_default())
}

fn dash<T: ToString>(value: Option<T>) -> String {
    value.map_or("-".into(), |value| value.to_string())
}

fn portioned(of: Portion<'_>) -> String {
    format!("context {} info {}", optional(of.context), hexed(of.info))
}

fn coded(code: Option<Code<'_>>, parameter: Option<&[u8]>) -> String {
    let words = match code {
        Some(Code::Local(value)) => format!("local {}", value),
        Some(Code::Global(octets)) => format!("global {}", hexed(octets)),
        None => "-".into(),
    };
    format!("{} param {}", words, optional(parameter))
}

fn version(is_version1: bool) -> &'static str {
    if is_version1 {
        "version yes"
    } else {
        "version no"
    }
}

fn pdu_text(pdu: Option<Pdu<'_>>) -> String {
    match pdu {
        None => "-".into(),
        Some(Pdu::Aarq { portion, is_version1 }) => format!("aarq {} {}", version(is_version1), portioned(portion)),
        Some(Pdu::Audt { portion, is_version1 }) => format!("audt {} {}", version(is_version1), portioned(portion)),
        Some(Pdu::Aare { portion, is_version1, is_accepted, diagnostic }) => {
            let source = if diagnostic < 256 { "user" } else { "provider" };
            let result = format!("result {} {} {}", u8::from(!is_accepted), source, diagnostic % 256);
            let (context, info) = (optional(portion.context), hexed(portion.info));
            format!("aare {} context {} {} info {}", version(is_version1), context, result, info)
        }
        Some(Pdu::Abrt { info, is_by_provider: true }) => format!("abrt provider info {}", hexed(info)),
        Some(Pdu::Abrt { info, is_by_provider: false }) => format!("abrt user info {}", hexed(info)),
        Some(Pdu::Foreign { external }) => format!("foreign {}", hexed(external)),
        Some(other) => format!("{:?}", other),
    }
}

fn cause_text(cause: u16) -> String {
    match cause {
        abort_cause::ABNORMAL_DIALOGUE => "abnormal".into(),
        abort_cause::NO_COMMON_DIALOGUE => "nocommon".into(),
        abort_cause::IDLE => "idle".into(),
        number => format!("cause {}", number),
    }
}

fn reject_text(d: Option<u32>, id: Option<i8>, problem: u16, number: Option<u64>, by: &str) -> String {
    let problem = format!("{} {}", PROBLEMS[usize::from(problem >> 8) % 4], problem % 256);
    let (place, id) = (dash(d), dash(id));
    match number {
        Some(number) => format!("rejected {} id {} number {} {} by {}", place, id, number, problem, by),
        None if by == "local" => format!("localreject {} id {} {}", place, id, problem),
        None => format!("remotereject {} id {} {} by {}", place, id, problem, by),
    }
}

fn drop_text(cause: DropCause) -> &'static str {
    match cause {
        DropCause::TooLong => "toolong",
        DropCause::BadMessage => "badmessage",
        DropCause::NoDialogue => "nodialogue",
        DropCause::BadDialogue => "baddialogue",
        _ => "otherwise",
    }
}

/// The number of its kind in tcap.h; 0 of one that has none there.
pub fn kind_of(output: &Output<'_>) -> i32 {
    match output {
        Output::Send { .. } => 1,
        Output::UniInd { .. } => 2,
        Output::BeginInd { .. } => 3,
        Output::ContinueInd { .. } => 4,
        Output::EndInd { .. } => 5,
        Output::UAbortInd { .. } => 6,
        Output::PAbortInd { .. } => 7,
        Output::InvokeInd { .. } => 8,
        Output::ResultLInd { .. } => 9,
        Output::ResultNLInd { .. } => 10,
        Output::UErrorInd { .. } => 11,
        Output::LCancelInd { .. } => 12,
        Output::ClosedInd { .. } => 13,
        Output::LRejectInd { .. } => 14,
        Output::RRejectInd { .. } => 15,
        Output::URejectInd { .. } => 16,
        Output::Dropped { .. } => 17,
        _ => 0,
    }
}

/// The words of an output, but of `Send`.
pub fn text_of(output: Output<'_>) -> String {
    match output {
        Output::Send { .. } => String::new(),
        Output::UniInd { portion } => format!("uni {}", portioned(portion)),
        Output::BeginInd { dialogue, portion } => format!("begin {} {}", dialogue, portioned(portion)),
        Output::ContinueInd { dialogue, portion } => format!("continue {} {}", dialogue, portioned(portion)),
        Output::EndInd { dialogue, portion } => format!("end {} {}", dialogue, portioned(portion)),
        Output::UAbortInd { dialogue, pdu } => format!("uabort {} {}", dialogue, pdu_text(pdu)),
        Output::PAbortInd { dialogue, cause } => format!("pabort {} {}", dialogue, cause_text(cause)),
        Output::LRejectInd { dialogue, invoke_id, problem, number } => {
            reject_text(dialogue, invoke_id, problem, number, "local")
        }
        Output::RRejectInd { dialogue, invoke_id, problem, number } => {
            reject_text(dialogue, invoke_id, problem, number, "provider")
        }
        Output::URejectInd { dialogue, invoke_id, problem, number } => {
            reject_text(dialogue, invoke_id, problem, number, "user")
        }
        Output::Dropped { cause } => format!("dropped {}", drop_text(cause)),
        of_an_invocation => invocation_text(of_an_invocation),
    }
}

/// The words of an output that names an invocation, but of a Reject.
fn invocation_text(output: Output<'_>) -> String {
    match output {
        Output::InvokeInd { dialogue, invoke_id, linked_id, code, parameter } => {
            let (place, linked) = (dash(dialogue), dash(linked_id));
            format!("invoked {} id {} linked {} op {}", place, invoke_id, linked, coded(Some(code), parameter))
        }
        Output::ResultLInd { dialogue: d, number: n, invoke_id: i, code, parameter } => {
            format!("last {} id {} number {} op {}", d, i, n, coded(code, parameter))
        }
        Output::ResultNLInd { dialogue: d, number: n, invoke_id: i, code, parameter } => {
            format!("more {} id {} number {} op {}", d, i, n, coded(code, parameter))
        }
        Output::UErrorInd { dialogue: d, number: n, invoke_id: i, code, parameter } => {
            format!("error {} id {} number {} code {}", d, i, n, coded(Some(code), parameter))
        }
        Output::LCancelInd { dialogue: d, number, invoke_id } => {
            format!("lapsed {} id {} number {}", d, invoke_id, number)
        }
        Output::ClosedInd { dialogue: d, number, invoke_id } => {
            format!("ended {} id {} number {}", d, invoke_id, number)
        }
        other => format!("{:?}", other),
    }
}
