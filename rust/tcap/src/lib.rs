//! Transaction Capabilities (ITU-T Q.771 to Q.774), by libtcap.
//!
//! An [`Engine`] has no input or output, no clock and no thread. Hand it what happens, and take what it wants sent and
//! tells; requests may be made while an output is looked at:
//!
//! ```
//! use tcap::{Code, Engine, Invoke, Limits, Output, Portion, Waiting};
//!
//! # fn main() -> Result<(), tcap::Error> {
//! let mut vlr = Engine::open(&Limits::default())?;
//! let mut hlr = Engine::open(&Limits::default())?;
//! let now_ms = 0; // by any clock that doesn't go back
//!
//! let dialogue = vlr.new_dialogue()?;
//! let number = vlr.invoke(dialogue, &Invoke::new(1, Code::Local(2), 5000).with(b"\x04\x01\xaa"))?;
//! vlr.begin(now_ms, dialogue, b"hlr", Portion::default())?;
//!
//! while let Some(Waiting { output, .. }) = vlr.next_output() {
//!     if let Output::Send { message, .. } = output {
//!         hlr.receive(now_ms, b"vlr", message)?;
//!     }
//! }
//! while let Some(Waiting { engine, output, .. }) = hlr.next_output() {
//!     match output {
//!         Output::InvokeInd { dialogue: Some(dialogue), invoke_id, code, parameter, .. } => {
//!             engine.result_l(dialogue, invoke_id, Some(code), parameter)?; // while outputs wait
//!             engine.end(now_ms, dialogue, Portion::default())?;
//!         }
//!         Output::Send { message, .. } => vlr.receive(now_ms, b"hlr", message)?,
//!         _ => {}
//!     }
//! }
//! let mut answered = None;
//! while let Some(Waiting { output, .. }) = vlr.next_output() {
//!     if let Output::ResultLInd { number, parameter: Some(parameter), .. } = output {
//!         answered = Some((number, parameter.to_vec()));
//!     }
//! }
//! assert_eq!(answered, Some((number, b"\x04\x01\xaa".to_vec())));
//! # Ok(())
//! # }
//! ```

#![forbid(unsafe_code)]
#![warn(missing_docs)]

mod codec;
mod engine;
mod error;
mod output;
mod values;

pub use codec::{canon, check, front, oid, oid_text, show, TransactionIds};
pub use engine::{Engine, Limits, Waiting};
pub use error::Error;
pub use output::{Output, Pdu};
pub use values::{
    abort_cause, diagnostic, problem, AbortReason, Class, Code, DropCause, Invoke, Portion, State, Termination,
};

/// Memory that a test has refused.
#[cfg(feature = "refusing")]
pub use tcap_sys::refusing;

/// Major, minor and patch of the library.
pub fn library_version() -> (u8, u8, u8) {
    let [_, major, minor, patch] = tcap_sys::version().to_be_bytes();
    (major, minor, patch)
}
