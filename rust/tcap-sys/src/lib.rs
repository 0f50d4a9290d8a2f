//! libtcap's tcap.h and tcap_codec.h ([`ffi`]), and thin calls over it that are safe: [`Handle`], which owns an engine, and
//! [`OutputRef`], an output for as long as C keeps it. All `unsafe` of the two crates stands here, so that `tcap`
//! forbids it; use that one.
//!
//! What makes the calls safe: a `Handle` is one that `tcap_open` gave and nobody else closes; it is `Send`, and not
//! `Sync`, so calls come one at a time; slices are as long as they say. An output is valid until the next `tcap_next` or
//! `tcap_close`, whatever other calls are made: so [`Handle::pop`] takes the handle by `&mut`, and all other calls by `&`,
//! also [`Handle::popped`], which hands out what was popped.

#![deny(unsafe_op_in_unsafe_fn)]
#![warn(missing_docs)]

pub mod codec;
pub mod ffi;
mod given;
mod handle;
mod output;
#[cfg(feature = "refusing")]
pub mod refusing;

pub use ffi::{tcap_ids, tcap_limits, tcap_output};
pub use given::{GivenCode, GivenPortion};
pub use handle::Handle;
pub use output::OutputRef;

use std::ffi::CStr;
use std::os::raw::c_int;

/// A `tcap_status` that isn't `TCAP_OK`, or `OTHER_LIBRARY`.
pub type Refused = i32;

/// In place of a status: the library is older than this crate, or of another MAJOR.
pub const OTHER_LIBRARY: Refused = -1;

fn done(status: c_int) -> Result<(), Refused> {
    match status {
        0 => Ok(()),
        refused => Err(refused),
    }
}

/// `tcap_version`.
pub fn version() -> u32 {
    // SAFETY: it has no premise.
    unsafe { ffi::tcap_version() }
}

/// Whether a library of this version has all that this crate calls and reads.
fn is_enough(version: u32) -> bool {
    version >> 16 == ffi::TCAP_VERSION >> 16 && version >= ffi::TCAP_VERSION
}

/// `tcap_status_text`.
pub fn status_text(status: i32) -> &'static str {
    // SAFETY: it takes any number, and answers a text that ends and stays.
    let text = unsafe { CStr::from_ptr(ffi::tcap_status_text(status)) };
    text.to_str().unwrap_or("")
}
