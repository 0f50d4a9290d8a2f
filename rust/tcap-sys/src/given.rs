//! Arguments as C takes them.

use crate::ffi::{self, tcap_code, tcap_octets, tcap_portion};
use std::os::raw::c_int;

/// A code as C takes it: of a local value, of a global one, none.
#[derive(Clone, Copy, Debug)]
pub enum GivenCode<'a> {
    /// None: only of a result.
    None,
    /// A local value.
    Local(i32),
    /// A global value: contents octets of an object identifier.
    Global(&'a [u8]),
}

/// What a dialogue portion is given: contents octets of the context, and user information; empty: absent.
#[derive(Clone, Copy, Debug, Default)]
pub struct GivenPortion<'a> {
    /// The application context name.
    pub context: &'a [u8],
    /// EXTERNALs.
    pub info: &'a [u8],
}

pub(crate) fn octets(of: &[u8]) -> tcap_octets {
    tcap_octets { at: of.as_ptr(), len: of.len() }
}

pub(crate) fn code(of: GivenCode<'_>) -> tcap_code {
    match of {
        GivenCode::None => tcap_code { kind: ffi::TCAP_NO_CODE, local: 0, global: octets(&[]) },
        GivenCode::Local(local) => tcap_code { kind: ffi::TCAP_LOCAL, local, global: octets(&[]) },
        GivenCode::Global(global) => tcap_code { kind: ffi::TCAP_GLOBAL, local: 0, global: octets(global) },
    }
}

pub(crate) fn portion(of: GivenPortion<'_>) -> tcap_portion {
    tcap_portion { context: octets(of.context), info: octets(of.info) }
}

pub(crate) fn id(of: Option<i8>) -> c_int {
    of.map_or(ffi::TCAP_NO_ID, c_int::from)
}
