//! An output of C.

use crate::ffi::{tcap_octets, tcap_output};
use std::ops::Deref;

/// An output, for as long as C keeps it: its numbers by `Deref`, its octets by the methods.
#[derive(Clone, Copy, Debug)]
pub struct OutputRef<'a>(&'a tcap_output);

impl<'a> OutputRef<'a> {
    /// # Safety
    /// C made the output, and keeps its octets for `'a`.
    pub(crate) unsafe fn new(output: &'a tcap_output) -> OutputRef<'a> {
        OutputRef(output)
    }

    /// An output that has numbers alone, as a test of what reads outputs makes it; `None` where one of its lengths isn't 0.
    pub fn of_numbers(output: &'a tcap_output) -> Option<OutputRef<'a>> {
        let (portion, code) = (&output.portion, &output.code);
        let octets = [output.address, output.message, portion.context, portion.info, code.global, output.parameter];
        octets.iter().all(|of| of.len == 0).then_some(OutputRef(output))
    }

    /// Octets of this output.
    fn octets(self, of: tcap_octets) -> &'a [u8] {
        if of.len == 0 {
            return &[];
        }
        // SAFETY: C keeps these octets for 'a (see `new`).
        unsafe { std::slice::from_raw_parts(of.at, of.len) }
    }

    /// `address`.
    pub fn address(self) -> &'a [u8] {
        self.octets(self.0.address)
    }

    /// `message`.
    pub fn message(self) -> &'a [u8] {
        self.octets(self.0.message)
    }

    /// `portion.context`, `None` where `has_context` is 0.
    pub fn context(self) -> Option<&'a [u8]> {
        (self.0.has_context != 0).then(|| self.octets(self.0.portion.context))
    }

    /// `portion.info`.
    pub fn info(self) -> &'a [u8] {
        self.octets(self.0.portion.info)
    }

    /// `code.global`.
    pub fn global(self) -> &'a [u8] {
        self.octets(self.0.code.global)
    }

    /// `parameter`, `None` where `has_parameter` is 0.
    pub fn parameter(self) -> Option<&'a [u8]> {
        (self.0.has_parameter != 0).then(|| self.octets(self.0.parameter))
    }
}

impl Deref for OutputRef<'_> {
    type Target = tcap_output;

    fn deref(&self) -> &tcap_output {
        self.0
    }
}
