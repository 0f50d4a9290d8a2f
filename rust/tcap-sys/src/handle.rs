//! An engine of C.

use crate::ffi::{self, tcap_limits, tcap_output};
use crate::given::{code, id, octets, portion};
use crate::{done, is_enough, version, GivenCode, GivenPortion, OutputRef, Refused, OTHER_LIBRARY};
use std::os::raw::c_int;
use std::ptr::{null, null_mut, NonNull};

/// An engine of C, and the output that it popped last.
#[derive(Debug)]
pub struct Handle {
    engine: NonNull<ffi::tcap>,
    output: *const tcap_output,
}

// SAFETY: an engine may go from one thread to another; two engines share nothing (tcap.h, Threads).
unsafe impl Send for Handle {}

// In each call below: the pointer is an engine that `tcap_open` gave and only `drop` closes; no other call of it runs,
// since `Handle` isn't `Sync`; slices outlive the call, and so do the variables that C writes.
impl Handle {
    /// `tcap_open`. `OTHER_LIBRARY`, before any other call: its structs may be others.
    pub fn open(limits: &tcap_limits) -> Result<Handle, Refused> {
        Handle::open_at(version(), limits)
    }

    /// The same at a library of this version.
    fn open_at(version: u32, limits: &tcap_limits) -> Result<Handle, Refused> {
        if !is_enough(version) {
            return Err(OTHER_LIBRARY);
        }
        #[cfg(feature = "refusing")]
        crate::refusing::install();
        let mut limits = *limits;
        limits.size = std::mem::size_of::<tcap_limits>();
        let mut engine = null_mut();
        // SAFETY: both pointers are of variables here, and the size is that of the struct.
        done(unsafe { ffi::tcap_open(&mut engine, &limits) })?;
        let engine = NonNull::new(engine).expect("tcap_open answered TCAP_OK, so it gave an engine");
        Ok(Handle { engine, output: null() })
    }

    fn at(&self) -> *mut ffi::tcap {
        self.engine.as_ptr()
    }

    /// `tcap_receive`.
    pub fn receive(&self, now_ms: u64, from: &[u8], message: &[u8]) -> Result<(), Refused> {
        // SAFETY: see above.
        done(unsafe { ffi::tcap_receive(self.at(), now_ms, octets(from), octets(message)) })
    }

    /// `tcap_advance`.
    pub fn advance(&self, now_ms: u64) -> Result<(), Refused> {
        // SAFETY: see above.
        done(unsafe { ffi::tcap_advance(self.at(), now_ms) })
    }

    /// `tcap_next_timer`, `None` for `TCAP_NEVER`.
    pub fn next_timer(&self) -> Option<u64> {
        // SAFETY: see above.
        let at = unsafe { ffi::tcap_next_timer(self.at()) };
        if at == ffi::TCAP_NEVER {
            None
        } else {
            Some(at)
        }
    }

    /// `tcap_new_dialogue`.
    pub fn new_dialogue(&self) -> Result<u32, Refused> {
        let mut dialogue = 0;
        // SAFETY: see above.
        done(unsafe { ffi::tcap_new_dialogue(self.at(), &mut dialogue) }).map(|()| dialogue)
    }

    /// `tcap_invoke`.
    #[allow(clippy::too_many_arguments)] // as tcap.h has them
    pub fn invoke(
        &self,
        dialogue: u32,
        invoke_id: i8,
        linked_id: Option<i8>,
        op_class: u8,
        operation: GivenCode<'_>,
        parameter: &[u8],
        timeout_ms: u64,
    ) -> Result<u64, Refused> {
        let mut number = 0;
        // SAFETY: see above.
        let status = unsafe {
            ffi::tcap_invoke(
                self.at(),
                dialogue,
                c_int::from(invoke_id),
                id(linked_id),
                c_int::from(op_class),
                code(operation),
                octets(parameter),
                timeout_ms,
                &mut number,
            )
        };
        done(status).map(|()| number)
    }

    /// `tcap_result_l`.
    pub fn result_l(
        &self,
        dialogue: u32,
        invoke_id: i8,
        operation: GivenCode<'_>,
        parameter: &[u8],
    ) -> Result<(), Refused> {
        let (operation, parameter) = (code(operation), octets(parameter));
        // SAFETY: see above.
        done(unsafe { ffi::tcap_result_l(self.at(), dialogue, c_int::from(invoke_id), operation, parameter) })
    }

    /// `tcap_result_nl`.
    pub fn result_nl(
        &self,
        dialogue: u32,
        invoke_id: i8,
        operation: GivenCode<'_>,
        parameter: &[u8],
    ) -> Result<(), Refused> {
        let (operation, parameter) = (code(operation), octets(parameter));
        // SAFETY: see above.
        done(unsafe { ffi::tcap_result_nl(self.at(), dialogue, c_int::from(invoke_id), operation, parameter) })
    }

    /// `tcap_u_error`.
    pub fn u_error(&self, dialogue: u32, invoke_id: i8, error: GivenCode<'_>, parameter: &[u8]) -> Result<(), Refused> {
        let (error, parameter) = (code(error), octets(parameter));
        // SAFETY: see above.
        done(unsafe { ffi::tcap_u_error(self.at(), dialogue, c_int::from(invoke_id), error, parameter) })
    }

    /// `tcap_u_reject`.
    pub fn u_reject(&self, dialogue: u32, invoke_id: Option<i8>, problem: u16) -> Result<(), Refused> {
        // SAFETY: see above.
        done(unsafe { ffi::tcap_u_reject(self.at(), dialogue, id(invoke_id), c_int::from(problem)) })
    }

    /// `tcap_u_cancel`.
    pub fn u_cancel(&self, dialogue: u32, invoke_id: i8) -> Result<u64, Refused> {
        let mut number = 0;
        // SAFETY: see above.
        done(unsafe { ffi::tcap_u_cancel(self.at(), dialogue, c_int::from(invoke_id), &mut number) }).map(|()| number)
    }

    /// `tcap_uni`.
    pub fn uni(&self, now_ms: u64, dialogue: u32, to: &[u8], with: GivenPortion<'_>) -> Result<(), Refused> {
        // SAFETY: see above.
        done(unsafe { ffi::tcap_uni(self.at(), now_ms, dialogue, octets(to), &portion(with)) })
    }

    /// `tcap_begin`.
    pub fn begin(&self, now_ms: u64, dialogue: u32, to: &[u8], with: GivenPortion<'_>) -> Result<(), Refused> {
        // SAFETY: see above.
        done(unsafe { ffi::tcap_begin(self.at(), now_ms, dialogue, octets(to), &portion(with)) })
    }

    /// `tcap_continue`.
    pub fn go_on(&self, now_ms: u64, dialogue: u32, with: GivenPortion<'_>) -> Result<(), Refused> {
        // SAFETY: see above.
        done(unsafe { ffi::tcap_continue(self.at(), now_ms, dialogue, &portion(with)) })
    }

    /// `tcap_end`; `termination`: 0 basic, 1 prearranged.
    pub fn end(&self, now_ms: u64, dialogue: u32, termination: u8, with: GivenPortion<'_>) -> Result<(), Refused> {
        // SAFETY: see above.
        done(unsafe { ffi::tcap_end(self.at(), now_ms, dialogue, c_int::from(termination), &portion(with)) })
    }

    /// `tcap_u_abort`; `reason`: 0 user specific, 1 context not supported.
    pub fn u_abort(&self, now_ms: u64, dialogue: u32, reason: u8, info: &[u8]) -> Result<(), Refused> {
        // SAFETY: see above.
        done(unsafe { ffi::tcap_u_abort(self.at(), now_ms, dialogue, c_int::from(reason), octets(info)) })
    }

    /// `tcap_next`, whose output `popped` answers; whether there was one.
    pub fn pop(&mut self) -> bool {
        // SAFETY: see above.
        self.output = unsafe { ffi::tcap_next(self.at()) };
        !self.output.is_null()
    }

    /// The output that was popped last, if the last `pop` found one. It ends where the next one is popped:
    ///
    /// ```
    /// fn last(handle: &mut tcap_sys::Handle) -> Option<u8> {
    ///     handle.pop();
    ///     let output = handle.popped();
    ///     output.map(|output| output.kind)
    /// }
    /// ```
    /// ```compile_fail,E0502
    /// fn last(handle: &mut tcap_sys::Handle) -> Option<u8> {
    ///     let output = handle.popped();
    ///     handle.pop();
    ///     output.map(|output| output.kind)
    /// }
    /// ```
    pub fn popped(&self) -> Option<OutputRef<'_>> {
        // SAFETY: it is null, or what `tcap_next` answered last. That is valid until the next `tcap_next`, for which `pop`
        // needs the handle by `&mut`, or `tcap_close`, for which `drop` does; so for as long as this borrow.
        unsafe { self.output.as_ref().map(|output| OutputRef::new(output)) }
    }

    /// `tcap_state_of`.
    pub fn state_of(&self, dialogue: u32) -> i32 {
        // SAFETY: see above.
        unsafe { ffi::tcap_state_of(self.at(), dialogue) }
    }

    /// `tcap_dialogues`.
    pub fn dialogues(&self) -> usize {
        // SAFETY: see above.
        unsafe { ffi::tcap_dialogues(self.at()) }
    }

    /// `tcap_due`.
    pub fn due(&self, now_ms: u64) -> usize {
        // SAFETY: see above.
        unsafe { ffi::tcap_due(self.at(), now_ms) }
    }

    /// `tcap_next_identifiers`.
    pub fn next_identifiers(&self) -> (u32, u64) {
        let (mut dialogue, mut number) = (0, 0);
        // SAFETY: see above. No pointer is null, so it isn't refused.
        let status = unsafe { ffi::tcap_next_identifiers(self.at(), &mut dialogue, &mut number) };
        debug_assert_eq!(status, 0);
        (dialogue, number)
    }
}

impl Drop for Handle {
    fn drop(&mut self) {
        // SAFETY: see above. Nobody has the pointer any more.
        unsafe { ffi::tcap_close(self.at()) }
    }
}

#[cfg(test)]
mod tests;
