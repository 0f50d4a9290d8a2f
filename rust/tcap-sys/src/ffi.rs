//! tcap.h and tcap_codec.h, line by line.

#![allow(non_camel_case_types)]
#![allow(missing_docs)] // tcap.h has them

use std::ffi::c_void;
use std::os::raw::{c_char, c_int};

/// An engine of C, which nobody looks into.
#[repr(C)]
pub struct tcap {
    _private: [u8; 0],
    _not_send: std::marker::PhantomData<*mut u8>,
}

#[repr(C)]
#[derive(Clone, Copy, Debug)]
pub struct tcap_octets {
    pub at: *const u8,
    pub len: usize,
}

#[repr(C)]
#[derive(Clone, Copy, Debug)]
pub struct tcap_code {
    pub kind: c_int,
    pub local: i32,
    pub global: tcap_octets,
}

#[repr(C)]
#[derive(Clone, Copy, Debug)]
pub struct tcap_portion {
    pub context: tcap_octets,
    pub info: tcap_octets,
}

#[repr(C)]
#[derive(Clone, Copy, Debug)]
pub struct tcap_limits {
    pub size: usize,
    pub max_dialogues: u32,
    pub max_message: u32,
    pub reject_ms: u64,
    pub idle_ms: u64,
    pub first_dialogue: u32,
    pub first_number: u64,
}

#[repr(C)]
#[derive(Debug)]
pub struct tcap_output {
    pub event: u64,
    pub number: u64,
    pub address: tcap_octets,
    pub message: tcap_octets,
    pub portion: tcap_portion,
    pub code: tcap_code,
    pub parameter: tcap_octets,
    pub dialogue: u32,
    pub invoke_id: i16,
    pub linked_id: i16,
    pub problem: u16,
    pub cause: u16,
    pub diagnostic: u16,
    pub kind: u8,
    pub pdu: u8,
    pub closes: u8,
    pub is_last: u8,
    pub has_context: u8,
    pub has_parameter: u8,
    pub is_version1: u8,
    pub is_accepted: u8,
    pub is_by_provider: u8,
}

#[repr(C)]
#[derive(Clone, Copy, Debug, Default)]
pub struct tcap_ids {
    pub origin: [u8; 4],
    pub destination: [u8; 4],
    pub origin_len: u8,
    pub destination_len: u8,
}

pub const TCAP_VERSION: u32 = 0x000100;
pub const TCAP_NEVER: u64 = u64::MAX;
pub const TCAP_NO_ID: c_int = 256;
pub const TCAP_NO_CODE: c_int = 0;
pub const TCAP_LOCAL: c_int = 1;
pub const TCAP_GLOBAL: c_int = 2;
pub const TCAP_ROOM_TOO_SMALL: c_int = 19;

pub type take = unsafe extern "C" fn(size: usize) -> *mut c_void;
pub type grow = unsafe extern "C" fn(block: *mut c_void, size: usize) -> *mut c_void;
pub type give_back = unsafe extern "C" fn(block: *mut c_void);

extern "C" {
    pub fn tcap_open(engine: *mut *mut tcap, limits: *const tcap_limits) -> c_int;
    pub fn tcap_close(engine: *mut tcap);
    pub fn tcap_set_memory(take: Option<take>, grow: Option<grow>, give_back: Option<give_back>) -> c_int;
    pub fn tcap_version() -> u32;
    pub fn tcap_status_text(status: c_int) -> *const c_char;
    pub fn tcap_receive(engine: *mut tcap, now_ms: u64, from: tcap_octets, message: tcap_octets) -> c_int;
    pub fn tcap_advance(engine: *mut tcap, now_ms: u64) -> c_int;
    pub fn tcap_next_timer(engine: *const tcap) -> u64;
    pub fn tcap_new_dialogue(engine: *mut tcap, dialogue: *mut u32) -> c_int;
    pub fn tcap_invoke(
        engine: *mut tcap,
        dialogue: u32,
        invoke_id: c_int,
        linked_id: c_int,
        op_class: c_int,
        operation: tcap_code,
        parameter: tcap_octets,
        timeout_ms: u64,
        number: *mut u64,
    ) -> c_int;
    pub fn tcap_result_l(
        engine: *mut tcap,
        dialogue: u32,
        invoke_id: c_int,
        operation: tcap_code,
        parameter: tcap_octets,
    ) -> c_int;
    pub fn tcap_result_nl(
        engine: *mut tcap,
        dialogue: u32,
        invoke_id: c_int,
        operation: tcap_code,
        parameter: tcap_octets,
    ) -> c_int;
    pub fn tcap_u_error(
        engine: *mut tcap,
        dialogue: u32,
        invoke_id: c_int,
        error: tcap_code,
        parameter: tcap_octets,
    ) -> c_int;
    pub fn tcap_u_reject(engine: *mut tcap, dialogue: u32, invoke_id: c_int, problem: c_int) -> c_int;
    pub fn tcap_u_cancel(engine: *mut tcap, dialogue: u32, invoke_id: c_int, number: *mut u64) -> c_int;
    pub fn tcap_uni(
        engine: *mut tcap,
        now_ms: u64,
        dialogue: u32,
        to: tcap_octets,
        portion: *const tcap_portion,
    ) -> c_int;
    pub fn tcap_begin(
        engine: *mut tcap,
        now_ms: u64,
        dialogue: u32,
        to: tcap_octets,
        portion: *const tcap_portion,
    ) -> c_int;
    pub fn tcap_continue(engine: *mut tcap, now_ms: u64, dialogue: u32, portion: *const tcap_portion) -> c_int;
    pub fn tcap_end(
        engine: *mut tcap,
        now_ms: u64,
        dialogue: u32,
        termination: c_int,
        portion: *const tcap_portion,
    ) -> c_int;
    pub fn tcap_u_abort(engine: *mut tcap, now_ms: u64, dialogue: u32, reason: c_int, info: tcap_octets) -> c_int;
    pub fn tcap_next(engine: *mut tcap) -> *const tcap_output;
    pub fn tcap_state_of(engine: *const tcap, dialogue: u32) -> c_int;
    pub fn tcap_dialogues(engine: *const tcap) -> usize;
    pub fn tcap_due(engine: *const tcap, now_ms: u64) -> usize;
    pub fn tcap_next_identifiers(engine: *const tcap, dialogue: *mut u32, number: *mut u64) -> c_int;
    pub fn tcap_front(message: tcap_octets, ids: *mut tcap_ids) -> c_int;
    pub fn tcap_oid_from_text(text: tcap_octets, room: *mut u8, room_len: usize, len: *mut usize) -> c_int;
    pub fn tcap_oid_to_text(oid: tcap_octets, room: *mut c_char, room_len: usize, len: *mut usize) -> c_int;
    pub fn tcap_show(
        message: tcap_octets,
        room: *mut c_char,
        room_len: usize,
        len: *mut usize,
        is_good: *mut c_int,
    ) -> c_int;
    pub fn tcap_check(
        message: tcap_octets,
        room: *mut c_char,
        room_len: usize,
        len: *mut usize,
        is_good: *mut c_int,
    ) -> c_int;
    pub fn tcap_canon(
        message: tcap_octets,
        room: *mut c_char,
        room_len: usize,
        len: *mut usize,
        is_good: *mut c_int,
    ) -> c_int;
}
