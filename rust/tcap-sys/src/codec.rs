//! tcap_codec.h: calls that need no engine.

use crate::ffi::{self, tcap_ids, tcap_octets};
use crate::given::octets;
use crate::{done, Refused};
use std::os::raw::{c_char, c_int};

/// Has a call write into a room, which is made larger where it is too small.
fn roomed(call: impl Fn(&mut [u8], &mut usize) -> c_int) -> Result<Vec<u8>, Refused> {
    let (mut room, mut len) = (vec![0; 4096], 0);
    loop {
        match call(&mut room, &mut len) {
            ffi::TCAP_ROOM_TOO_SMALL => room.resize(len, 0),
            status => {
                done(status)?;
                room.truncate(len);
                return Ok(room);
            }
        }
    }
}

/// `tcap_front`.
pub fn front(message: &[u8]) -> tcap_ids {
    let mut ids = tcap_ids::default();
    // SAFETY: the slice is as long as it says; C writes into a variable here.
    let status = unsafe { ffi::tcap_front(octets(message), &mut ids) };
    debug_assert_eq!(status, 0); // no pointer is null, so it isn't refused
    ids
}

/// `tcap_oid_from_text`.
pub fn oid_from_text(text: &[u8]) -> Result<Vec<u8>, Refused> {
    // SAFETY: slice and room are as long as they say; C writes into the room and a variable.
    roomed(|room, len| unsafe { ffi::tcap_oid_from_text(octets(text), room.as_mut_ptr(), room.len(), len) })
}

/// `tcap_oid_to_text`.
pub fn oid_to_text(oid: &[u8]) -> Result<Vec<u8>, Refused> {
    // SAFETY: as above. A `c_char` is an octet.
    roomed(|room, len| unsafe { ffi::tcap_oid_to_text(octets(oid), room.as_mut_ptr().cast(), room.len(), len) })
}

type Judge = unsafe extern "C" fn(tcap_octets, *mut c_char, usize, *mut usize, *mut c_int) -> c_int;

/// What a call says of a message, and whether its verdict is good.
fn judged(judge: Judge, message: &[u8]) -> Result<(Vec<u8>, bool), Refused> {
    let is_good = std::cell::Cell::new(0);
    // SAFETY: as above; `judge` is one of the three below, which are alike.
    let text = roomed(|room, len| unsafe {
        judge(octets(message), room.as_mut_ptr().cast(), room.len(), len, is_good.as_ptr())
    })?;
    Ok((text, is_good.get() != 0))
}

/// `tcap_show`.
pub fn show(message: &[u8]) -> Result<(Vec<u8>, bool), Refused> {
    judged(ffi::tcap_show, message)
}

/// `tcap_check`.
pub fn check(message: &[u8]) -> Result<(Vec<u8>, bool), Refused> {
    judged(ffi::tcap_check, message)
}

/// `tcap_canon`.
pub fn canon(message: &[u8]) -> Result<(Vec<u8>, bool), Refused> {
    judged(ffi::tcap_canon, message)
}
