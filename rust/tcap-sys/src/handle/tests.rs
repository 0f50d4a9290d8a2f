//! What a handle adds to the calls of C.

use super::*;

const LIMITS: tcap_limits = tcap_limits {
    size: 0,
    max_dialogues: 65535,
    max_message: 65535,
    reject_ms: 1000,
    idle_ms: 0,
    first_dialogue: 1,
    first_number: 1,
};

#[test]
fn a_library_is_enough_from_the_own_version_to_the_next_major() {
    for (version, enough) in
        [(0x0000ff, false), (0x000100, true), (0x000101, true), (0x00ffff, true), (0x010000, false), (0x010100, false)]
    {
        assert_eq!(is_enough(version), enough, "{:06x}", version);
        let refused = Handle::open_at(version, &LIMITS).err();
        assert_eq!(refused, if enough { None } else { Some(OTHER_LIBRARY) }, "{:06x}", version);
    }
}

/// tcap.h says of `tcap_due` no more than a bound, so that what C answers is what is handed on.
#[test]
fn what_is_due_is_handed_on() {
    let handle = Handle::open(&LIMITS).unwrap();
    let dialogue = handle.new_dialogue().unwrap();
    for invoke_id in 1..=2 {
        handle.invoke(dialogue, invoke_id, None, 1, GivenCode::Local(1), &[], 9).unwrap();
    }
    handle.begin(0, dialogue, b"B", GivenPortion::default()).unwrap();
    // SAFETY: the engine is the handle's.
    let due = unsafe { ffi::tcap_due(handle.at(), 9) };
    assert!(due >= 2);
    assert_eq!((handle.due(8), handle.due(9)), (0, due));
}
