//! The library's memory by `malloc`, `realloc` and `free`, counted, and refused on demand: for tests. The feature
//! `refusing` has each engine take it from here; counts are of the whole process.

use crate::ffi::tcap_set_memory;
use std::ffi::c_void;
use std::ptr::null_mut;
use std::sync::atomic::{AtomicU64, Ordering::SeqCst};
use std::sync::Once;

extern "C" {
    fn malloc(size: usize) -> *mut c_void;
    fn realloc(block: *mut c_void, size: usize) -> *mut c_void;
    fn free(block: *mut c_void);
}

static ASKED: AtomicU64 = AtomicU64::new(0);
static LIVE: AtomicU64 = AtomicU64::new(0);
static REFUSED_FROM: AtomicU64 = AtomicU64::new(u64::MAX);
static REFUSED_TO: AtomicU64 = AtomicU64::new(u64::MAX);

fn is_refused() -> bool {
    let request = ASKED.fetch_add(1, SeqCst);
    (REFUSED_FROM.load(SeqCst)..REFUSED_TO.load(SeqCst)).contains(&request)
}

extern "C" fn take(size: usize) -> *mut c_void {
    if is_refused() {
        return null_mut();
    }
    // SAFETY: malloc takes any size.
    let block = unsafe { malloc(size) };
    LIVE.fetch_add(u64::from(!block.is_null()), SeqCst);
    block
}

unsafe extern "C" fn grow(block: *mut c_void, size: usize) -> *mut c_void {
    if is_refused() {
        return null_mut();
    }
    // SAFETY: the library hands in a block that `take` or this gave, and no size of 0.
    unsafe { realloc(block, size) }
}

unsafe extern "C" fn give_back(block: *mut c_void) {
    LIVE.fetch_sub(1, SeqCst);
    // SAFETY: the library hands in a block that `take` or `grow` gave.
    unsafe { free(block) }
}

static INSTALLED: Once = Once::new();

/// Has the library take its memory from here: before the first engine, so by `Handle::open`.
pub(crate) fn install() {
    INSTALLED.call_once(|| {
        // SAFETY: the three keep the contracts of malloc, realloc and free, whose blocks they give; no engine is open,
        // since each `Handle::open` comes by here first.
        let status = unsafe { tcap_set_memory(Some(take), Some(grow), Some(give_back)) };
        assert_eq!(status, 0, "tcap_set_memory");
    });
}

/// From now on requests are counted from 0, and those of these numbers are refused.
pub fn refuse(requests: std::ops::Range<u64>) {
    ASKED.store(0, SeqCst);
    REFUSED_FROM.store(requests.start, SeqCst);
    REFUSED_TO.store(requests.end, SeqCst);
}

/// How many requests were made since [`refuse`], or the beginning.
pub fn asked() -> u64 {
    ASKED.load(SeqCst)
}

/// How many blocks the library has.
pub fn live() -> u64 {
    LIVE.load(SeqCst)
}
