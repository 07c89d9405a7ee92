//! What is taken of the heap: the linker puts these in the places of malloc, calloc, realloc and free (--wrap), for the library that
//! is measured and for what it is compared with. They count only while it is asked for, as counting takes as long as a malloc.
use std::ffi::c_void;
use std::sync::atomic::{AtomicBool, AtomicUsize, Ordering::Relaxed};

/// What is live when counting begins: what was there before may be freed meanwhile.
const AT_FIRST: usize = 1 << 40;

static COUNTS: AtomicBool = AtomicBool::new(false);
static LIVE: AtomicUsize = AtomicUsize::new(0);
static MOST: AtomicUsize = AtomicUsize::new(0);
static CALLS: AtomicUsize = AtomicUsize::new(0);

extern "C" {
    fn __real_malloc(size: usize) -> *mut c_void;
    fn __real_calloc(count: usize, size: usize) -> *mut c_void;
    fn __real_realloc(old: *mut c_void, size: usize) -> *mut c_void;
    fn __real_free(old: *mut c_void);
    fn malloc_usable_size(block: *mut c_void) -> usize;
}

/// A block costs the bytes that it may hold, and eight that glibc keeps before it.
fn cost(block: *mut c_void) -> usize {
    if block.is_null() {
        return 0;
    }
    unsafe { malloc_usable_size(block) + 8 }
}

fn add(block: *mut c_void) -> *mut c_void {
    if COUNTS.load(Relaxed) {
        CALLS.fetch_add(1, Relaxed);
        let added = cost(block);
        MOST.fetch_max(LIVE.fetch_add(added, Relaxed) + added, Relaxed);
    }
    block
}

fn take(block: *mut c_void) {
    if COUNTS.load(Relaxed) {
        LIVE.fetch_sub(cost(block), Relaxed);
    }
}

#[no_mangle]
unsafe extern "C" fn __wrap_malloc(size: usize) -> *mut c_void {
    add(unsafe { __real_malloc(size) })
}

#[no_mangle]
unsafe extern "C" fn __wrap_calloc(count: usize, size: usize) -> *mut c_void {
    add(unsafe { __real_calloc(count, size) })
}

#[no_mangle]
unsafe extern "C" fn __wrap_realloc(old: *mut c_void, size: usize) -> *mut c_void {
    take(old);
    add(unsafe { __real_realloc(old, size) })
}

#[no_mangle]
unsafe extern "C" fn __wrap_free(old: *mut c_void) {
    take(old);
    unsafe { __real_free(old) }
}

fn count(run: impl FnOnce()) {
    CALLS.store(0, Relaxed);
    LIVE.store(AT_FIRST, Relaxed);
    MOST.store(AT_FIRST, Relaxed);
    COUNTS.store(true, Relaxed);
    run();
    COUNTS.store(false, Relaxed);
}

/// How often memory was asked for in the run.
pub fn calls(run: impl FnOnce()) -> usize {
    count(run);
    CALLS.load(Relaxed)
}

/// The most bytes that were live at once in the run, above those at its start.
pub fn most_live(run: impl FnOnce()) -> usize {
    count(run);
    MOST.load(Relaxed) - AT_FIRST
}
