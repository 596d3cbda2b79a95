//! The C library's functions for memory, but for the request that is refused.
use std::cell::Cell;
use std::ffi::c_void;
use std::ptr;

unsafe extern "C" {
    fn __libc_malloc(size: usize) -> *mut c_void;
    fn __libc_calloc(count: usize, size: usize) -> *mut c_void;
    fn __libc_memalign(align: usize, size: usize) -> *mut c_void;
    fn __libc_realloc(old: *mut c_void, size: usize) -> *mut c_void;
    fn __libc_free(old: *mut c_void);
}

thread_local! {
    /// Which request of this thread is refused, of those to come: from 1. None where it is 0.
    static REFUSED: Cell<usize> = const { Cell::new(0) };
    /// How many blocks this thread has got and not given back, of those that are counted.
    pub static BLOCKS: Cell<isize> = const { Cell::new(0) };
    /// How many bytes this thread has asked for in all.
    pub static ASKED: Cell<usize> = const { Cell::new(0) };
}

fn is_refused() -> bool {
    let before = REFUSED.try_with(|left| left.replace(left.get().saturating_sub(1)));
    before == Ok(1)
}

fn count(blocks: isize, bytes: usize) {
    let _ = BLOCKS.try_with(|it| it.set(it.get() + blocks));
    let _ = ASKED.try_with(|it| it.set(it.get() + bytes));
}

/// The C library's `malloc`, but for the request that is refused.
#[unsafe(no_mangle)]
unsafe extern "C" fn malloc(size: usize) -> *mut c_void {
    if is_refused() {
        return ptr::null_mut();
    }
    count(1, size);
    // SAFETY: this is `malloc` of the GNU C library by its other name.
    unsafe { __libc_malloc(size) }
}

/// The C library's `calloc`, but for the request that is refused.
#[unsafe(no_mangle)]
unsafe extern "C" fn calloc(items: usize, size: usize) -> *mut c_void {
    if is_refused() {
        return ptr::null_mut();
    }
    count(1, items * size);
    // SAFETY: this is `calloc` of the GNU C library by its other name.
    unsafe { __libc_calloc(items, size) }
}

/// The C library's `posix_memalign`, but for the request that is refused. This crate has it for what
/// stands on cache lines of its own.
#[unsafe(no_mangle)]
unsafe extern "C" fn posix_memalign(out: *mut *mut c_void, align: usize, size: usize) -> i32 {
    const NO_MEMORY: i32 = 12;
    if is_refused() {
        return NO_MEMORY;
    }
    count(1, size);
    // SAFETY: `memalign` takes the alignments that `posix_memalign` does, and `out` may be written to.
    unsafe {
        *out = __libc_memalign(align, size);
        if (*out).is_null() { NO_MEMORY } else { 0 }
    }
}

/// The C library's `realloc`, but for the request that is refused.
#[unsafe(no_mangle)]
unsafe extern "C" fn realloc(old: *mut c_void, size: usize) -> *mut c_void {
    if is_refused() {
        return ptr::null_mut();
    }
    count(old.is_null().into(), size);
    // SAFETY: this is `realloc` of the GNU C library by its other name, and the caller keeps to it.
    unsafe { __libc_realloc(old, size) }
}

/// The C library's `free`.
#[unsafe(no_mangle)]
unsafe extern "C" fn free(old: *mut c_void) {
    count(if old.is_null() { 0 } else { -1 }, 0);
    // SAFETY: this is `free` of the GNU C library by its other name, and the caller keeps to it.
    unsafe { __libc_free(old) }
}

/// Refuses the request of this number while something is done. Tells whether it came.
pub fn refusing<T>(number: usize, work: impl FnOnce() -> T) -> (T, bool) {
    REFUSED.set(number);
    let done = work();
    let left = REFUSED.replace(0);
    (done, left == 0)
}

/// Does something, and tells how many requests came.
pub fn counting<T>(work: impl FnOnce() -> T) -> (T, usize) {
    REFUSED.set(usize::MAX);
    let done = work();
    (done, usize::MAX - REFUSED.replace(0))
}
