//! What the pager does with the bytes of pages, as told to the thread sanitizer, and how often, for
//! `check/sanitize`. The library that reads and writes them was compiled without it.
use std::ffi::{c_ulong, c_void};
use std::sync::atomic::{AtomicU64, Ordering};

unsafe extern "C" {
    fn __tsan_read_range(first: *const c_void, bytes: c_ulong);
    fn __tsan_write_range(first: *mut c_void, bytes: c_ulong);
}

/// How often the bytes of a page were lent to the engine, changed by it, copied for a write-out, and put into
/// a frame.
pub static LOOKS: AtomicU64 = AtomicU64::new(0);
pub static PUTS: AtomicU64 = AtomicU64::new(0);
pub static IMAGES: AtomicU64 = AtomicU64::new(0);
pub static LOADS: AtomicU64 = AtomicU64::new(0);

fn read(count: &AtomicU64, first: *const u8, bytes: usize) {
    count.fetch_add(1, Ordering::Relaxed);
    // SAFETY: it is told that they are read, and reads nothing.
    unsafe { __tsan_read_range(first.cast(), bytes as c_ulong) };
}

fn written(count: &AtomicU64, first: *const u8, bytes: usize) {
    count.fetch_add(1, Ordering::Relaxed);
    // SAFETY: it is told that they are written, and writes nothing.
    unsafe { __tsan_write_range(first.cast_mut().cast(), bytes as c_ulong) };
}

#[inline(never)]
pub(crate) fn look(first: *const u8, bytes: usize) {
    read(&LOOKS, first, bytes);
}

#[inline(never)]
pub(crate) fn put(first: *const u8, bytes: usize) {
    written(&PUTS, first, bytes);
}

#[inline(never)]
pub(crate) fn image(first: *const u8, bytes: usize) {
    read(&IMAGES, first, bytes);
}

#[inline(never)]
pub(crate) fn load(first: *const u8, bytes: usize) {
    written(&LOADS, first, bytes);
}

/// Prints these counts and those above, and fails where one is 0.
pub fn tell(counts: &[(&str, u64)]) {
    let own = [
        ("looks", &LOOKS),
        ("puts", &PUTS),
        ("images", &IMAGES),
        ("loads", &LOADS),
    ];
    let own = own.map(|(name, count)| (name, count.load(Ordering::Relaxed)));
    let all: Vec<_> = counts.iter().chain(&own).collect();
    let told: Vec<_> = all
        .iter()
        .map(|(name, count)| format!("{count} {name}"))
        .collect();
    println!("{}", told.join(", "));
    assert!(all.iter().all(|(_, count)| *count > 0), "one of them is 0");
}
