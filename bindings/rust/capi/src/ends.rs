//! Threads that end with pages fixed, beside one that frees their pager. With the address sanitizer it
//! is seen whether anything of the pager is used after it was freed.
use crate::abi::*;
use crate::{hz_pager_fix, hz_pager_free, hz_pager_new, hz_pager_stats_of};
use std::cell::Cell;
use std::ffi::{c_int, c_void};
use std::sync::Arc;
use std::sync::atomic::{AtomicBool, AtomicU64, Ordering};
use std::time::Duration;
use std::{ptr, thread};

const THREADS: u64 = 4;
const ROUNDS: u64 = 200;
const HOWS: [u32; 2] = [HZ_EXCLUSIVE, HZ_SHARED];

unsafe extern "C" fn read(_: *mut c_void, _: u64, image: *mut u8, size: usize) -> c_int {
    // SAFETY: the image has this length.
    unsafe { image.write_bytes(0, size) };
    0
}

unsafe extern "C" fn write(_: *mut c_void, _: u64, _: *mut u8, _: usize, _: u64) -> c_int {
    0
}

unsafe extern "C" fn make_log_durable(_: *mut c_void, _: u64) -> c_int {
    0
}

unsafe extern "C" fn sync(_: *mut c_void) -> c_int {
    0
}

/// A handle that threads share, as those of C do.
#[derive(Clone, Copy)]
struct Handle(*mut hz_pager);

// SAFETY: the calls may come of any thread, and `hz_pager_free` alone changes the handle.
unsafe impl Send for Handle {}

fn make_pager(handle: Handle, round: u64) {
    let config = hz_pager_config {
        size: size_of::<hz_pager_config>(),
        pages: 16,
        page_size: 64,
        frames: 16,
        parts: 1 + (round % 2) as usize,
        // With a period a pass stays out when nobody uses its page.
        correlated: if round % 4 < 2 { HZ_NO_PERIOD } else { 0 },
        retained: 0,
        pin_wait_ms: 0,
        k: 0,
        tells_each_pin: 0,
        read_only: 0,
        grows: 0,
        unused: 0,
        observer: ptr::null(),
    };
    let io = hz_io {
        size: size_of::<hz_io>(),
        own: ptr::null_mut(),
        read: Some(read),
        write: Some(write),
        make_log_durable: Some(make_log_durable),
        sync: Some(sync),
    };
    // SAFETY: all pointers lead to what their types say.
    assert_eq!(unsafe { hz_pager_new(&config, &io, handle.0) }, 0);
}

fn fix(handle: Handle, page: u64, how: u32) {
    let mut fixed = hz_ref {
        bytes: ptr::null(),
        page: 0,
        serial: 0,
        slot: 0,
        how: 0,
    };
    // SAFETY: all pointers lead to what their types say.
    let number = unsafe { hz_pager_fix(handle.0, page, how, &mut fixed) };
    assert_eq!(number, 0);
}

/// Fixes pages in a thread, and makes no other call there: what comes after it is the thread's end.
fn fix_and_end(handle: Handle, thread: u64, have_fixed: &AtomicU64, may_end: &AtomicBool) {
    fix(handle, 0, HZ_SHARED);
    for (place, how) in (1..).zip(HOWS) {
        fix(handle, 3 * thread + place, how);
    }
    have_fixed.fetch_add(1, Ordering::SeqCst);
    while !may_end.load(Ordering::SeqCst) {
        thread::yield_now();
    }
}

/// Frees the pager while threads end that have fixed pages of it.
fn free_beside_ends(round: u64) {
    let mut pager = Box::new(hz_pager {
        own: ptr::null_mut(),
    });
    let (handle, have_fixed) = (Handle(&mut *pager), Arc::new(AtomicU64::new(0)));
    let may_end = Arc::new(AtomicBool::new(false));
    make_pager(handle, round);
    let starts = (0..THREADS).map(|number| {
        let (have_fixed, may_end) = (have_fixed.clone(), may_end.clone());
        thread::spawn(move || fix_and_end(handle, number, &have_fixed, &may_end))
    });
    let threads: Vec<_> = starts.collect();
    while have_fixed.load(Ordering::SeqCst) < THREADS {
        thread::yield_now();
    }
    // SAFETY: no thread is in a call.
    let free = || unsafe { hz_pager_free(handle.0) };
    assert_eq!(free(), HZ_BUSY);
    may_end.store(true, Ordering::SeqCst);
    let numbers = std::iter::repeat_with(free).take_while(|number| *number != 0);
    numbers.for_each(|number| assert_eq!(number, HZ_BUSY));
    for thread in threads {
        thread.join().unwrap();
    }
}

#[test]
fn free_beside_threads_that_end() {
    (0..ROUNDS).for_each(free_beside_ends);
}

thread_local! {
    /// Whether this thread lingers at its end.
    static LINGERS: Cell<bool> = const { Cell::new(false) };
}

/// How far the thread is that lingers: 1 once it has given back what it had, and 2 when it has ended
/// that.
static LINGERED: AtomicU64 = AtomicU64::new(0);

/// Is called by each thread that ends, once it has given back what it had.
pub fn linger() {
    if LINGERS.get() {
        LINGERED.store(1, Ordering::SeqCst);
        thread::sleep(Duration::from_millis(200));
        LINGERED.store(2, Ordering::SeqCst);
    }
}

fn pinned(handle: Handle) -> usize {
    let mut stats = hz_pager_stats::default();
    let size = size_of::<hz_pager_stats>();
    // SAFETY: all pointers lead to what their types say.
    let told = unsafe { hz_pager_stats_of(handle.0, &mut stats, size) };
    assert_eq!(told, 0);
    stats.pinned
}

/// No page is fixed any more, but the thread that had one may still look at the pager.
#[test]
fn free_waits_for_a_thread_that_ends() {
    let mut pager = Box::new(hz_pager {
        own: ptr::null_mut(),
    });
    let handle = Handle(&mut *pager);
    make_pager(handle, 0);
    let ending = thread::spawn(move || {
        LINGERS.set(true);
        fix(handle, 7, HZ_EXCLUSIVE);
    });
    while LINGERED.load(Ordering::SeqCst) == 0 {
        thread::yield_now();
    }
    assert_eq!((pinned(handle), LINGERED.load(Ordering::SeqCst)), (0, 1));
    // SAFETY: no thread is in a call.
    assert_eq!(unsafe { hz_pager_free(handle.0) }, 0);
    assert_eq!(LINGERED.load(Ordering::SeqCst), 2);
    ending.join().unwrap();
}
