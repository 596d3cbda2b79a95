//! The structs and numbers of `hojzmated_pager.h`, as the header has them.
use crate::Pager;
use std::ffi::{c_int, c_void};

#[repr(C)]
pub struct hz_pager {
    pub own: *mut Pager,
}

#[repr(C)]
#[derive(Clone, Copy)]
pub struct hz_ref {
    pub bytes: *const u8,
    pub page: u64,
    pub serial: u64,
    pub slot: u32,
    pub how: u32,
}

#[repr(C)]
pub struct hz_pager_config {
    pub size: usize,
    pub pages: u64,
    pub page_size: usize,
    pub frames: usize,
    pub parts: usize,
    pub correlated: u64,
    pub retained: u64,
    pub pin_wait_ms: u64,
    pub k: u8,
    pub tells_each_pin: u8,
    pub read_only: u8,
    pub grows: u8,
    pub unused: u32,
    pub observer: *const hz_observer,
}

#[repr(C)]
#[derive(Clone, Copy)]
pub struct hz_io {
    pub size: usize,
    pub own: *mut c_void,
    pub read: Option<unsafe extern "C" fn(*mut c_void, u64, *mut u8, usize) -> c_int>,
    pub write: Option<unsafe extern "C" fn(*mut c_void, u64, *mut u8, usize, u64) -> c_int>,
    pub make_log_durable: Option<unsafe extern "C" fn(*mut c_void, u64) -> c_int>,
    pub sync: Option<unsafe extern "C" fn(*mut c_void) -> c_int>,
}

#[repr(C)]
#[derive(Clone, Copy, Debug, Default, PartialEq, Eq)]
pub struct hz_pager_fault {
    pub page: u64,
    pub lsn: u64,
    pub error: i32,
    pub number: u16,
    pub has_page: u8,
}

#[repr(C)]
#[derive(Clone, Copy)]
pub struct hz_observer {
    pub size: usize,
    pub own: *mut c_void,
    pub read: Option<unsafe extern "C" fn(*mut c_void, u64, u64, u64)>,
    pub write_out: Option<unsafe extern "C" fn(*mut c_void, u64, u64, u64)>,
    pub log: Option<unsafe extern "C" fn(*mut c_void, u64, u64)>,
    pub sync: Option<unsafe extern "C" fn(*mut c_void, u64)>,
    pub evict: Option<unsafe extern "C" fn(*mut c_void, u64)>,
    pub wait: Option<unsafe extern "C" fn(*mut c_void, c_int, u64, u64)>,
    pub fault: Option<unsafe extern "C" fn(*mut c_void, *const hz_pager_fault, u64)>,
}

#[repr(C)]
#[derive(Default)]
pub struct hz_pager_stats {
    pub hits: u64,
    pub faults: u64,
    pub evictions: u64,
    pub writes: u64,
    pub failed: u64,
    pub refused: u64,
    pub discards: u64,
    pub waits: u64,
    pub resident: usize,
    pub pinned: usize,
    pub unsaved: usize,
    pub memory: usize,
}

// Those of `hojzmated.h` that a pager may answer.
pub const HZ_BAD_GEOMETRY: u16 = 1;
pub const HZ_BAD_SETTINGS: u16 = 2;
pub const HZ_NO_VICTIM: u16 = 11;
pub const HZ_NEED_LOG: u16 = 12;
pub const HZ_BUSY: u16 = 13;
pub const HZ_UNKNOWN_PASS: u16 = 14;
pub const HZ_READ_FAILED: u16 = 17;
pub const HZ_WRITE_FAILED: u16 = 18;
pub const HZ_WRONG_PAGE: u16 = 19;
pub const HZ_TRAIL_FULL: u16 = 20;
pub const HZ_CLOCK_FULL: u16 = 21;
pub const HZ_OUT_OF_MEMORY: u16 = 22;
pub const HZ_PAGE_PINNED: u16 = 25;
pub const HZ_OUT_OF_PAGE: u16 = 45;
pub const HZ_NO_CORE: u16 = 50;
pub const HZ_HAS_CORE: u16 = 51;
pub const HZ_NULL: u16 = 52;

pub const HZ_BAD_LENGTH: u16 = 3;
pub const HZ_VERSION_MISMATCH: u16 = 61;
pub const HZ_SYNC_FAILED: u16 = 71;
pub const HZ_DEADLOCK: u16 = 72;
pub const HZ_NOT_EXCLUSIVE: u16 = 73;
pub const HZ_IN_CALLBACK: u16 = 74;
pub const HZ_PANICKED: u16 = 75;
pub const HZ_FILE_IN_USE: u16 = 76;
pub const HZ_NOT_A_FILE: u16 = 77;
pub const HZ_FILE_READ_ONLY: u16 = 78;
pub const HZ_LOG_LOST: u16 = 79;

pub const HZ_SHARED: u32 = 1;
pub const HZ_EXCLUSIVE: u32 = 2;
pub const HZ_PINNED: u32 = 3;
pub const HZ_TRY: u32 = 16;

pub const HZ_WAIT_PAGE: c_int = 1;
pub const HZ_WAIT_LATCH: c_int = 2;
pub const HZ_WAIT_FRAME: c_int = 3;
pub const HZ_WAIT_PINS: c_int = 4;
pub const HZ_WAIT_LOG: c_int = 5;
pub const HZ_WAIT_SYNC: c_int = 6;

pub const HZ_NO_PERIOD: u64 = u64::MAX;
pub const HZ_IO_WRONG_PAGE: c_int = -1;
pub const HZ_IO_NOT_YET: c_int = -2;
