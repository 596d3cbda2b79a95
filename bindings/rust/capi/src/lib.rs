//! The pager of `hojzmated` that many threads share, for C: the calls of `hojzmated_pager.h`, which
//! says what each does.
//!
//! Each call checks its pointers, makes the call of [`hojzmated::Pager`], and turns what comes of it into
//! a number. No panic leaves it. The latches that a thread has are in [`held`], and all pins in [`pins`].
#![allow(non_camel_case_types)]
// The header has what each call requires.
#![allow(clippy::missing_safety_doc)]
#![deny(unsafe_op_in_unsafe_fn)]
#![warn(
    clippy::undocumented_unsafe_blocks,
    clippy::unwrap_used,
    clippy::expect_used
)]

mod abi;
mod device;
#[cfg(test)]
#[allow(clippy::unwrap_used)]
mod ends;
mod fault;
#[cfg(test)]
#[allow(clippy::unwrap_used)]
mod header;
mod held;
mod observer;
mod pins;
mod sized;

use abi::*;
use device::{Callbacks, Device, PageFile, is_inside, with_scratch};
use fault::{Refusal, refusal, refusal_of, refused_at};
use held::Held;
use hojzmated::{Error, Left, Missed, MissedAlone, PagerConfig, PagerError};
use observer::Own;
use std::any::Any;
use std::ffi::{c_char, c_int};
use std::panic::{AssertUnwindSafe, catch_unwind};
use std::time::Duration;
use std::{ptr, slice};

/// The pager behind a handle.
pub type Pager = hojzmated::Pager<Device>;

type Outcome<T = ()> = Result<T, Refusal>;

/// Makes a call, and returns its number. Where it panics that is a refusal too.
#[inline]
fn answer(call: impl FnOnce() -> Outcome) -> u16 {
    match catch_unwind(AssertUnwindSafe(call)) {
        Ok(Ok(())) => 0,
        Ok(Err(refused)) => refused.number(),
        Err(panic) => panicked(panic),
    }
}

#[cold]
#[inline(never)]
fn panicked(_panic: Box<dyn Any + Send>) -> u16 {
    refusal(HZ_PANICKED).number()
}

/// What a pointer of the caller's leads to.
///
/// # Safety
/// It is null, or leads to a value that stays as it is.
#[inline]
unsafe fn given<'a, T>(pointer: *const T) -> Outcome<&'a T> {
    // SAFETY: the caller says so.
    unsafe { pointer.as_ref() }.ok_or_else(|| refusal(HZ_NULL))
}

/// Where a result goes.
///
/// # Safety
/// It is null, or may be written to.
#[inline]
unsafe fn to<T>(pointer: *mut T) -> Outcome<Place<T>> {
    if pointer.is_null() {
        return Err(refusal(HZ_NULL));
    }
    Ok(Place(pointer))
}

/// A place that may be written to, and need not have a value.
#[repr(transparent)]
struct Place<T>(*mut T);

impl<T> Place<T> {
    #[inline]
    fn put(self, value: T) {
        // SAFETY: it is not null, and may be written to.
        unsafe { self.0.write(value) };
    }
}

/// The pager of a handle.
///
/// # Safety
/// The handle is null, or as the calls of this library left it. What is returned is not used once
/// the pager was freed.
#[inline]
unsafe fn pager_of(handle: *const hz_pager) -> Outcome<&'static Pager> {
    // SAFETY: the caller says so.
    let own = unsafe { given(handle) }?.own;
    // SAFETY: a handle that has a pager leads to it.
    unsafe { own.as_ref() }.ok_or_else(|| refusal(HZ_NO_CORE))
}

/// The pager of a handle, for a call that may wait or call back.
///
/// # Safety
/// That of [`pager_of`].
#[inline]
unsafe fn waiting_pager_of(handle: *const hz_pager) -> Outcome<&'static Pager> {
    // SAFETY: the caller says so.
    let pager = unsafe { pager_of(handle) }?;
    check_outside(pager)?;
    Ok(pager)
}

/// Refused where this thread is in a callback of the pager.
fn check_outside(pager: &Pager) -> Outcome {
    match is_inside(pager.io()) {
        true => Err(refusal(HZ_IN_CALLBACK)),
        false => Ok(()),
    }
}

/// The value of a field, or its default.
fn or<T: Default + PartialEq>(field: T, default: T) -> T {
    if field == T::default() {
        default
    } else {
        field
    }
}

fn period(field: u64, default: u64) -> u64 {
    match field {
        HZ_NO_PERIOD => 0,
        length => or(length, default),
    }
}

impl hz_pager_config {
    /// A copy of the observer, if there is one.
    ///
    /// # Safety
    /// The pointer is null, or leads to so many bytes as the size there says.
    unsafe fn observer(&self) -> Outcome<Option<Own>> {
        if self.observer.is_null() {
            return Ok(None);
        }
        // SAFETY: the caller says so.
        Own::new(unsafe { sized::given(self.observer) }?).map(Some)
    }

    /// # Safety
    /// They are not used once the observer is gone.
    unsafe fn settings(&self, pages: u64, observer: Option<&Own>) -> PagerConfig {
        let settings = self.plain_settings(pages);
        match observer {
            // SAFETY: the caller says so.
            Some(own) => settings.with_lent_observer(unsafe { own.lent() }),
            None => settings,
        }
    }

    fn plain_settings(&self, pages: u64) -> PagerConfig {
        let (page_size, frames) = (self.page_size, self.frames);
        let default = match self.parts {
            0 => PagerConfig::new(pages, page_size, frames),
            parts => PagerConfig::in_parts(pages, page_size, frames, parts),
        };
        let (correlated, retained) = (default.correlated, default.retained);
        let (k, pin_wait) = (default.k, default.pin_wait);
        default
            .with_correlated(period(self.correlated, correlated))
            .with_retained(period(self.retained, retained))
            .with_k(or(self.k, k))
            .with_tells_each_pin(self.tells_each_pin != 0)
            .with_pin_wait(match self.pin_wait_ms {
                0 => pin_wait,
                some => Duration::from_millis(some),
            })
    }
}

/// Returns the settings of the caller.
///
/// # Safety
/// That of [`sized::given`].
unsafe fn settings_of(config: *const hz_pager_config) -> Outcome<hz_pager_config> {
    // SAFETY: as above.
    let config = unsafe { sized::given(config) }?;
    match config.unused {
        0 => Ok(config),
        _ => Err(refusal(HZ_BAD_SETTINGS)),
    }
}

/// Makes a pager in a handle.
fn make(config: &PagerConfig, device: Device, handle: Place<hz_pager>) -> Outcome {
    let mut place = Vec::new();
    let room = place.try_reserve_exact(1);
    room.map_err(|_| Error::OutOfMemory)?;
    let pager = Pager::new(config, device)?;
    if let Device::File(file) = pager.io() {
        file.grow_to(config.pages)?;
    }
    place.push(pager);
    let own = Box::into_raw(place.into_boxed_slice()).cast();
    handle.put(hz_pager { own });
    Ok(())
}

/// The handle, if it has no pager.
///
/// # Safety
/// It is null, or as the calls of this library left it.
unsafe fn empty(handle: *mut hz_pager) -> Outcome<Place<hz_pager>> {
    // SAFETY: the caller says so.
    match unsafe { given(handle) }?.own.is_null() {
        true => Ok(Place(handle)),
        false => Err(refusal(HZ_HAS_CORE)),
    }
}

// Each call requires what the header says of its pointers, and of threads.

#[unsafe(no_mangle)]
pub unsafe extern "C" fn hz_pager_new(
    config: *const hz_pager_config,
    io: *const hz_io,
    pager: *mut hz_pager,
) -> u16 {
    answer(|| {
        if config.is_null() || io.is_null() || pager.is_null() {
            return Err(refusal(HZ_NULL));
        }
        // SAFETY: as the header says.
        let (config, io) = unsafe { (settings_of(config)?, sized::given(io)?) };
        // SAFETY: as the header says.
        let observer = unsafe { config.observer() }?;
        // SAFETY: the device has the observer, and the pager the device.
        let settings = unsafe { config.settings(config.pages, observer.as_ref()) };
        let callbacks = Callbacks::new(&io, observer).ok_or_else(|| refusal(HZ_NULL))?;
        // SAFETY: as the header says.
        let handle = unsafe { empty(pager) }?;
        make(&settings, Device::Callbacks(callbacks), handle)
    })
}

#[unsafe(no_mangle)]
pub unsafe extern "C" fn hz_pager_new_file(
    config: *const hz_pager_config,
    fd: c_int,
    format: c_int,
    pager: *mut hz_pager,
) -> u16 {
    answer(|| {
        if config.is_null() || pager.is_null() {
            return Err(refusal(HZ_NULL));
        }
        // SAFETY: as the header says.
        let (config, handle) = unsafe { (settings_of(config)?, empty(pager)?) };
        // SAFETY: a file of the descriptor is open till after `hz_pager_free`.
        let file = unsafe { PageFile::new(fd, format, &config, config.observer()?) }?;
        let pages = or(config.pages, file.pages());
        // SAFETY: as above.
        let settings = unsafe { config.settings(pages, file.observer()) };
        make(&settings, Device::File(file), handle)
    })
}

#[unsafe(no_mangle)]
pub unsafe extern "C" fn hz_pager_free(pager: *mut hz_pager) -> u16 {
    answer(|| {
        // SAFETY: as the header says.
        let own = unsafe { waiting_pager_of(pager) }?;
        // A thread that ends may be about to leave the page that was pinned last.
        let _none_ends = held::none_ends();
        if own.stats().pinned > 0 {
            return Err(refusal(HZ_BUSY));
        }
        let own = ptr::slice_from_raw_parts_mut(ptr::from_ref(own).cast_mut(), 1);
        Place(pager).put(hz_pager {
            own: ptr::null_mut(),
        });
        // SAFETY: it is that of `make`. No page is fixed, no thread gives pages back at its end, and
        // no other thread is in a call.
        drop(unsafe { Box::from_raw(own) });
        Ok(())
    })
}

const TRY_SHARED: u32 = HZ_SHARED | HZ_TRY;
const TRY_EXCLUSIVE: u32 = HZ_EXCLUSIVE | HZ_TRY;
const TRY_PINNED: u32 = HZ_PINNED | HZ_TRY;

/// Fixes a page. What most calls come to, a latch that is free of a page that was used a short while
/// ago, is done here, where nothing panics or waits; the rest by functions of their own, so that this
/// one keeps what it has in registers.
#[unsafe(no_mangle)]
pub unsafe extern "C" fn hz_pager_fix(
    pager: *const hz_pager,
    page: u64,
    how: u32,
    out: *mut hz_ref,
) -> u16 {
    // SAFETY: as the header says.
    let (out, own) = match unsafe { to(out).and_then(|out| Ok((out, pager_of(pager)?))) } {
        Ok(both) => both,
        Err(refused) => return refused.number(),
    };
    match how {
        HZ_SHARED => fix_shared(own, page, out),
        HZ_EXCLUSIVE => fix_exclusive(own, page, out),
        _ => fix_otherwise(own, page, how, out),
    }
}

#[inline(always)]
fn fix_shared(own: &'static Pager, page: u64, out: Place<hz_ref>) -> u16 {
    let Some(slot) = held::ready_slot() else {
        return fix_otherwise(own, page, HZ_SHARED, out);
    };
    match own.read_at_once(page) {
        Ok(latched) => slot.keep(Held::Shared(latched), page, out),
        Err(missed) => read_slowly(own, page, missed, out),
    }
}

#[inline(always)]
fn fix_exclusive(own: &'static Pager, page: u64, out: Place<hz_ref>) -> u16 {
    let Some(slot) = held::ready_slot() else {
        return fix_otherwise(own, page, HZ_EXCLUSIVE, out);
    };
    match own.write_at_once(page) {
        Ok(latched) => slot.keep(Held::Exclusive(latched), page, out),
        Err(missed) => write_slowly(own, page, missed, out),
    }
}

// These are of C so that they never unwind: then they can be called in the place of their caller.

#[allow(improper_ctypes_definitions)]
#[cold]
#[inline(never)]
extern "C" fn read_slowly(
    own: &'static Pager,
    page: u64,
    missed: Missed<'static>,
    out: Place<hz_ref>,
) -> u16 {
    answer(|| {
        // SAFETY: `fix_shared` has missed it, of this page of this pager.
        let read = unsafe { own.read_slowly(page, missed) };
        kept(read, Held::Shared, page, out)
    })
}

#[allow(improper_ctypes_definitions)]
#[cold]
#[inline(never)]
extern "C" fn write_slowly(
    own: &'static Pager,
    page: u64,
    missed: MissedAlone<'static>,
    out: Place<hz_ref>,
) -> u16 {
    answer(|| kept(own.write_slowly(page, missed), Held::Exclusive, page, out))
}

/// Fixes a page of which nothing is known yet.
#[inline(never)]
extern "C" fn fix_otherwise(own: &'static Pager, page: u64, how: u32, out: Place<hz_ref>) -> u16 {
    answer(|| {
        check_outside(own)?;
        if how | HZ_TRY == TRY_PINNED {
            let pinned = match how {
                HZ_PINNED => own.pin(page),
                _ => own.try_pin(page),
            };
            let pin = pinned.map_err(|error| refused_at(page, error))?;
            return pins::keep(pin, page, out);
        }
        held::check_latch(own, page)?;
        held::make_room()?;
        match how {
            HZ_SHARED => kept(own.read(page), Held::Shared, page, out),
            HZ_EXCLUSIVE => kept(own.write(page), Held::Exclusive, page, out),
            TRY_SHARED => kept(had(own.try_read(page)), Held::Shared, page, out),
            TRY_EXCLUSIVE => kept(had(own.try_write(page)), Held::Exclusive, page, out),
            _ => Err(refusal_of(HZ_BAD_SETTINGS, page)),
        }
    })
}

/// Keeps the guard of a page, if it was had, as one of its kind.
fn kept<G>(
    fixed: Result<G, PagerError>,
    kind: impl FnOnce(G) -> Held,
    page: u64,
    out: Place<hz_ref>,
) -> Outcome {
    match fixed {
        Ok(guard) => held::keep(kind(guard), page, out),
        Err(error) => Err(refused_at(page, error)),
    }
}

/// A latch, or that it is not free.
fn had<G>(tried: Result<Option<G>, PagerError>) -> Result<G, PagerError> {
    tried.and_then(|it| it.ok_or(Error::Busy.into()))
}

#[unsafe(no_mangle)]
pub unsafe extern "C" fn hz_pager_new_page(
    pager: *const hz_pager,
    page: u64,
    out: *mut hz_ref,
) -> u16 {
    answer(|| {
        // SAFETY: as the header says.
        let (out, pager) = unsafe { (to(out)?, waiting_pager_of(pager)?) };
        held::check_latch(pager, page)?;
        held::make_room()?;
        kept(pager.new_page(page), Held::Exclusive, page, out)
    })
}

/// The bytes of the caller's.
///
/// # Safety
/// As long as what is returned is used, so many bytes are there and stay as they are.
unsafe fn bytes_of<'a>(bytes: *const u8, len: usize) -> Outcome<&'a [u8]> {
    match (bytes.is_null(), len) {
        (_, 0) => Ok(&[]),
        (true, _) => Err(refusal(HZ_NULL)),
        // SAFETY: the caller says so.
        _ => Ok(unsafe { slice::from_raw_parts(bytes, len) }),
    }
}

#[unsafe(no_mangle)]
pub unsafe extern "C" fn hz_pager_put(
    page: *const hz_ref,
    offset: usize,
    bytes: *const u8,
    len: usize,
    lsn: u64,
) -> u16 {
    answer(|| {
        // SAFETY: as the header says.
        let (page, put) = unsafe { (given(page)?, bytes_of(bytes, len)?) };
        held::with_exclusive(page, |alone| {
            let alone = alone.ok_or_else(|| refusal_of(HZ_NOT_EXCLUSIVE, page.page))?;
            let whole = alone.bytes().as_ptr_range();
            let own = put.as_ptr_range();
            if own.start < whole.end && whole.start < own.end {
                // They change by the put itself.
                return put_own(alone, offset, put.as_ptr(), len, lsn);
            }
            let done = alone.put(offset, put, lsn);
            done.map_err(|error| refused_at(page.page, error))
        })?
    })
}

/// Puts bytes of the page itself, from a copy.
#[cold]
#[inline(never)]
fn put_own(
    page: &mut hojzmated::PageMut<'static>,
    offset: usize,
    bytes: *const u8,
    len: usize,
    lsn: u64,
) -> Outcome {
    if len > page.bytes().len() {
        return Err(refusal_of(HZ_OUT_OF_PAGE, page.page()));
    }
    let done = with_scratch(len, |copy| {
        // SAFETY: so many bytes are there, and the scratch is other memory.
        unsafe { copy.as_mut_ptr().copy_from_nonoverlapping(bytes, len) };
        page.put(offset, copy, lsn)
    });
    let done = done.unwrap_or(Err(Error::OutOfMemory));
    done.map_err(|error| refused_at(page.page(), error))
}

#[unsafe(no_mangle)]
pub unsafe extern "C" fn hz_pager_unfix(page: *const hz_ref) -> u16 {
    // SAFETY: as the header says.
    let page = match unsafe { given(page) } {
        Ok(page) => page,
        Err(refused) => return refused.number(),
    };
    match held::let_go_of_first(page) {
        Some(left) if left.is_all() => 0,
        Some(left) => finish(left),
        None => unfix_otherwise(page),
    }
}

#[allow(improper_ctypes_definitions)]
#[cold]
#[inline(never)]
extern "C" fn finish(left: Left<'static>) -> u16 {
    answer(|| {
        left.finish();
        Ok(())
    })
}

#[inline(never)]
extern "C" fn unfix_otherwise(page: &hz_ref) -> u16 {
    answer(|| match pins::is_one(page) {
        true => pins::give_back(page),
        false => held::give_back(page),
    })
}

#[unsafe(no_mangle)]
pub unsafe extern "C" fn hz_pager_mark(pager: *const hz_pager, lsn: u64) -> u16 {
    answer(|| {
        // SAFETY: as the header says.
        unsafe { pager_of(pager) }?.mark(lsn);
        Ok(())
    })
}

#[unsafe(no_mangle)]
pub unsafe extern "C" fn hz_pager_flush(pager: *const hz_pager, page: u64) -> u16 {
    answer(|| {
        // SAFETY: as the header says.
        let pager = unsafe { waiting_pager_of(pager) }?;
        held::check_exclusive(pager, Some(page))?;
        let flushed = pager.flush(page);
        flushed.map_err(|error| refused_at(page, error))
    })
}

#[unsafe(no_mangle)]
pub unsafe extern "C" fn hz_pager_discard(
    pager: *const hz_pager,
    first: u64,
    count: u64,
    resident: *mut u64,
) -> u16 {
    answer(|| {
        // SAFETY: as the header says.
        let (resident, pager) = unsafe { (to(resident)?, waiting_pager_of(pager)?) };
        resident.put(pager.discard_from(first, count)?);
        Ok(())
    })
}

/// Where an LSN goes, or that there is none.
struct LsnPlace(Place<u64>, Place<u8>);

impl LsnPlace {
    /// # Safety
    /// That of [`to`].
    unsafe fn new(lsn: *mut u64, has_lsn: *mut u8) -> Outcome<LsnPlace> {
        // SAFETY: the caller says so.
        Ok(unsafe { LsnPlace(to(lsn)?, to(has_lsn)?) })
    }

    fn put(self, lsn: Option<u64>) {
        self.0.put(lsn.unwrap_or(0));
        self.1.put(u8::from(lsn.is_some()));
    }
}

#[unsafe(no_mangle)]
pub unsafe extern "C" fn hz_pager_checkpoint(
    pager: *const hz_pager,
    lsn: *mut u64,
    has_lsn: *mut u8,
) -> u16 {
    answer(|| {
        // SAFETY: as the header says.
        let (out, pager) = unsafe { (LsnPlace::new(lsn, has_lsn)?, waiting_pager_of(pager)?) };
        held::check_exclusive(pager, None)?;
        out.put(pager.checkpoint()?);
        Ok(())
    })
}

#[unsafe(no_mangle)]
pub unsafe extern "C" fn hz_pager_clean(
    pager: *const hz_pager,
    most: usize,
    count: *mut usize,
) -> u16 {
    answer(|| {
        // SAFETY: as the header says.
        let (count, pager) = unsafe { (to(count)?, waiting_pager_of(pager)?) };
        count.put(pager.clean(most)?);
        Ok(())
    })
}

#[unsafe(no_mangle)]
pub unsafe extern "C" fn hz_pager_purge(pager: *const hz_pager, count: *mut u64) -> u16 {
    answer(|| {
        // SAFETY: as the header says.
        let (count, pager) = unsafe { (to(count)?, waiting_pager_of(pager)?) };
        count.put(pager.purge()?);
        Ok(())
    })
}

#[unsafe(no_mangle)]
pub unsafe extern "C" fn hz_pager_redo_from(
    pager: *const hz_pager,
    lsn: *mut u64,
    has_lsn: *mut u8,
) -> u16 {
    answer(|| {
        // SAFETY: as the header says.
        let (out, pager) = unsafe { (LsnPlace::new(lsn, has_lsn)?, pager_of(pager)?) };
        out.put(pager.redo_from());
        Ok(())
    })
}

#[unsafe(no_mangle)]
pub unsafe extern "C" fn hz_pager_stats_of(
    pager: *const hz_pager,
    out: *mut hz_pager_stats,
    size: usize,
) -> u16 {
    answer(|| {
        // SAFETY: as the header says.
        let (out, pager) = unsafe { (to(out)?, pager_of(pager)?) };
        let stats = pager.stats();
        let told = hz_pager_stats {
            hits: stats.totals.hits,
            faults: stats.totals.faults,
            evictions: stats.totals.evictions,
            writes: stats.totals.writes,
            failed: stats.totals.failed,
            refused: stats.totals.refused,
            discards: stats.totals.discards,
            waits: stats.waits,
            resident: stats.resident,
            pinned: stats.pinned,
            unsaved: stats.unsaved,
            memory: stats.memory,
        };
        // SAFETY: as the header says.
        unsafe { sized::put(out.0, size, &told) };
        Ok(())
    })
}

#[unsafe(no_mangle)]
pub unsafe extern "C" fn hz_pager_is_resident(
    pager: *const hz_pager,
    page: u64,
    is_resident: *mut u8,
) -> u16 {
    answer(|| {
        // SAFETY: as the header says.
        let (out, pager) = unsafe { (to(is_resident)?, pager_of(pager)?) };
        if page >= pager.config().pages {
            return Err(refusal_of(HZ_OUT_OF_PAGE, page));
        }
        out.put(u8::from(pager.is_resident(page)));
        Ok(())
    })
}

#[unsafe(no_mangle)]
pub unsafe extern "C" fn hz_pager_fault_of(out: *mut hz_pager_fault) -> u16 {
    answer(|| {
        // SAFETY: as the header says.
        unsafe { to(out) }?.put(fault::newest());
        Ok(())
    })
}

#[unsafe(no_mangle)]
pub unsafe extern "C" fn hz_pager_text(into: *mut c_char, len: usize) -> usize {
    let whole = catch_unwind(|| fault::newest().to_string()).unwrap_or_default();
    if !into.is_null() && len > 0 {
        let fits = whole.len().min(len - 1);
        // SAFETY: so many bytes may be written to, and a zero after them.
        unsafe {
            into.cast::<u8>()
                .copy_from_nonoverlapping(whole.as_ptr(), fits);
            into.add(fits).write(0);
        }
    }
    whole.len()
}

#[unsafe(no_mangle)]
pub extern "C" fn hz_pager_strerror(number: u16) -> *const c_char {
    fault::explained(number).as_ptr()
}

#[unsafe(no_mangle)]
pub extern "C" fn hz_pager_version() -> u32 {
    hojzmated::version()
}
