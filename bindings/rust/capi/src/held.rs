//! The latches that a thread has. Each has a slot with a serial number, which no other page has
//! or had: so a handle of one that was given back, or of another thread, is known.
//!
//! A call looks into the slots of its own thread alone, by the number in the handle. It takes no lock,
//! and memory only if the thread has more latches than ever before. The first slot is no memory of its own: a
//! thread that has one latch at a time finds it at once.
use crate::abi::{HZ_DEADLOCK, HZ_EXCLUSIVE, HZ_SHARED, HZ_UNKNOWN_PASS, hz_ref};
use crate::fault::{Refusal, refusal};
use crate::{Pager, Place, pins};
use hojzmated::{Error, Left, PageMut, PageRef};
use std::cell::Cell;
use std::mem::ManuallyDrop;
use std::ptr;
use std::sync::atomic::{AtomicU64, Ordering};
use std::sync::{Mutex, MutexGuard, PoisonError};

/// A page under a latch, or none. Its pager is there as long as it is: it is not freed before.
pub enum Held {
    None,
    Shared(PageRef<'static>),
    Exclusive(PageMut<'static>),
}

impl Held {
    #[inline(always)]
    fn how(&self) -> u32 {
        match self {
            Held::None => 0,
            Held::Shared(_) => HZ_SHARED,
            Held::Exclusive(_) => HZ_EXCLUSIVE,
        }
    }

    /// Where the bytes of the page are.
    #[inline(always)]
    fn bytes(&self) -> *const u8 {
        match self {
            Held::None => ptr::null(),
            Held::Shared(page) => page.as_ptr(),
            Held::Exclusive(page) => page.bytes().as_ptr(),
        }
    }

    /// Whether it is a latch of this page of the pager, or of any page of it where none is told.
    fn is_latch_of(&self, pager: &Pager, page: Option<u64>) -> bool {
        let (is_of, own) = match self {
            Held::None => return false,
            Held::Shared(page) => (page.is_of(pager), page.page()),
            Held::Exclusive(page) => (page.is_of(pager), page.page()),
        };
        is_of && page.is_none_or(|page| page == own)
    }
}

/// A place for a page that is latched.
pub struct Slot {
    // Not dropped with the slot: so the table of a thread has nothing to drop.
    held: Cell<ManuallyDrop<Held>>,
    /// That of the page. Where the slot is free, that of the next one, or a multiple of BLOCK: then it has
    /// none, and needs a block.
    serial: Cell<u64>,
    /// Where it is free, the next slot of the list that is, or the end of the list.
    next_free: Cell<u32>,
}

/// Slots take serial numbers in blocks, so none comes twice.
static NEXT_BLOCK: AtomicU64 = AtomicU64::new(0);
const BLOCK: u64 = 1 << 16;

impl Slot {
    const fn none(next_free: u32) -> Slot {
        Slot {
            held: Cell::new(ManuallyDrop::new(Held::None)),
            serial: Cell::new(0),
            next_free: Cell::new(next_free),
        }
    }

    #[inline(always)]
    fn held(&self) -> &Held {
        // SAFETY: no function changes it while another of this module refers to it.
        unsafe { &*self.held.as_ptr() }
    }

    #[inline(always)]
    fn is_taken(&self) -> bool {
        !matches!(self.held(), Held::None)
    }

    /// Whether it has a serial number for a page.
    #[inline(always)]
    fn has_serial(&self) -> bool {
        self.serial.get() % BLOCK != 0
    }

    /// Makes sure of that.
    fn number(&self) {
        if !self.has_serial() {
            let block = NEXT_BLOCK.fetch_add(1, Ordering::Relaxed);
            self.serial.set(block * BLOCK + 1);
        }
    }

    /// Keeps a page in this slot, which is free and has this number, and writes its handle to a place.
    #[inline(always)]
    fn put(&self, held: Held, page: u64, slot: u32, out: Place<hz_ref>) {
        let handle = hz_ref {
            bytes: held.bytes(),
            page,
            serial: self.serial.get(),
            slot,
            how: held.how(),
        };
        self.held.set(ManuallyDrop::new(held));
        out.put(handle);
    }

    /// Keeps a latch in the [ready slot](ready_slot), and writes its handle to a place. Returns 0, the
    /// answer of a call that did what was asked.
    #[inline(always)]
    pub fn keep(&self, latch: Held, page: u64, out: Place<hz_ref>) -> u16 {
        self.put(latch, page, 0, out);
        0
    }

    /// Lets the latch of a handle go, if it is here. It can't panic.
    #[inline(always)]
    fn let_go(&self, given: &hz_ref) -> Option<Left<'static>> {
        if self.serial.get() != given.serial {
            return None;
        }
        // The latch first, for which others wait: it has to wait for what was stored before it.
        let left = match self.held() {
            // SAFETY: what is read here is not used in the slot any more, which is free then.
            Held::Shared(page) => unsafe { ptr::read(page) }.let_go(),
            // SAFETY: as above.
            Held::Exclusive(page) => unsafe { ptr::read(page) }.let_go(),
            Held::None => return None,
        };
        self.held.set(ManuallyDrop::new(Held::None));
        self.serial.set(self.serial.get() + 1);
        Some(left)
    }

    /// Drops what it has.
    fn clear(&self) {
        let held = self.held.replace(ManuallyDrop::new(Held::None));
        self.serial.set(self.serial.get() + 1);
        drop(ManuallyDrop::into_inner(held));
    }
}

/// The slots of a thread.
struct Table {
    /// Its number is 0.
    first: Slot,
    /// How many other slots are taken, and how many callbacks this thread is in.
    in_the_way: Cell<u32>,
    /// The slots from number 1 on: a boxed list, taken apart, which [`End`] drops.
    others: Cell<*mut Slot>,
    /// How many of these there are.
    count: Cell<u32>,
    /// The first of these that is free, or the end of the list.
    free: Cell<u32>,
}

thread_local! {
    // It has nothing to drop, so a call need not look whether it is still there.
    static TABLE: Table = const { Table::new() };
    static END: End = const { End };
}

/// Is dropped as the thread ends: what it still has is given back.
struct End;

impl Drop for End {
    fn drop(&mut self) {
        TABLE.with(Table::end);
    }
}

/// Is locked while a thread that ends gives back what it has.
static ENDING: Mutex<()> = Mutex::new(());

/// Waits until no thread gives back what it has at its end, and keeps others from beginning. Threads
/// that have no page then touch no pager at their ends.
pub fn none_ends() -> MutexGuard<'static, ()> {
    ENDING.lock().unwrap_or_else(PoisonError::into_inner)
}

/// A fix looks through all slots where the thread has a latch already: so there are few at first.
const FIRST_SLOTS: usize = 4;

impl Table {
    const fn new() -> Table {
        Table {
            first: Slot::none(0),
            in_the_way: Cell::new(0),
            others: Cell::new(ptr::null_mut()),
            count: Cell::new(0),
            free: Cell::new(0),
        }
    }

    /// Takes the list of slots out, and leaves none.
    fn take(&self) -> Box<[Slot]> {
        let (slots, count) = (self.others.replace(ptr::null_mut()), self.count.replace(0));
        self.free.set(0);
        if slots.is_null() {
            return Box::default();
        }
        let slots = ptr::slice_from_raw_parts_mut(slots, count as usize);
        // SAFETY: they are those of a list that `set` took apart.
        unsafe { Box::from_raw(slots) }
    }

    /// Sets the list of slots, of which there are none, to this one.
    fn set(&self, slots: Box<[Slot]>, free: u32) {
        self.count.set(slots.len() as u32);
        self.others.set(Box::into_raw(slots).cast());
        self.free.set(free);
    }

    /// Makes sure that a slot of the list is free. It is refused once the thread's own objects are gone,
    /// as in a handler of `atexit`.
    #[inline]
    fn make_room(&self) -> Result<(), Refusal> {
        match self.free.get() == self.count.get() {
            true => self.grow(),
            false => Ok(()),
        }
    }

    #[cold]
    #[inline(never)]
    fn grow(&self) -> Result<(), Refusal> {
        END.try_with(|_| ()).map_err(|_| refusal(HZ_UNKNOWN_PASS))?;
        let first = self.count.get() as usize;
        let count = first + first.max(FIRST_SLOTS);
        let mut grown = Vec::new();
        let room = grown.try_reserve_exact(count);
        let last = u32::try_from(count).map_err(|_| Error::OutOfMemory)?;
        room.map_err(|_| Error::OutOfMemory)?;
        grown.extend(self.take().into_vec());
        grown.extend((first as u32..last).map(|slot| Slot::none(slot + 1)));
        self.set(grown.into_boxed_slice(), first as u32);
        Ok(())
    }

    #[inline]
    fn move_in_the_way(&self, by: i32) {
        self.in_the_way
            .set(self.in_the_way.get().wrapping_add_signed(by));
    }

    /// A slot of the list.
    ///
    /// # Safety
    /// There are more slots in it than this number.
    #[inline]
    unsafe fn other(&self, number: u32) -> &Slot {
        // SAFETY: the caller says so.
        unsafe { &*self.others.get().add(number as usize) }
    }

    /// Keeps a page, and writes its handle to a place. A slot of the list is free.
    fn put(&self, held: Held, page: u64, out: Place<hz_ref>) {
        if !self.first.is_taken() {
            self.first.number();
            return self.first.put(held, page, 0, out);
        }
        let number = self.free.get();
        // SAFETY: it is in the list of free slots.
        let slot = unsafe { self.other(number) };
        self.free.set(slot.next_free.get());
        self.move_in_the_way(1);
        slot.number();
        slot.put(held, page, number + 1, out);
    }

    /// The slot of a handle, if that is of a page which this thread has.
    #[inline]
    fn of(&self, given: &hz_ref) -> Option<&Slot> {
        let slot = match given.slot.checked_sub(1) {
            None => &self.first,
            // SAFETY: there are more slots.
            Some(number) if number < self.count.get() => unsafe { self.other(number) },
            Some(_) => return None,
        };
        (slot.serial.get() == given.serial && slot.is_taken()).then_some(slot)
    }

    fn give_back(&self, given: &hz_ref) -> Option<()> {
        let slot = self.of(given)?;
        slot.clear();
        if let Some(number) = given.slot.checked_sub(1) {
            slot.next_free.set(self.free.replace(number));
            self.move_in_the_way(-1);
        }
        Some(())
    }

    /// Whether the thread has no latch, and is in no callback.
    #[inline(always)]
    fn is_clear(&self) -> bool {
        !self.first.is_taken() && self.in_the_way.get() == 0
    }

    #[cold]
    #[inline(never)]
    fn has(&self, is_in_the_way: impl Fn(&Held) -> bool) -> bool {
        // SAFETY: there are more slots in the list than each of these numbers.
        let others = (0..self.count.get()).map(|number| unsafe { self.other(number) });
        let mut slots = others.chain([&self.first]);
        slots.any(|it| is_in_the_way(it.held()))
    }

    /// Gives back all that the thread has.
    fn end(&self) {
        let others = self.take();
        self.in_the_way.set(0);
        if self.first.is_taken() || others.iter().any(Slot::is_taken) {
            let _ending = none_ends();
            self.first.clear();
            others.iter().for_each(Slot::clear);
            #[cfg(test)]
            crate::ends::linger();
        }
        // So it is not ready for another page, which nobody would give back.
        self.first.serial.set(0);
    }
}

/// The table of this thread, whose address stays as long as the thread is there.
#[inline(always)]
fn table() -> &'static Table {
    let table = TABLE.with(ptr::from_ref);
    // SAFETY: it is this thread's, which does not end while it is in a call of this module.
    unsafe { &*table }
}

/// Refused where this thread has a latch that is in the way.
#[inline]
fn check(is_in_the_way: impl Fn(&Held) -> bool) -> Result<(), Refusal> {
    let table = table();
    if !table.is_clear() && table.has(is_in_the_way) {
        return Err(refusal(HZ_DEADLOCK));
    }
    Ok(())
}

/// Refused where this thread has a latch of the page.
pub fn check_latch(pager: &Pager, page: u64) -> Result<(), Refusal> {
    check(|it| it.is_latch_of(pager, Some(page)))
}

/// Refused where this thread has the exclusive latch of the page, or of any page where none is told.
pub fn check_exclusive(pager: &Pager, page: Option<u64>) -> Result<(), Refusal> {
    check(|it| matches!(it, Held::Exclusive(_)) && it.is_latch_of(pager, page))
}

/// Makes a callback. No latch comes into the first slot meanwhile without a further look.
pub fn in_callback<T>(callback: impl FnOnce() -> T) -> T {
    table().move_in_the_way(1);
    let answer = callback();
    table().move_in_the_way(-1);
    answer
}

/// Makes sure that this thread can keep one more latch.
pub fn make_room() -> Result<(), Refusal> {
    table().make_room()
}

/// Keeps a latch for this thread, and writes its handle to a place.
pub fn keep(held: Held, page: u64, out: Place<hz_ref>) -> Result<(), Refusal> {
    // A callback may have taken the slot that was free.
    make_room()?;
    table().put(held, page, out);
    Ok(())
}

/// The first slot of this thread, where a latch may come into it without a further look: the thread has
/// no other, and is in no callback; and as one was there before, the slot is cleared at the thread's end.
#[inline(always)]
pub fn ready_slot() -> Option<&'static Slot> {
    let table = table();
    (table.is_clear() && table.first.has_serial()).then_some(&table.first)
}

/// Gives a latch back, if it is in the first slot. No other code of this thread runs meanwhile.
#[inline(always)]
pub fn let_go_of_first(given: &hz_ref) -> Option<Left<'static>> {
    table().first.let_go(given)
}

/// Gives a latch back, whichever slot it is in.
pub fn give_back(given: &hz_ref) -> Result<(), Refusal> {
    let given_back = table().give_back(given);
    given_back.ok_or_else(|| refusal(HZ_UNKNOWN_PASS))
}

/// Calls a function with the page of a handle, or with none where it is not under its exclusive
/// latch. It makes no call of this module.
#[inline]
pub fn with_exclusive<T>(
    given: &hz_ref,
    call: impl FnOnce(Option<&mut PageMut<'static>>) -> T,
) -> Result<T, Refusal> {
    let Some(slot) = table().of(given) else {
        return match pins::has(given) {
            true => Ok(call(None)),
            false => Err(refusal(HZ_UNKNOWN_PASS)),
        };
    };
    // SAFETY: nothing else refers to it now.
    let page = match unsafe { &mut **slot.held.as_ptr() } {
        Held::Exclusive(page) => Some(page),
        _ => None,
    };
    Ok(call(page))
}
