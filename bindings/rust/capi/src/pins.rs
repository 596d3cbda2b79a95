//! The pages that are fixed without a latch. A pin is of no thread: any gives it back, and it stays where the
//! thread ends that fixed its page.
//!
//! They stand in tables, each with a lock of its own, which a call holds for some instructions. The number of a
//! page says in which table its pins are: so threads that pin different pages seldom wait for each other.
use crate::Place;
use crate::abi::{HZ_PINNED, HZ_UNKNOWN_PASS, hz_ref};
use crate::fault::{Refusal, refusal};
use hojzmated::{Error, PagePin};
use std::ptr;
use std::sync::{Mutex, MutexGuard, PoisonError};

/// A place for a pin.
struct Slot {
    /// Its pager is there as long as it is: it is not freed before.
    pin: Option<PagePin<'static>>,
    /// That of the pin, or of the one that was there before.
    serial: u64,
    /// Where it is free, the next slot that is, or the number of slots.
    next_free: u32,
}

/// On lines of its own.
#[repr(align(128))]
struct Table(Mutex<Slots>);

struct Slots {
    slots: Vec<Slot>,
    /// The first slot that is free, or the number of slots.
    free: u32,
    /// The pins that were here so far.
    count: u64,
}

const COUNT: usize = 64;

static TABLES: [Table; COUNT] = [const { Table::new() }; COUNT];

/// The serial numbers of pins have this bit. Those of latches come in blocks from 0 on, and never get so far.
const OF_PINS: u64 = 1 << 63;

impl Table {
    const fn new() -> Table {
        Table(Mutex::new(Slots {
            slots: Vec::new(),
            free: 0,
            count: 0,
        }))
    }

    fn lock(&self) -> MutexGuard<'_, Slots> {
        self.0.lock().unwrap_or_else(PoisonError::into_inner)
    }
}

impl Slots {
    /// Makes sure that a slot is free.
    fn make_room(&mut self) -> Result<(), Error> {
        let count = self.slots.len();
        if self.free as usize == count {
            let next_free = u32::try_from(count + 1).map_err(|_| Error::OutOfMemory)?;
            let room = self.slots.try_reserve(1);
            room.map_err(|_| Error::OutOfMemory)?;
            self.slots.push(Slot {
                pin: None,
                serial: 0,
                next_free,
            });
        }
        Ok(())
    }

    /// Keeps a pin in a slot that is free. It returns the slot's number, and the pin's serial number: no other
    /// pin has it, of whichever table.
    fn put(&mut self, pin: PagePin<'static>, table: usize) -> (u32, u64) {
        let number = self.free;
        let slot = &mut self.slots[number as usize];
        self.count += 1;
        self.free = slot.next_free;
        slot.serial = OF_PINS | (self.count * COUNT as u64 + table as u64);
        slot.pin = Some(pin);
        (number, slot.serial)
    }

    fn of(&mut self, given: &hz_ref) -> Option<&mut Slot> {
        let slot = self.slots.get_mut(given.slot as usize)?;
        (slot.serial == given.serial && slot.pin.is_some()).then_some(slot)
    }

    fn take(&mut self, given: &hz_ref) -> Option<PagePin<'static>> {
        let free = self.free;
        let slot = self.of(given)?;
        let pin = slot.pin.take();
        slot.next_free = free;
        self.free = given.slot;
        pin
    }
}

fn table_of(page: u64) -> usize {
    page as usize % COUNT
}

/// Whether a handle is one that a pin has or had.
#[inline]
pub fn is_one(given: &hz_ref) -> bool {
    given.serial & OF_PINS != 0
}

/// Keeps a pin, and writes its handle to a place.
pub fn keep(pin: PagePin<'static>, page: u64, out: Place<hz_ref>) -> Result<(), Refusal> {
    let table = table_of(page);
    let mut slots = TABLES[table].lock();
    if let Err(error) = slots.make_room() {
        // The page is let go without the lock.
        drop(slots);
        drop(pin);
        return Err(error.into());
    }
    let (slot, serial) = slots.put(pin, table);
    drop(slots);
    out.put(hz_ref {
        bytes: ptr::null(),
        page,
        serial,
        slot,
        how: HZ_PINNED,
    });
    Ok(())
}

/// Whether the pin of a handle is here.
pub fn has(given: &hz_ref) -> bool {
    is_one(given) && TABLES[table_of(given.page)].lock().of(given).is_some()
}

/// Gives a pin back.
pub fn give_back(given: &hz_ref) -> Result<(), Refusal> {
    let pin = TABLES[table_of(given.page)].lock().take(given);
    pin.map(drop).ok_or_else(|| refusal(HZ_UNKNOWN_PASS))
}
