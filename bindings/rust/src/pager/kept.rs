//! The passes that are out, in the order in which they are looked at: see [`Part::make_way`].
//!
//! [`Part::make_way`]: super::part::Part::make_way
use super::seats::{filled, list_of};
use crate::{Error, Result};
use std::collections::VecDeque;

/// The passes of a part that are out, by their seats.
pub(super) struct Kept {
    queue: VecDeque<u32>,
    stamps: Vec<Stamps>,
}

/// What is known of a seat's page.
#[derive(Clone, Copy, Default)]
struct Stamps {
    /// The newest reference that the pool knows.
    last: u64,
    /// The first use of a page that was read ahead, where the pool was not told.
    first_use: u64,
    /// The pass need not be looked at before.
    due: u64,
    /// The page was read ahead, and not used since.
    is_ahead: bool,
    /// Whether the seat is in the queue. It stays there where its page is discarded, and then may have
    /// another page.
    is_queued: bool,
}

impl Kept {
    pub(super) fn new(seats: usize) -> Result<Kept> {
        let queue = VecDeque::from(list_of(seats)?);
        if queue.capacity() < seats {
            return Err(Error::OutOfMemory);
        }
        Ok(Kept {
            queue,
            stamps: filled(seats)?,
        })
    }

    pub(super) fn len(&self) -> usize {
        self.queue.len()
    }

    pub(super) fn seats(&self) -> impl Iterator<Item = usize> {
        self.queue.iter().map(|seat| *seat as usize)
    }

    /// Returns the seat that is next, if it is due.
    pub(super) fn next(&self, now: u64) -> Option<usize> {
        let seat = *self.queue.front()? as usize;
        (self.stamps[seat].due <= now).then_some(seat)
    }

    pub(super) fn take_next(&mut self) -> Option<usize> {
        let seat = self.queue.pop_front()? as usize;
        self.stamps[seat].is_queued = false;
        Some(seat)
    }

    /// Puts a seat behind the others, or leaves it where it is. There is room: each seat is there once.
    pub(super) fn put(&mut self, seat: usize, due: u64) {
        let stamps = &mut self.stamps[seat];
        stamps.due = due;
        if !stamps.is_queued {
            stamps.is_queued = true;
            self.queue.push_back(seat as u32);
        }
    }

    /// Notes whether a seat's page was read ahead.
    pub(super) fn set_ahead(&mut self, seat: usize, is_ahead: bool) {
        self.stamps[seat].is_ahead = is_ahead;
    }

    /// Whether it was, and was not used since, as far as that was counted.
    pub(super) fn is_ahead(&self, seat: usize) -> bool {
        self.stamps[seat].is_ahead
    }

    /// Returns whether it was, and notes that it was used.
    pub(super) fn take_ahead(&mut self, seat: usize) -> bool {
        std::mem::take(&mut self.stamps[seat].is_ahead)
    }

    /// Notes the first use of a page that was read ahead, of which the pool is not told.
    pub(super) fn use_first(&mut self, seat: usize, now: u64) {
        self.stamps[seat].first_use = now;
    }

    pub(super) fn last(&self, seat: usize) -> u64 {
        self.stamps[seat].last
    }

    /// The newest reference, or first use, of a seat's page. That of an earlier page was before its last.
    pub(super) fn newest(&self, seat: usize) -> u64 {
        let stamps = &self.stamps[seat];
        stamps.last.max(stamps.first_use)
    }

    pub(super) fn refer(&mut self, seat: usize, now: u64) {
        self.stamps[seat].last = now;
    }
}
