//! How many pages are away and remembered: in no frame, with references that LRU-K keeps.
use super::seats::Seats;

/// A count of the pages that are remembered. The pool does not tell it: so it is counted as pages leave
/// their frames, are read again, and are forgotten by a purge, which tells how many.
///
/// Whether a page that is read again was remembered is known by the time of its newest reference, of
/// which 31 bits are kept, and by that of the newest purge. So the count is near the truth.
pub(super) struct Away {
    count: usize,
    most: usize,
    retained: u64,
    /// When the newest purge was.
    purged: u64,
}

impl Away {
    pub(super) fn new(retained: u64) -> Away {
        Away {
            count: 0,
            most: 0,
            retained,
            purged: 0,
        }
    }

    /// A page left its frame, and is remembered.
    pub(super) fn leave(&mut self) {
        self.count += 1;
        self.most = self.most.max(self.count);
    }

    /// A page that is in no frame is to be read. Until it is, nobody forgets it.
    pub(super) fn come(&mut self, seats: &Seats, page: u64, now: u64) {
        let Some(age) = seats.age_of(page, now) else {
            return;
        };
        let age_at_purge = age.saturating_sub(now - self.purged);
        if age_at_purge <= self.retained {
            self.count = self.count.saturating_sub(1);
        } else {
            seats.set_unknown(page, now);
        }
    }

    /// A page could not be read, and is away again.
    pub(super) fn come_back(&mut self, seats: &Seats, page: u64, now: u64) {
        if seats.age_of(page, now).is_some() {
            self.leave();
        }
    }

    /// So many were forgotten by a purge.
    pub(super) fn forget(&mut self, count: u64, now: u64) {
        self.count = self.count.saturating_sub(count as usize);
        self.purged = now;
    }

    pub(super) fn count(&self) -> usize {
        self.count
    }

    /// The most at the same time.
    pub(super) fn most(&self) -> usize {
        self.most
    }
}
