//! The word of a seat: the shares of the guards of its page, and what is so of the page's pass.

/// A shared latch, which is a pin too.
pub(super) const READER: u64 = 1;
/// A pin without a latch.
pub(super) const PIN: u64 = 1 << 20;
/// The exclusive latch, which is a pin too.
pub(super) const WRITER: u64 = 1 << 40;
/// Threads wait for the latch, in a queue: who lets it go calls them.
const QUEUED: u64 = 1 << 41;
/// The pass is out.
const OUT: u64 = 1 << 42;
/// The pass stays out when nobody uses the page.
const STAYS: u64 = 1 << 43;
/// Who comes now does not get the latch before those that wait.
const CLOSED: u64 = 1 << 44;
/// A pin that was made without the lock, of those that the part has not counted so far. The highest
/// bits: what does not fit is lost.
pub(super) const JOIN: u64 = 1 << 45;
/// After so many of them, a power of two, one is a reference.
const JOINS: u64 = 32;

const DUE: u64 = !(JOINS * JOIN - 1);

const READERS: u64 = PIN - READER;

const PINS: u64 = WRITER - PIN;

const JOINED: u64 = !(JOIN - 1);

const WAITED: u64 = QUEUED | CLOSED;

const LATCHED: u64 = READERS | WRITER;

const USERS: u64 = READERS | PINS | WRITER;
/// Who finds one of these bits gets no guard: the page has 2^19 readers or pins. A thread adds before
/// it looks, so the fields have room for as many again. Two for each thread take that: a reader that
/// became a pin, and another pin. So fewer than 2^18 threads never make a field go over into the next
/// one; more at one page might, as nothing counts threads.
const TOO_MANY: u64 = (READERS / 2 + 1) | (PINS / 2 + PIN / 2);

/// What a word was before something was added to it or taken from it, or what it is.
#[derive(Clone, Copy, Default)]
pub(super) struct Word(pub(super) u64);

impl Word {
    /// The page is pinned, or latched.
    #[inline]
    pub(super) fn is_used(self) -> bool {
        self.0 & USERS != 0
    }

    /// A thread has the exclusive latch.
    pub(super) fn is_written(self) -> bool {
        self.0 & WRITER != 0
    }

    /// A thread has a latch of the page.
    pub(super) fn is_latched(self) -> bool {
        self.0 & LATCHED != 0
    }

    #[inline]
    pub(super) fn is_out(self) -> bool {
        self.0 & OUT != 0
    }

    /// Nobody uses the page, and its pass is out but need not stay.
    #[inline]
    pub(super) fn is_over(self) -> bool {
        self.0 & (OUT | STAYS | USERS) == OUT
    }

    /// Nothing has to be done by who let the page go: the pass stays, and no thread waits for the
    /// latch.
    #[inline]
    pub(super) fn is_quiet(self) -> bool {
        self.0 & (STAYS | QUEUED) == STAYS
    }

    /// Whether a share may be added.
    #[inline]
    pub(super) fn has_room(self) -> bool {
        self.0 & TOO_MANY == 0
    }

    /// Whether a shared latch that was added to this is one: the pass is out, nobody has the
    /// exclusive latch or is to get a latch, and there is room.
    #[inline]
    pub(super) fn is_readable(self) -> bool {
        self.0 & (OUT | WRITER | CLOSED | TOO_MANY) == OUT
    }

    /// The same, and it is not time for a reference.
    #[inline]
    pub(super) fn is_readable_at_once(self) -> bool {
        self.0 & (OUT | WRITER | CLOSED | TOO_MANY | DUE) == OUT
    }

    /// Whether the exclusive latch may be added: the pass is out, nobody has a latch or is to get one,
    /// and it is not time for a reference.
    #[inline]
    pub(super) fn is_writable_at_once(self) -> bool {
        self.0 & (OUT | LATCHED | CLOSED | DUE) == OUT
    }

    #[inline]
    pub(super) fn is_pinnable(self) -> bool {
        self.0 & (OUT | TOO_MANY) == OUT
    }

    /// The latch came free, for which a thread waits.
    #[inline]
    pub(super) fn is_awaited(self) -> bool {
        self.0 & (QUEUED | LATCHED) == QUEUED
    }

    /// So many pins were made without the lock that it is time for a reference.
    #[inline]
    pub(super) fn is_due(self) -> bool {
        self.0 & DUE != 0
    }

    pub(super) fn joins(self) -> u64 {
        self.0 / JOIN
    }

    /// With the exclusive latch and a join, if it may be added at once.
    #[inline]
    pub(super) fn with_writer_at_once(self) -> Option<u64> {
        if self.is_writable_at_once() {
            Some(self.0 + (WRITER + JOIN))
        } else {
            None
        }
    }

    /// Without a share that is in it.
    #[inline]
    pub(super) fn without(self, share: u64) -> Word {
        debug_assert!(share <= self.0);
        Word(self.0 - share)
    }

    /// With a pin in place of a shared latch.
    #[inline]
    pub(super) fn turned_to_pin(self) -> Word {
        debug_assert!(0 < (self.0 % 1048576));
        debug_assert!((self.0 / 1048576 % 1048576) + 1 < 1048576);
        Word(self.0 + (PIN - READER))
    }

    /// Whether a latch is free, and nobody is to get it.
    #[inline]
    fn is_free(self, latch: u64) -> bool {
        if latch == READER {
            self.0 & (WRITER | CLOSED) == 0
        } else {
            self.0 & (LATCHED | CLOSED) == 0
        }
    }

    /// With a latch in place of a share, if the latch is free and nobody is to get it.
    #[inline]
    pub(super) fn with_latch(self, latch: u64, in_place_of: u64) -> Option<u64> {
        debug_assert!((latch == 1) || (latch == 1099511627776));
        debug_assert!(in_place_of <= self.0);
        if self.is_free(latch) && self.has_room() {
            Some(self.0 - in_place_of + latch)
        } else {
            None
        }
    }

    /// With a thread in the queue for the latch, if that is not free or others wait.
    pub(super) fn with_queue(self, latch: u64) -> Option<u64> {
        if self.has_room() && !self.is_free(latch) {
            Some((self.0 & !WAITED) + WAITED)
        } else {
            None
        }
    }

    /// With so many readers of the queue let in, if no writer is there.
    pub(super) fn with_readers(self, readers: u64, is_queue_empty: bool) -> Option<u64> {
        debug_assert!((self.0 % 1048576) + readers < 1048576);
        if self.is_written() {
            return None;
        }
        let opened = (self.0 & !WAITED) + readers * READER;
        Some(if is_queue_empty {
            opened
        } else {
            opened + WAITED
        })
    }

    /// With a writer of the queue let in if nobody has the latch, else closed.
    pub(super) fn with_writer(self, is_queue_empty: bool) -> u64 {
        let opened = self.0 & !WAITED;
        if self.is_latched() {
            opened + WAITED
        } else if is_queue_empty {
            opened + WRITER
        } else {
            opened + WAITED + WRITER
        }
    }

    /// Open for who comes.
    pub(super) fn opened(self) -> u64 {
        self.0 & !CLOSED
    }

    /// With the pass out, and a pin.
    #[inline]
    pub(super) fn with_pass(self, stays: bool) -> u64 {
        debug_assert!((self.0 / 4398046511104 % 2) == 0);
        debug_assert!((self.0 / 8796093022208 % 2) == 0);
        debug_assert!((self.0 / 1048576 % 1048576) + 1 < 1048576);
        let begun = (self.0 & !JOINED) + OUT + PIN;
        if stays { begun + STAYS } else { begun }
    }

    /// Without the pass, if nobody uses the page.
    #[inline]
    pub(super) fn without_pass(self) -> Option<u64> {
        if self.0 & (OUT | USERS) == OUT {
            Some(self.0 & !(OUT | STAYS | JOINED))
        } else {
            None
        }
    }

    pub(super) fn without_joins(self) -> u64 {
        self.0 & !JOINED
    }

    pub(super) fn staying(self) -> u64 {
        (self.0 & !STAYS) + STAYS
    }
}
