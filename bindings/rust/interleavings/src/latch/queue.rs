//! The queue for the latch of one page: `Waiters` of `waiters.rs`, which the pager runs, in a few bytes and without
//! a time. It changes under the mutex of the queues.
use super::{At, Place};
use crate::numbers::Numbers;
use crate::waiters::{self, Waiters};
use crate::word::Word;

/// The fields have the names that they have there.
#[derive(Clone, Copy, Default, PartialEq, Eq, Hash, Debug)]
pub(super) struct Queue {
    pub(super) writers: u8,
    pub(super) let_in: u8,
    pub(super) is_awake: bool,
    pub(super) first: u8,
    pub(super) second: u8,
    pub(super) turns: u8,
}

/// What a step makes of the queue and the word, and where threads sleep.
#[derive(Clone, Copy, PartialEq, Eq)]
pub(super) struct Change {
    pub(super) queue: Queue,
    pub(super) word: u64,
    pub(super) place: Option<Place>,
}

impl From<Queue> for Waiters {
    fn from(queue: Queue) -> Waiters {
        Waiters {
            writers: u64::from(queue.writers),
            let_in: u64::from(queue.let_in),
            since: 0,
            is_awake: queue.is_awake,
            first: u64::from(queue.first),
            second: u64::from(queue.second),
            turns: u64::from(queue.turns),
        }
    }
}

impl From<Place> for waiters::Place {
    fn from(place: Place) -> waiters::Place {
        match place {
            Place::Readers(turn) => waiters::Place::Readers(u64::from(turn)),
            Place::Writer(ticket) => waiters::Place::Writer(u64::from(ticket)),
        }
    }
}

impl From<waiters::Change> for Change {
    fn from(change: waiters::Change) -> Change {
        let waiters = change.waiters;
        Change {
            queue: Queue {
                writers: waiters.writers as u8,
                let_in: waiters.let_in as u8,
                is_awake: waiters.is_awake,
                first: waiters.first as u8,
                second: waiters.second as u8,
                turns: waiters.turns as u8,
            },
            word: change.word,
            place: change.place.map(|place| match place {
                waiters::Place::Readers(turn) => Place::Readers(turn as u8),
                waiters::Place::Writer(ticket) => Place::Writer(ticket as u8),
            }),
        }
    }
}

impl Queue {
    pub(super) fn is_empty(self) -> bool {
        Waiters::from(self).is_empty()
    }

    /// Whether who sleeps at a place has got the latch.
    pub(super) fn has_let_in(self, place: Place) -> bool {
        Waiters::from(self).has_let_in(place.into())
    }

    pub(super) fn entered(self, word: u64, latch: u64) -> Option<Change> {
        let change = Waiters::from(self).entered(Word(word), latch, 0)?;
        Some(change.into())
    }

    /// With the first writer due, or not: it has been the first since time 0.
    pub(super) fn handed_over(self, word: u64, is_due: bool) -> Change {
        let now = if is_due { u64::MAX } else { 0 };
        Waiters::from(self).handed_over(Word(word), now).into()
    }

    pub(super) fn looked(self, word: u64, ticket: u8) -> Change {
        let ticket = u64::from(ticket);
        Waiters::from(self).looked(Word(word), ticket, 0).into()
    }
}

/// Numbers turns and tickets anew, in the same order, so that they stay small. Of the tickets from `let_in` on
/// each is there: so those that follow each other still do.
pub(super) fn renumber(queue: &mut Queue, threads: &mut [At]) {
    let (mut turns, mut tickets) = (Numbers::default(), Numbers::default());
    turns.add(queue.turns);
    tickets.add(queue.let_in);
    tickets.add(queue.writers);
    for place in threads.iter_mut().filter_map(At::place) {
        match place {
            Place::Readers(turn) => turns.add(*turn),
            Place::Writer(ticket) => tickets.add(*ticket),
        }
    }
    for place in threads.iter_mut().filter_map(At::place) {
        *place = match *place {
            Place::Readers(turn) => Place::Readers(turns.rank(turn)),
            Place::Writer(ticket) => Place::Writer(tickets.rank(ticket)),
        };
    }
    queue.turns = turns.rank(queue.turns);
    queue.let_in = tickets.rank(queue.let_in);
    queue.writers = tickets.rank(queue.writers);
}
