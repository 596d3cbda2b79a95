//! The latches that each thread has, for pagers that note them: a thread does not wait for one of its own.
use super::seats::Seat;
use std::cell::Cell;
use std::ptr;

/// The most latches of a thread that are noted, so that it takes no memory.
const MOST: usize = 32;

/// A latch: its pager's number, which no other pager has or had, and where the seat of its page is.
type Latch = (u64, *const Seat);

/// The latches of a thread, as many as are counted.
struct Own {
    count: Cell<usize>,
    latches: [Cell<Latch>; MOST],
}

thread_local! {
    // It has nothing to drop: so it is there until the thread has ended.
    static OWN: Own = const {
        Own {
            count: Cell::new(0),
            latches: [const { Cell::new((0, ptr::null())) }; MOST],
        }
    };
}

impl Own {
    fn place_of(&self, latch: Latch) -> Option<usize> {
        let taken = &self.latches[..self.count.get()];
        taken.iter().rposition(|it| it.get() == latch)
    }
}

/// Notes a latch of this thread, if not too many are noted.
pub(super) fn note(pager: u64, seat: &Seat) {
    OWN.with(|own| {
        let count = own.count.get();
        if let Some(place) = own.latches.get(count) {
            place.set((pager, seat));
            own.count.set(count + 1);
        }
    });
}

/// Notes that this thread has let a latch go.
pub(super) fn forget(pager: u64, seat: &Seat) {
    OWN.with(|own| {
        if let Some(place) = own.place_of((pager, seat)) {
            let last = own.count.get() - 1;
            own.latches[place].swap(&own.latches[last]);
            own.count.set(last);
        }
    });
}

/// Whether this thread has a latch of a seat's page that was noted.
pub(super) fn has(pager: u64, seat: &Seat) -> bool {
    OWN.with(|own| own.place_of((pager, seat)).is_some())
}

#[cfg(test)]
mod tests {
    use super::*;

    // They are let go in any order, and of too many the others are as they were.
    #[test]
    fn latches_of_a_thread() {
        let seats: [Seat; MOST + 2] = std::array::from_fn(|_| Seat::default());
        let noted = || seats.iter().filter(|it| has(1, it)).count();
        seats.iter().for_each(|it| note(1, it));
        assert_eq!((noted(), has(2, &seats[0])), (MOST, false));
        seats[..MOST].iter().step_by(2).for_each(|it| forget(1, it));
        seats[MOST..].iter().for_each(|it| forget(1, it));
        assert_eq!((noted(), has(1, &seats[0])), (MOST / 2, false));
        // Twice, and of another pager.
        note(1, &seats[1]);
        note(2, &seats[1]);
        forget(1, &seats[1]);
        assert!(has(1, &seats[1]));
        forget(1, &seats[1]);
        assert_eq!((has(1, &seats[1]), has(2, &seats[1])), (false, true));
        forget(2, &seats[1]);
        seats.iter().for_each(|it| forget(1, it));
        assert_eq!(OWN.with(|own| own.count.get()), 0);
    }
}
