//! The threads that wait for latches of a part's pages, and who of them is next.
use super::part::Part;
use super::seats::{Seat, filled};
use super::waiters::{Place, Waiters};
use super::watch::{For, Waited};
use super::word::PIN;
use crate::{Error, Result};
use std::sync::{Condvar, Mutex, MutexGuard, PoisonError};
use std::thread;
use std::time::{Duration, Instant};

/// The number of places at which threads sleep. Threads that wait for different turns may share
/// one, and then are woken in vain.
const PLACES: usize = 32;

/// How long a thread rests between two looks at a latch for which it may not queue.
const REST: Duration = Duration::from_micros(200);

/// The queues for the latches of a part's pages. Who lets a latch go calls those who are next, and no
/// others: [`Waiters`] has who that is.
pub(super) struct Queues {
    state: Mutex<State>,
    places: [Condvar; PLACES],
    /// When the times of the queues began.
    began: Instant,
}

struct State {
    /// Who waits for the latch of each seat's page.
    of_seats: Box<[Waiters]>,
    /// The number of times that a thread came to wait.
    waits: u64,
}

impl Queues {
    pub(super) fn new(seats: usize) -> Result<Queues> {
        let of_seats = filled(seats)?.into_boxed_slice();
        Ok(Queues {
            state: Mutex::new(State { of_seats, waits: 0 }),
            places: [const { Condvar::new() }; PLACES],
            began: Instant::now(),
        })
    }

    fn lock(&self) -> MutexGuard<'_, State> {
        self.state.lock().unwrap_or_else(PoisonError::into_inner)
    }

    /// The number of times that a thread came to wait.
    pub(super) fn waits(&self) -> u64 {
        self.lock().waits
    }

    /// The nanoseconds since the queues were made.
    fn now(&self) -> u64 {
        self.began.elapsed().as_nanos() as u64
    }

    fn condition(&self, number: usize, place: Place) -> &Condvar {
        let turn = match place {
            Place::Readers(turn) => turn as usize,
            Place::Writer(ticket) => ticket as usize + PLACES / 2,
        };
        &self.places[(number * 7 + turn) % PLACES]
    }

    /// Waits for the latch of a page, which the caller has pinned. The caller's pin stays.
    ///
    /// # Errors
    /// Those of [`Seat::latch_or_queue`].
    pub(super) fn wait(
        &self,
        seat: &Seat,
        number: usize,
        latch: u64,
        waited: &Waited<'_>,
    ) -> Result<()> {
        let mut state = self.lock();
        let waiters = &mut state.of_seats[number];
        let Some(place) = seat.latch_or_queue(waiters, latch, self.now())? else {
            return Ok(());
        };
        state.waits += 1;
        waited.sleep(For::Latch, || self.sleep(state, seat, number, place));
        Ok(())
    }

    /// Sleeps until the latch is handed over to who has this place.
    fn sleep(&self, mut state: MutexGuard<'_, State>, seat: &Seat, number: usize, place: Place) {
        let condition = self.condition(number, place);
        loop {
            state = condition
                .wait(state)
                .unwrap_or_else(PoisonError::into_inner);
            let waiters = &mut state.of_seats[number];
            if let Place::Writer(ticket) = place {
                seat.look(waiters, ticket, self.now());
            }
            if waiters.has_let_in(place) {
                return;
            }
        }
    }

    /// Hands the latch of a page to who is next, or wakes a writer that may take it. Who lets a latch
    /// go in whose queue threads wait calls it: so one call always comes after the latch is free.
    #[cold]
    pub(super) fn hand_over(&self, seat: &Seat, number: usize) {
        let mut state = self.lock();
        let woken = seat.hand_over(&mut state.of_seats[number], self.now());
        drop(state);
        if let Some(place) = woken {
            self.condition(number, place).notify_all();
        }
    }
}

impl Part {
    /// Waits for a latch, beside a pin.
    ///
    /// # Errors
    /// [`Error::Deadlock`] where this thread has noted a latch of the page; [`Error::Busy`] in a function of the
    /// engine, where it waits for the pin wait at most; [`Error::TooManyGuards`].
    #[inline]
    pub(super) fn take_latch(&self, seat: &Seat, latch: u64) -> Result<()> {
        if seat.try_latch(latch, 0) {
            return Ok(());
        }
        let waited = Waited::new(self.watch(), self.in_file(seat.page()));
        self.wait_for_latch(seat, latch, 0, &waited)
    }

    /// Waits for a latch in place of a pin, as the last step of a call.
    ///
    /// # Errors
    /// The same, where the call waits for the pin wait at most in all.
    #[inline]
    pub(super) fn turn_pin(&self, seat: &Seat, latch: u64, waited: &Waited<'_>) -> Result<()> {
        if seat.try_latch(latch, PIN) {
            return Ok(());
        }
        self.wait_for_latch(seat, latch, PIN, waited)
    }

    #[cold]
    fn wait_for_latch(
        &self,
        seat: &Seat,
        latch: u64,
        in_place_of: u64,
        waited: &Waited<'_>,
    ) -> Result<()> {
        // Who would let it go waits here.
        if self.is_own(seat) {
            return Err(Error::Deadlock);
        }
        if seat.latch_soon(latch, in_place_of) {
            return Ok(());
        }
        if self.is_within() {
            // A thread that has the latch may wait for this one: so it does not queue.
            while !seat.try_latch(latch, in_place_of) {
                let left = waited.left(self.pin_wait).ok_or(Error::Busy)?;
                waited.sleep(For::Latch, || thread::sleep(REST.min(left)));
            }
            return Ok(());
        }
        let number = self.seats.number_of(seat);
        self.queues().wait(seat, number, latch, waited)?;
        if in_place_of > 0 {
            seat.leave(in_place_of);
        }
        Ok(())
    }

    /// The number of times that a thread waited for a latch.
    pub(super) fn latch_waits(&self) -> u64 {
        self.queues().waits()
    }

    /// Gives the latch of a seat's page to the threads that are next.
    pub(super) fn hand_over(&self, seat: &Seat) {
        let number = self.seats.number_of(seat);
        self.queues().hand_over(seat, number);
    }
}
