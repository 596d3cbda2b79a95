//! The line of calls that wait for a frame of a part: frames go to who has waited longest.
use super::aside::Failed;
use super::part::{Fix, Locked, Part, State};
use super::watch::{For, Waited};
use crate::{Error, Result};
use std::sync::PoisonError;
use std::sync::atomic::Ordering;
use std::time::{Duration, Instant};

/// The most groups in line. Each has a place of its own to sleep at.
pub(super) const GROUPS: usize = 64;

/// So long a group has been first before a call that comes then stands behind it, and does not take a
/// frame that comes free before the group is awake.
const PATIENCE: Duration = Duration::from_micros(100);

/// So long a call waits that has found a fault. While it does, the pages that it has set aside are kept from calls
/// for which they might go out by now, and from those that have pins and wait for a frame themselves.
const WITH_FAULT: Duration = Duration::from_millis(5);

/// Calls that wait for a frame, in groups. Each call that comes is a group of its own, until there are
/// [`GROUPS`] of them: then it joins the last one. The first group has its turn.
///
/// A ticket is the number of a group. Those from `first` to before `next` are in line, and the first of
/// them is never empty. In line a call sleeps, or is about to take the part's lock: it does no device
/// work there, and waits for nothing else.
pub(super) struct Line {
    groups: [Group; GROUPS],
    first: u64,
    next: u64,
    /// When the first group became the first.
    since: Instant,
}

#[derive(Clone, Copy, Default)]
struct Group {
    calls: usize,
    /// The page of the call, or None where there are several.
    page: Option<u64>,
}

/// The place at which a group sleeps.
fn place_of(ticket: u64) -> usize {
    (ticket % GROUPS as u64) as usize
}

impl Line {
    pub(super) fn new() -> Line {
        Line {
            groups: [Group::default(); GROUPS],
            first: 0,
            next: 0,
            since: Instant::now(),
        }
    }

    #[inline]
    pub(super) fn is_empty(&self) -> bool {
        self.first == self.next
    }

    /// Whether who comes now stands behind those that are in line.
    #[inline]
    fn is_closed(&self) -> bool {
        !self.is_empty() && self.since.elapsed() >= PATIENCE
    }

    /// Adds a call that wants a page, at the end or to the first group, and returns its ticket.
    fn join(&mut self, page: u64, is_first: bool) -> u64 {
        if self.is_empty() {
            self.since = Instant::now();
        }
        let last = self.next.min(self.first + GROUPS as u64 - 1);
        let ticket = if is_first { self.first } else { last };
        self.next = self.next.max(ticket + 1);
        let group = &mut self.groups[place_of(ticket)];
        group.page = (group.calls == 0).then_some(page);
        group.calls += 1;
        ticket
    }

    /// Takes a call out of the line, and returns whether it was its turn.
    fn leave(&mut self, ticket: u64) -> bool {
        let had_turn = self.is_first(ticket);
        self.groups[place_of(ticket)].calls -= 1;
        let first = self.first;
        while !self.is_empty() && self.groups[place_of(self.first)].calls == 0 {
            self.first += 1;
        }
        if self.first != first {
            self.since = Instant::now();
        }
        had_turn
    }

    fn is_first(&self, ticket: u64) -> bool {
        ticket == self.first
    }

    /// Where the first group sleeps, if there is one.
    pub(super) fn first_place(&self) -> Option<usize> {
        (!self.is_empty()).then(|| place_of(self.first))
    }

    /// Where the groups sleep that may have a call for this page.
    pub(super) fn places_of(&self, page: u64) -> impl Iterator<Item = usize> {
        let places = (self.first..self.next).map(place_of);
        places.filter(move |place| self.groups[*place].page.is_none_or(|it| it == page))
    }
}

/// How long a call waits for a frame.
pub(super) struct Patience<'a> {
    /// None where it does not wait.
    most: Option<Duration>,
    began: Option<Instant>,
    /// When it first had to wait after it had found a fault.
    fault_since: Option<Instant>,
    /// It had its turn, or was given a victim. So it does not stand behind those that came later.
    pub(super) had_turn: bool,
    /// The page is made anew, whatever was read ahead of it.
    is_new: bool,
    waited: &'a Waited<'a>,
}

impl<'a> Patience<'a> {
    pub(super) fn new(
        most: Option<Duration>,
        is_new: bool,
        waited: &'a Waited<'a>,
    ) -> Patience<'a> {
        Patience {
            most,
            began: None,
            fault_since: None,
            had_turn: false,
            is_new,
            waited,
        }
    }

    /// How long it may still wait. None where it may not.
    fn left(&mut self, has_fault: bool) -> Option<Duration> {
        let most = self.most?;
        let began = self.began.get_or_insert_with(Instant::now);
        let mut left = most.saturating_sub(began.elapsed());
        if has_fault {
            let since = self.fault_since.get_or_insert_with(Instant::now);
            left = left.min(WITH_FAULT.saturating_sub(since.elapsed()));
        }
        (!left.is_zero()).then_some(left)
    }
}

impl Part {
    /// Asks the pool for a page that was away, if no others have to get frames before. It is
    /// [`Error::NoVictim`] where they have.
    pub(super) fn ask_in_turn(&self, state: &mut State, page: u64, had_turn: bool) -> Result<Fix> {
        if !had_turn && state.line.is_closed() && self.needs_frame(state, page) {
            return Err(Error::NoVictim);
        }
        self.ask(state, page)
    }

    /// Whether a page is in no frame and nobody reads it.
    fn needs_frame(&self, state: &mut State, page: u64) -> bool {
        self.seats.of(page).is_none() && !self.is_read(state, page)
    }

    /// Goes on with a call for a page that was told [`Error::NoVictim`]: looks for a frame if it is its
    /// turn, and else or without success stands in line. It returns what the pool said then, which is
    /// [`Error::NoVictim`] where the call is to be refused.
    pub(super) fn find_frame<'a>(
        &'a self,
        mut state: Locked<'a>,
        page: u64,
        patience: &mut Patience<'_>,
        failed: &Failed<'_>,
    ) -> (Locked<'a>, Result<Fix>) {
        if patience.had_turn || !state.line.is_closed() {
            let fixed = self.look(&mut state, page, patience.is_new);
            if !is_without_victim(&fixed) || failed.is_in_vain(self, &state) {
                return (state, fixed);
            }
        }
        if patience.left(failed.has_fault()).is_none() {
            return (state, Err(Error::NoVictim));
        }
        let ticket = state.line.join(page, patience.had_turn);
        self.waiting.fetch_add(1, Ordering::SeqCst);
        let (mut state, fixed) = self.wait_in_line(state, ticket, page, patience, failed);
        self.waiting.fetch_sub(1, Ordering::SeqCst);
        if state.line.leave(ticket) {
            patience.had_turn = true;
            // What woke this call may be of use to the next one.
            self.wake_first(&state);
        }
        (state, fixed)
    }

    /// Waits in line until it is the call's turn and there is a frame, or until its page needs none: by
    /// another call it was read, or is being read. What is waited for is looked for once other threads
    /// see that one waits.
    fn wait_in_line<'a>(
        &'a self,
        mut state: Locked<'a>,
        ticket: u64,
        page: u64,
        patience: &mut Patience<'_>,
        failed: &Failed<'_>,
    ) -> (Locked<'a>, Result<Fix>) {
        loop {
            state = match self.with_image(state) {
                Ok(locked) => locked,
                Err(error) => return (self.lock(), Err(error)),
            };
            if state.line.is_first(ticket) || !self.needs_frame(&mut state, page) {
                let fixed = self.look(&mut state, page, patience.is_new);
                if !is_without_victim(&fixed) || failed.is_in_vain(self, &state) {
                    return (state, fixed);
                }
            }
            let Some(left) = patience.left(failed.has_fault()) else {
                return (state, Err(Error::NoVictim));
            };
            state.waits += 1;
            let turns = self.turns(place_of(ticket));
            let woken = patience
                .waited
                .sleep(For::Frame, || turns.wait_timeout(state, left));
            (state, _) = woken.unwrap_or_else(PoisonError::into_inner);
        }
    }

    /// Asks the pool for a page. If it has no victim, passes are given back that are not used; and if all
    /// pages that could make way are too young, the clock is moved on.
    fn look(&self, state: &mut State, page: u64, is_new: bool) -> Result<Fix> {
        let mut has_aged = false;
        if is_new {
            self.drop_ahead(state, page);
        }
        loop {
            let fixed = self.ask(state, page);
            if !is_without_victim(&fixed) {
                return fixed;
            }
            if self.make_way(state, usize::MAX) > 0 || self.give_all_back(state) > 0 {
                continue;
            }
            if has_aged || !self.has_unused(state) {
                return fixed;
            }
            has_aged = true;
            let period = state.pool.config().correlated;
            // At the end of its clock the part can only wait.
            let _ = self.tick(state, period + 1);
        }
    }
}

fn is_without_victim(fixed: &Result<Fix>) -> bool {
    matches!(fixed, Err(Error::NoVictim))
}

#[cfg(test)]
mod tests {
    use super::*;

    /// The tickets of calls that come for pages 0, 1 and so on.
    fn tickets(line: &mut Line, count: u64) -> Vec<u64> {
        (0..count).map(|page| line.join(page, false)).collect()
    }

    #[test]
    fn each_has_its_turn_in_order() {
        let mut line = Line::new();
        assert_eq!((line.is_empty(), line.first_place()), (true, None));
        let tickets = tickets(&mut line, 3);
        for ticket in tickets {
            assert!(!line.is_empty() && line.is_first(ticket));
            assert!(line.leave(ticket));
        }
        assert_eq!((line.is_empty(), line.first_place()), (true, None));
    }

    // Who gives up in the middle leaves a group without a call, which has no turn.
    #[test]
    fn who_leaves_early() {
        let mut line = Line::new();
        let tickets = tickets(&mut line, 4);
        assert!(!line.leave(tickets[1]) && !line.leave(tickets[2]));
        assert!(line.leave(tickets[0]));
        assert!(line.is_first(tickets[3]) && line.leave(tickets[3]));
        assert!(line.is_empty());
    }

    // A call that had its turn comes first again, also where nobody is in line.
    #[test]
    fn who_had_a_turn() {
        let mut line = Line::new();
        let again = line.join(7, true);
        assert!(line.is_first(again));
        let behind = line.join(8, false);
        let other = line.join(9, true);
        assert_eq!((other, line.is_first(behind)), (again, false));
        assert!(line.leave(again) && line.is_first(other) && line.leave(other));
        assert!(line.is_first(behind) && line.leave(behind));
    }

    // Where there are as many groups as places, the last is joined. It has its turn like the others.
    #[test]
    fn more_calls_than_places() {
        let mut line = Line::new();
        let tickets = tickets(&mut line, 2 * GROUPS as u64);
        assert_eq!(tickets[GROUPS - 1..], vec![tickets[GROUPS - 1]; GROUPS + 1]);
        for (number, ticket) in tickets.iter().enumerate() {
            assert!(line.is_first(*ticket), "{number}");
            assert!(line.leave(*ticket));
            let late = line.join(99, false);
            assert!(late >= *ticket && !line.leave(late) || line.is_empty());
        }
        assert!(line.is_empty());
    }

    #[test]
    fn groups_of_a_page() {
        let mut line = Line::new();
        for page in [5, 6, 5] {
            line.join(page, false);
        }
        let places = |line: &Line, page| line.places_of(page).collect::<Vec<_>>();
        assert_eq!((places(&line, 5), places(&line, 6)), (vec![0, 2], vec![1]));
        assert_eq!(places(&line, 7), []);
        // Of a group with calls of several pages each may be meant.
        line.join(7, true);
        assert_eq!((places(&line, 5), places(&line, 7)), (vec![0, 2], vec![0]));
    }

    #[test]
    fn closed_after_a_while() {
        let mut line = Line::new();
        std::thread::sleep(2 * PATIENCE);
        assert!(!line.is_closed());
        let first = line.join(1, false);
        let second = line.join(2, false);
        std::thread::sleep(2 * PATIENCE);
        assert!(line.is_closed());
        line.leave(first);
        line.leave(second);
        assert!(!line.is_closed());
    }
}
