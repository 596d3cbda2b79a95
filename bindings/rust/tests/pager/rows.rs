//! Rows of `tests/worked_rows` by a pager with one part, whose clock moves on by one at each call that
//! gives a page.
use crate::device::{Asked, Device, Fate, config, put};
use hojzmated::{Error, PagePin, Pager, PagerError};
use std::sync::Arc;

/// A call.
#[derive(Clone, Copy, Debug)]
enum Do {
    Look(u64),
    /// Puts a byte at the start of a page, with an LSN.
    Put(u64, u8, u64),
    /// Pins a page until the next `Unpin`.
    Pin(u64),
    Unpin,
    Flush(u64),
    Mark(u64),
    Purge,
    /// Says how the next request to the device ends.
    Next(Fate),
    /// Lists the pages in frames.
    Frames,
}

/// What a call gives.
#[derive(Debug, PartialEq, Eq)]
enum Gives {
    /// It is done, and the device was asked for this.
    Asks(Vec<Asked>),
    Refused(Error, Vec<Asked>),
    Pages(Vec<u64>),
    /// How many pages a purge forgot.
    Number(u64),
}

fn asks<const N: usize>(asked: [Asked; N]) -> Gives {
    Gives::Asks(asked.into())
}

fn refused<const N: usize>(error: Error, asked: [Asked; N]) -> Gives {
    Gives::Refused(error, asked.into())
}

fn pages<const N: usize>(pages: [u64; N]) -> Gives {
    Gives::Pages(pages.into())
}

/// A pager that is called by rows.
struct Run<'a> {
    pager: &'a Pager<Device>,
    pin: Option<PagePin<'a>>,
}

impl Run<'_> {
    fn told(&self, done: Result<(), PagerError>) -> Gives {
        let asked = self.pager.io().asked();
        match done {
            Ok(()) => Gives::Asks(asked),
            Err(error) => Gives::Refused(error.refusal(), asked),
        }
    }

    fn write(&self, page: u64, byte: u8, lsn: u64) -> Result<(), PagerError> {
        Ok(self.pager.write(page)?.put(0, &[byte], lsn)?)
    }

    fn call(&mut self, what: Do) -> Gives {
        let pager = self.pager;
        let done = match what {
            Do::Look(page) => pager.read(page).map(drop),
            Do::Put(page, byte, lsn) => self.write(page, byte, lsn),
            Do::Pin(page) => pager.pin(page).map(|pin| self.pin = Some(pin)),
            Do::Flush(page) => pager.flush(page),
            Do::Unpin => {
                self.pin = None;
                Ok(())
            }
            Do::Mark(lsn) => {
                pager.mark(lsn);
                Ok(())
            }
            Do::Next(fate) => {
                pager.io().is_next(fate);
                Ok(())
            }
            Do::Purge => return Gives::Number(pager.purge().unwrap()),
            Do::Frames => {
                let all = 0..pager.config().pages;
                return Gives::Pages(all.filter(|page| pager.is_resident(*page)).collect());
            }
        };
        self.told(done)
    }
}

/// Makes the calls in turn. Each gives what stands beside it.
fn follow<const N: usize>(pager: &Pager<Device>, rows: [(Do, Gives); N]) {
    let mut run = Run { pager, pin: None };
    for (at, (what, gives)) in rows.into_iter().enumerate() {
        assert_eq!(run.call(what), gives, "row {at}: {what:?}");
    }
}

fn pager(k: u8, retained: u64, frames: usize) -> Pager<Device> {
    let config = config(frames).with_k(k).with_retained(retained);
    Pager::new(&config, Device::default()).unwrap()
}

/// Makes the calls over a pager with two stamps.
fn usual<const N: usize>(frames: usize, rows: [(Do, Gives); N]) {
    follow(&pager(2, 1000, frames), rows);
}

#[test]
fn failed_read_records_nothing() {
    let rows = [
        (Do::Next(Fate::Fails), asks([])),
        (Do::Look(4), refused(Error::ReadFailed, [Asked::Read(4)])),
        (Do::Frames, pages([])),
        (Do::Look(5), asks([Asked::Read(5)])),
        (Do::Look(4), asks([Asked::Read(4)])),
        (Do::Frames, pages([4])),
    ];
    usual(1, rows);
}

#[test]
fn wrong_page_records_nothing() {
    let rows = [
        (Do::Next(Fate::FindsAnother), asks([])),
        (Do::Look(4), refused(Error::WrongPage, [Asked::Read(4)])),
        (Do::Flush(4), asks([])),
        (Do::Look(5), asks([Asked::Read(5)])),
        (Do::Look(5), asks([])),
    ];
    usual(1, rows);
}

// Page 1 makes way for page 2, and is purged one call past the retained period of two.
#[test]
fn purge_past_the_retained_period() {
    let rows = [
        (Do::Look(1), asks([Asked::Read(1)])),
        (Do::Look(2), asks([Asked::Read(2)])),
        (Do::Look(2), asks([])),
        (Do::Purge, Gives::Number(0)),
        (Do::Look(2), asks([])),
        (Do::Purge, Gives::Number(1)),
        (Do::Purge, Gives::Number(0)),
    ];
    follow(&pager(2, 2, 1), rows);
}

// While page 1 is pinned, page 2 makes way, and afterwards page 1.
#[test]
fn pinned_page_stays_at_k_one() {
    let rows = [
        (Do::Pin(1), asks([Asked::Read(1)])),
        (Do::Look(2), asks([Asked::Read(2)])),
        (Do::Look(3), asks([Asked::Read(3)])),
        (Do::Look(4), asks([Asked::Read(4)])),
        (Do::Frames, pages([1, 3, 4])),
        (Do::Unpin, asks([])),
        (Do::Look(5), asks([Asked::Read(5)])),
        (Do::Frames, pages([3, 4, 5])),
    ];
    follow(&pager(1, 1000, 3), rows);
}

// Page 1 is written to while it is written out, and has to be written out once more before it makes
// way.
#[test]
fn write_during_a_write_out() {
    let pager = Arc::new_cyclic(|weak: &std::sync::Weak<Pager<Device>>| {
        let (pager, weak) = (pager(2, 1000, 1), weak.clone());
        pager.io().within(move |asked| {
            if asked == Asked::Write(1, 1, 1) {
                put(&weak.upgrade().unwrap(), 1, 2, 1);
            }
        });
        pager
    });
    let rows = [
        (Do::Put(1, 1, 1), asks([Asked::Read(1)])),
        (Do::Mark(1), asks([])),
        (Do::Flush(1), asks([Asked::Write(1, 1, 1)])),
        (Do::Look(2), asks([Asked::Write(1, 2, 1), Asked::Read(2)])),
        (Do::Flush(1), asks([])),
    ];
    follow(&pager, rows);
}

// The page keeps what was written to it, and is flushed anew.
#[test]
fn flush_after_a_failed_write_out() {
    let rows = [
        (Do::Put(1, 9, 1), asks([Asked::Read(1)])),
        (Do::Mark(1), asks([])),
        (Do::Next(Fate::Fails), asks([])),
        (
            Do::Look(2),
            refused(Error::WriteFailed, [Asked::Write(1, 9, 1)]),
        ),
        (Do::Look(1), asks([])),
        (Do::Flush(1), asks([Asked::Write(1, 9, 1)])),
        (Do::Flush(1), asks([])),
        (Do::Look(2), asks([Asked::Read(2)])),
    ];
    usual(1, rows);
}

#[test]
fn unsaved_victim_waits() {
    let rows = [
        (Do::Put(1, 1, 0), asks([Asked::Read(1)])),
        (Do::Look(2), asks([Asked::Write(1, 1, 0), Asked::Read(2)])),
    ];
    usual(1, rows);
}

#[test]
fn flush_waits_for_the_log() {
    let needs_log = Error::NeedLog { lsn: 3 };
    let rows = [
        (Do::Look(1), asks([Asked::Read(1)])),
        (Do::Flush(1), asks([])),
        (Do::Put(1, 5, 3), asks([])),
        (Do::Next(Fate::IsNotYet), asks([])),
        (Do::Flush(1), refused(needs_log, [Asked::Log(3)])),
        (Do::Mark(3), asks([])),
        (Do::Flush(1), asks([Asked::Write(1, 5, 3)])),
        (Do::Flush(1), asks([])),
        (Do::Flush(2), asks([])),
    ];
    usual(1, rows);
}

// A mark of less than before changes nothing.
#[test]
fn mark_never_falls() {
    let needs_log = Error::NeedLog { lsn: 7 };
    let rows = [
        (Do::Put(1, 255, 7), asks([Asked::Read(1)])),
        (Do::Mark(5), asks([])),
        (Do::Next(Fate::IsNotYet), asks([])),
        (Do::Look(2), refused(needs_log, [Asked::Log(7)])),
        (Do::Mark(7), asks([])),
        (Do::Mark(6), asks([])),
        (Do::Look(2), asks([Asked::Write(1, 255, 7), Asked::Read(2)])),
    ];
    follow(&pager(1, 1000, 1), rows);
}

// Of two frames, with two stamps. Page 2 has references of times 1 and 2, and page 1 one of time 3. So
// page 1 has to make way at 4, but the log does not reach its record yet: it counts as used then, and
// page 2 makes way. At 5 page 3 leaves for page 2, which can't be read, and is at 6. At 7 page 2 leaves,
// since its second reference is of time 2, and that of page 1 is of time 3.
#[test]
fn reckoned_trail() {
    let rows = [
        (Do::Look(2), asks([Asked::Read(2)])),
        (Do::Look(2), asks([])),
        (Do::Put(1, 7, 5), asks([Asked::Read(1)])),
        (Do::Next(Fate::IsNotYet), asks([])),
        (Do::Look(3), asks([Asked::Log(5), Asked::Read(3)])),
        (Do::Frames, pages([1, 3])),
        (Do::Mark(5), asks([])),
        (Do::Flush(1), asks([Asked::Write(1, 7, 5)])),
        (Do::Next(Fate::Fails), asks([])),
        (Do::Look(2), refused(Error::ReadFailed, [Asked::Read(2)])),
        (Do::Frames, pages([1])),
        (Do::Look(2), asks([Asked::Read(2)])),
        (Do::Flush(1), asks([])),
        (Do::Purge, Gives::Number(0)),
        (Do::Look(4), asks([Asked::Read(4)])),
        (Do::Frames, pages([1, 4])),
    ];
    usual(2, rows);
}

/// What references come to in three frames: hits, faults and evictions.
fn counts(k: u8, correlated: u64, references: &[u64]) -> (u64, u64, u64) {
    counts_by(k, correlated, false, references)
}

fn counts_by(k: u8, correlated: u64, tells_each_pin: bool, references: &[u64]) -> (u64, u64, u64) {
    let config = config(3)
        .with_k(k)
        .with_correlated(correlated)
        .with_tells_each_pin(tells_each_pin);
    let pager = Pager::new(&config, Device::default()).unwrap();
    for page in references {
        drop(pager.read(*page).unwrap());
    }
    let totals = pager.stats().totals;
    (totals.hits, totals.faults, totals.evictions)
}

// The first counts are reckoned in check/program.cases: sweep_keeps_what_came_twice. In the second
// list each of two pages is used twice in a row: with a correlated period of one that is one
// reference, so page 4 came as often as they did, and they make way.
#[test]
fn periods_and_k_count_calls() {
    let twice = [1, 2, 1, 2, 3, 4, 5, 6, 1, 2];
    assert_eq!(counts(1, 0, &twice), (2, 8, 5));
    assert_eq!(counts(2, 0, &twice), (4, 6, 3));
    let as_one = [1, 1, 2, 2, 4, 3, 1, 2];
    assert_eq!(counts(2, 0, &as_one), (4, 4, 1));
    assert_eq!(counts(2, 1, &as_one), (2, 6, 3));
}

// Where each pin is told, the counts are those of LRU-K, in check/program.cases:
// sweep_where_two_references_count_as_one, and the list above.
#[test]
fn each_pin_is_told() {
    let as_one = [1, 1, 2, 2, 1, 4, 3, 1, 2];
    assert_eq!(counts_by(2, 0, true, &as_one), (5, 4, 1));
    assert_eq!(counts_by(2, 1, true, &as_one), (4, 5, 2));
    let twice = [1, 2, 1, 2, 3, 4, 5, 6, 1, 2];
    assert_eq!(counts_by(1, 0, true, &twice), (2, 8, 5));
    assert_eq!(counts_by(2, 0, true, &twice), (4, 6, 3));
}

// Page 1 is used after page 2, but while it is pinned: that is a reference where each pin is told. With
// one stamp page 2 makes way then, and else page 1.
#[test]
fn pin_of_a_pinned_page() {
    for (tells_each_pin, stays) in [(true, 1), (false, 2)] {
        let config = config(2).with_k(1).with_tells_each_pin(tells_each_pin);
        let pager = Pager::new(&config, Device::default()).unwrap();
        let pin = pager.pin(1).unwrap();
        drop(pager.read(2).unwrap());
        drop(pager.read(1).unwrap());
        drop(pager.pin(1).unwrap().read());
        drop(pin);
        drop(pager.read(3).unwrap());
        let left: Vec<u64> = (1..3).filter(|page| pager.is_resident(*page)).collect();
        assert_eq!(left, [stays]);
        let totals = pager.stats().totals;
        assert_eq!(
            (totals.hits, totals.faults, pager.stats().pinned),
            (2, 3, 0)
        );
    }
}

// With a correlated period without end no page is old enough, and the clock is moved for it.
#[test]
fn pages_that_are_too_young() {
    for correlated in [1, 1_000, 1 << 60] {
        let faults = [1, 2, 3, 1, 2, 3];
        assert_eq!(counts(2, correlated, &faults[..3]), (0, 3, 0));
        let (hits, faults, _) = counts(2, correlated, &[1, 2, 3, 4, 5, 1, 2]);
        assert_eq!(hits + faults, 7);
    }
}
