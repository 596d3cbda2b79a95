//! The least LSN of the unsaved writes of each page, of those that have a log record.
use super::seats::filled;
use crate::Result;

/// For each page of a part, by its seat, the least LSNs of its writes that have a log record.
///
/// The pool tells the least LSN of all writes, also of those without a record, of LSN 0 or another. So
/// this is used only while there is such a write.
pub(super) struct Firsts {
    of_seats: Vec<First>,
    /// The number of write-outs that began so far, of all pages.
    begun: u64,
    /// The seats whose pages have an unsaved write with an LSN and no record.
    unlogged: usize,
}

/// What is known of a page.
#[derive(Clone, Copy, Default)]
pub(super) struct First {
    /// Of the writes that are in no image so far. Here and below 0 stands for none.
    waiting: u64,
    /// Of the writes in the image that is being written out.
    going_out: u64,
    /// Whether one is.
    is_going_out: bool,
    /// Whether a write that is in no image so far has an LSN and no record, and one in that image.
    is_unlogged: bool,
    sends_unlogged: bool,
    /// The numbers of the newest write-out that began, and of the newest that went well, of this page or
    /// of one that had the seat before.
    began: u64,
    arrived: u64,
    /// The page that is to be discarded once its write-out has ended, and how many calls wait for that.
    awaited: (u64, u32),
}

impl First {
    fn has_unlogged(&self) -> bool {
        self.is_unlogged || self.sends_unlogged
    }
}

/// Returns the lesser of two LSNs, where 0 stands for none.
#[inline]
fn least(one: u64, other: u64) -> u64 {
    if one == 0 || other == 0 {
        one.max(other)
    } else {
        one.min(other)
    }
}

impl Firsts {
    pub(super) fn new(seats: usize) -> Result<Firsts> {
        Ok(Firsts {
            of_seats: filled(seats)?,
            begun: 0,
            unlogged: 0,
        })
    }

    #[inline]
    pub(super) fn write(&mut self, seat: usize, lsn: u64) {
        let first = &mut self.of_seats[seat];
        first.waiting = least(first.waiting, lsn);
    }

    /// What is known of a seat's page.
    pub(super) fn of_seat(&self, seat: usize) -> First {
        self.of_seats[seat]
    }

    /// Notes that what was written since had no record.
    pub(super) fn unlog(&mut self, seat: usize, before: First) {
        self.of_seats[seat].waiting = before.waiting;
        self.change(seat, |first| first.is_unlogged = true);
    }

    /// Whether some unsaved write has an LSN and no record.
    pub(super) fn has_unlogged(&self) -> bool {
        self.unlogged > 0
    }

    /// Changes what is known of a page, and counts those with such a write.
    fn change(&mut self, seat: usize, change: impl FnOnce(&mut First)) {
        let first = &mut self.of_seats[seat];
        self.unlogged -= usize::from(first.has_unlogged());
        change(first);
        self.unlogged += usize::from(first.has_unlogged());
    }

    /// Notes that an image of the page is being written out.
    pub(super) fn go_out(&mut self, seat: usize) {
        self.begun += 1;
        let number = self.begun;
        self.change(seat, |first| {
            first.began = number;
            first.going_out = first.waiting;
            first.waiting = 0;
            first.is_going_out = true;
            first.sends_unlogged = first.is_unlogged;
            first.is_unlogged = false;
        });
    }

    /// Notes that the image is on the device.
    pub(super) fn arrive(&mut self, seat: usize) {
        self.change(seat, |first| {
            first.arrived = first.began;
            first.going_out = 0;
            first.is_going_out = false;
            first.sends_unlogged = false;
        });
    }

    /// The number of write-outs that began so far.
    pub(super) fn begun(&self) -> u64 {
        self.begun
    }

    /// Whether a page was written out since so many write-outs had begun: one of it began later, and went
    /// well; or it has left its frame since, and so was saved, or discarded. The page has this seat now.
    pub(super) fn has_arrived(&self, seat: usize, begun: u64) -> bool {
        self.of_seats[seat].arrived > begun
    }

    /// Notes that a call waits for the end of a write-out, to discard the page.
    pub(super) fn begin_wait(&mut self, seat: usize, page: u64) {
        let awaited = &mut self.of_seats[seat].awaited;
        let others = if awaited.0 == page { awaited.1 } else { 0 };
        *awaited = (page, others + 1);
    }

    /// Notes that it waits no longer. The seat may be another page's by now, for which others wait.
    pub(super) fn end_wait(&mut self, seat: usize, page: u64) {
        let awaited = &mut self.of_seats[seat].awaited;
        if awaited.0 == page {
            awaited.1 = awaited.1.saturating_sub(1);
        }
    }

    /// Whether a page is to be discarded before it is written out once more.
    pub(super) fn is_awaited(&self, seat: usize, page: u64) -> bool {
        let (awaited, calls) = self.of_seats[seat].awaited;
        calls > 0 && awaited == page
    }

    /// Notes that the image is not on the device.
    pub(super) fn come_back(&mut self, seat: usize) {
        self.change(seat, |first| {
            first.waiting = least(first.waiting, first.going_out);
            first.going_out = 0;
            first.is_going_out = false;
            first.is_unlogged |= first.sends_unlogged;
            first.sends_unlogged = false;
        });
    }

    /// Notes that the page left its frame unwritten.
    pub(super) fn leave(&mut self, seat: usize) {
        self.change(seat, |first| {
            *first = First {
                began: first.began,
                arrived: first.arrived,
                awaited: first.awaited,
                ..First::default()
            };
        });
    }

    /// Iterates over the seats of pages that are being written out.
    pub(super) fn going_out(&self) -> impl Iterator<Item = usize> {
        let of_seats = self.of_seats.iter().enumerate();
        of_seats.filter_map(|(seat, first)| first.is_going_out.then_some(seat))
    }

    /// Returns the least LSN of a write with a record that is in no image on the device.
    pub(super) fn of(&self, seat: usize) -> Option<u64> {
        let first = &self.of_seats[seat];
        let lsn = least(first.waiting, first.going_out);
        (lsn != 0).then_some(lsn)
    }
}

#[cfg(test)]
mod tests {
    use super::*;

    // A write that comes while the page is being written out is in no image, whether that ends well
    // or not.
    #[test]
    fn least_lsn_with_a_record() -> Result<()> {
        let mut firsts = Firsts::new(2)?;
        firsts.write(0, 0);
        assert_eq!(firsts.of(0), None);
        firsts.write(0, 7);
        firsts.write(0, 9);
        firsts.go_out(0);
        firsts.write(0, 8);
        firsts.write(0, 0);
        assert_eq!(firsts.of(0), Some(7));
        firsts.come_back(0);
        assert_eq!(firsts.of(0), Some(7));
        firsts.go_out(0);
        firsts.write(0, 12);
        firsts.arrive(0);
        assert_eq!((firsts.of(0), firsts.of(1)), (Some(12), None));
        firsts.go_out(0);
        assert_eq!(firsts.of(0), Some(12));
        firsts.arrive(0);
        assert_eq!(firsts.of(0), None);
        Ok(())
    }

    // A write without a record changes no least LSN, and is known until an image with it is on the
    // device.
    #[test]
    fn writes_without_a_record() -> Result<()> {
        let mut firsts = Firsts::new(2)?;
        firsts.write(0, 7);
        let before = firsts.of_seat(0);
        firsts.write(0, 3);
        firsts.unlog(0, before);
        assert_eq!((firsts.of(0), firsts.has_unlogged()), (Some(7), true));
        firsts.go_out(0);
        assert!(firsts.has_unlogged());
        firsts.come_back(0);
        assert!(firsts.has_unlogged());
        firsts.go_out(0);
        let before = firsts.of_seat(0);
        firsts.unlog(0, before);
        firsts.arrive(0);
        assert_eq!((firsts.of(0), firsts.has_unlogged()), (None, true));
        firsts.go_out(0);
        firsts.arrive(0);
        assert!(!firsts.has_unlogged());
        Ok(())
    }

    // A write-out serves those who came before it began, and only if it goes well.
    #[test]
    fn write_outs_by_number() -> Result<()> {
        let mut firsts = Firsts::new(2)?;
        firsts.go_out(0);
        let came = firsts.begun();
        firsts.arrive(0);
        assert!(!firsts.has_arrived(0, came));
        firsts.go_out(0);
        firsts.come_back(0);
        firsts.go_out(1);
        firsts.arrive(1);
        assert!(!firsts.has_arrived(0, came));
        firsts.go_out(0);
        firsts.arrive(0);
        assert!(firsts.has_arrived(0, came) && !firsts.has_arrived(0, firsts.begun()));
        // The page was discarded: what it had before is of no later call.
        firsts.leave(0);
        assert!(!firsts.has_arrived(0, firsts.begun()));
        Ok(())
    }

    // Who waits to discard a page is no obstacle to another that gets its seat.
    #[test]
    fn waits_of_discards() -> Result<()> {
        let mut firsts = Firsts::new(1)?;
        firsts.begin_wait(0, 7);
        firsts.begin_wait(0, 7);
        assert!(firsts.is_awaited(0, 7) && !firsts.is_awaited(0, 8));
        firsts.begin_wait(0, 8);
        firsts.end_wait(0, 7);
        assert!(firsts.is_awaited(0, 8));
        firsts.end_wait(0, 8);
        firsts.end_wait(0, 7);
        assert!(!firsts.is_awaited(0, 7) && !firsts.is_awaited(0, 8));
        Ok(())
    }
}
