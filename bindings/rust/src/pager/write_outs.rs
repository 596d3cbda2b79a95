//! A pager's flushes and checkpoints: which pages go out, and neighbours in one write.
use super::Pager;
use super::guards::PageRef;
use super::log::NotReached;
use super::part::{FEW_PAGES, Part};
use super::seats::list_of;
use super::watch::Waited;
use super::within::Work;
use super::work::Writing;
use crate::image::Image;
use crate::{Error, PageIo, PagerError, Result, UnsavedPage};

/// A flush makes the log durable so often without a latch of its page. Then it keeps the latch.
const MOST_ROUNDS: u32 = 2;
/// The most pages of one write or read, and the most bytes, where a page is not longer.
const MOST_PAGES: usize = 256;
const MOST_BYTES: usize = 1 << 20;

impl<F> Pager<F> {
    /// Returns the pages with writes that are in no image on the device, in the order of the file, and
    /// their LSNs, but for [temporary](crate::PagerConfig::temporary) ones. While other threads write or
    /// write out, each part is looked at in several goes.
    ///
    /// An engine that writes out by age sorts them by `first_lsn`, and has some go out by
    /// [`flush_pages`](Pager::flush_pages): those of the least hold back where redo begins. Where it
    /// is 0 the page has a write without a record, and one by
    /// [`put_unlogged`](crate::PageMut::put_unlogged) counts with its LSN here.
    ///
    /// # Errors
    /// [`OutOfMemory`](Error::OutOfMemory).
    pub fn unsaved(&self) -> Result<Vec<UnsavedPage>> {
        self.unsaved_of(|_| true)
    }

    /// The same of those of which is so what is asked of the least LSN with a record.
    fn unsaved_of(&self, is_meant: impl Fn(Option<u64>) -> bool) -> Result<Vec<UnsavedPage>> {
        let mut pages = list_of(0)?;
        for part in self.parts.iter() {
            let mut from = Some(0);
            while let Some(first) = from {
                // Memory is asked for with the lock open.
                pages
                    .try_reserve(FEW_PAGES)
                    .map_err(|_| Error::OutOfMemory)?;
                from = part.add_unsaved(first, &is_meant, &mut pages);
            }
        }
        pages.sort_unstable_by_key(|it| it.page);
        Ok(pages)
    }
}

impl Part {
    /// Adds some unsaved pages from this number on to a list that has room for them, with their numbers
    /// in the file. It returns from where to look for more.
    fn add_unsaved(
        &self,
        first: u64,
        is_meant: impl Fn(Option<u64>) -> bool,
        pages: &mut Vec<UnsavedPage>,
    ) -> Option<u64> {
        let state = self.lock();
        let mut from = first;
        for _ in 0..FEW_PAGES {
            let found = state.pool.next_unsaved(from)?;
            if self.is_temporary(found.page) {
                from = self.after_temporary(found.page);
                continue;
            }
            from = found.page + 1;
            let seat = self.seats.of(found.page);
            if is_meant(seat.and_then(|seat| state.firsts.of(seat))) {
                let page = self.in_file(found.page);
                pages.push(UnsavedPage { page, ..found });
            }
        }
        Some(from)
    }
}

/// Pages side by side that are being written out by one call. Where it is dropped before its end, each
/// is unsaved.
struct Run<'a> {
    first: u64,
    page_size: usize,
    images: Image,
    lsns: Vec<u64>,
    pages: Vec<Writing<'a>>,
}

impl<'a> Run<'a> {
    /// Returns a run that has no page yet, and memory for so many.
    fn new(first: u64, most: usize, page_size: usize) -> Result<Run<'a>> {
        Ok(Run {
            first,
            page_size,
            images: Image::zeros(most * page_size)?,
            lsns: list_of(most)?,
            pages: list_of(most)?,
        })
    }

    /// The number of the page after the last one.
    fn next(&self) -> u64 {
        self.first + self.pages.len() as u64
    }

    /// Adds a page whose image is in the buffer, or that has it.
    fn add(&mut self, lsn: u64, page: Writing<'a>) {
        let place = self.room();
        if !page.image.is_empty() {
            place.copy_from_slice(&page.image);
        }
        self.lsns.push(lsn);
        self.pages.push(page);
    }

    /// The place of the next page's image.
    fn room(&mut self) -> &mut [u8] {
        let at = self.pages.len() * self.page_size;
        &mut self.images[at..at + self.page_size]
    }

    /// Ends all write-outs, where they succeeded. It returns the first refusal.
    fn end(mut self) -> Result<()> {
        let ended = self.pages.iter_mut().map(Writing::end);
        ended.fold(Ok(()), Result::and)
    }
}

impl<F: PageIo> Pager<F> {
    /// The most pages that the engine gets by one call.
    pub(super) fn most_in_a_row(&self) -> usize {
        let most = (MOST_BYTES / self.config().page_size).clamp(1, MOST_PAGES);
        self.io.most_pages().clamp(1, most)
    }

    /// Writes a page out if it is unsaved. It waits for a thread that writes to the page, as one that
    /// wants to read it, and for one that writes it out. It ends with a write-out that began after the call
    /// and went well: its own, or that of another thread. The page may be unsaved again by later writes.
    ///
    /// While the device or the log works it has no latch: the page can be written to. But where that
    /// was done twice before the log was durable, it has the shared latch while the log is made
    /// durable once more.
    ///
    /// # Errors
    /// After each of these the page is unsaved. [`PagerError::Write`] where the device failed;
    /// [`PagerError::Log`] where the log failed, and [`PagerError::LogLost`] where it had failed before and
    /// the page has a record that was not durable then; [`PagerError::LogNotYet`] where the log does not
    /// reach that record yet. [`PagerError::Refused`] with [`NoSuchPage`](Error::NoSuchPage) where the file
    /// has no such page, with [`OutOfMemory`](Error::OutOfMemory), and in a function of [`PageIo`]
    /// with [`Busy`](Error::Busy).
    pub fn flush(&self, page: u64) -> Result<(), PagerError> {
        self.flush_one(page, &mut NotReached::default())
    }

    /// The same in a call that may have found that the log does not reach so far.
    fn flush_one(&self, page: u64, not_reached: &mut NotReached) -> Result<(), PagerError> {
        match self.take_out(page, not_reached)? {
            Some((lsn, writing)) => self.write_out(page, lsn, writing),
            None => Ok(()),
        }
    }

    /// Begins to write a page out, with its image as it is between the guards of its writers, and
    /// returns its page LSN. It is None where there is nothing to write: the page is saved, or was
    /// written out by another thread since this call began.
    fn take_out(
        &self,
        page: u64,
        not_reached: &mut NotReached,
    ) -> Result<Option<(u64, Writing<'_>)>, PagerError> {
        let (part, own) = self.place(page)?;
        let waited = Waited::new(&self.watch, page);
        let mut latch: Option<PageRef<'_>> = None;
        let (mut rounds, mut began) = (0, None);
        loop {
            let mut state = part.with_image(part.lock())?;
            let began = *began.get_or_insert(state.firsts.begun());
            let unsaved = part.unsaved_seat(&state, own);
            let Some(number) = unsaved.filter(|it| !state.firsts.has_arrived(*it, began)) else {
                return Ok(None);
            };
            // A page is written out between the writes of its writers, and not within them. They write
            // under the lock: so where nobody has the page now, no latch is needed for its image.
            if latch.is_none() && (rounds >= MOST_ROUNDS || part.is_written(number)) {
                latch = Some(part.pin_under(state, own)?.into_read(&waited)?);
                continue;
            }
            let asked = match state.firsts.is_awaited(number, own) {
                true => Err(Error::Busy),
                false => part.ask_out(&mut state, own),
            };
            match asked {
                // The lock is opened before the latch is freed, here and below.
                Ok(Some(ticket)) => {
                    let lsn = ticket.lsn();
                    return Ok(Some((lsn, Writing::new(part, state, ticket, false))));
                }
                Err(Error::NeedLog { lsn }) => {
                    drop(state);
                    latch = latch.filter(|_| rounds >= MOST_ROUNDS);
                    rounds += 1;
                    self.reach_once(lsn, not_reached)?;
                    part.lock().pool.mark(0, self.log.durable())?;
                }
                Err(Error::Busy) if latch.is_some() => {
                    drop(state);
                    latch = None;
                    // Without the latch the next round waits for that work.
                    rounds = 0;
                }
                Err(Error::Busy) => drop(part.wait_for_work(state, own, &waited)?),
                Ok(None) => return Ok(None),
                Err(error) => return Err(error.into()),
            }
        }
    }

    /// Makes the log durable up to this LSN, but asks it for nothing that it could not do in this call.
    fn reach_once(&self, lsn: u64, not_reached: &mut NotReached) -> Result<(), PagerError> {
        not_reached.check(&self.log, lsn)?;
        let reached = self.log.reach(&self.io, &self.watch, lsn);
        reached.inspect_err(|fault| not_reached.note(fault))
    }

    /// Makes the log durable once for all of these pages. If it does not reach so far, it is asked for the
    /// page of the least LSN: so one that ends before all of them is not asked for each.
    fn reach_for_all(
        &self,
        pages: &[UnsavedPage],
        not_reached: &mut NotReached,
    ) -> Result<(), PagerError> {
        let durable = self.log.durable();
        let lsns = pages.iter().map(|it| it.lsn).filter(|lsn| *lsn > durable);
        let (least, greatest) = (lsns.clone().min(), lsns.max());
        let reached = self.reach_once(greatest.unwrap_or(0), not_reached);
        if reached.is_err() {
            let _ = self.reach_once(least.unwrap_or(0), not_reached);
        }
        reached
    }

    /// Writes out those of these pages that are unsaved, in the order of the file, as
    /// [`flush`](Pager::flush) does. It makes the log durable once for all of them. If the log does not reach
    /// so far yet, it asks once more for the page of the least LSN, and then for no record that is as late as
    /// one which it did not reach. A log that failed it asks no more. Several threads may do so at once, each
    /// with a share of the pages.
    ///
    /// Pages side by side go out by one call of [`PageIo::write_pages`], up to
    /// [`PageIo::most_pages`] and 256 pages and 1 MiB: but a page whose record is not durable, that a
    /// thread writes to, or that is read or written out already, ends such a row, and begins the next
    /// one.
    ///
    /// # Errors
    /// The first of those of [`Pager::flush`], after which all pages are written out that could
    /// be. With [`NoSuchPage`](Error::NoSuchPage) and [`OutOfMemory`](Error::OutOfMemory) it may be
    /// that none was.
    pub fn flush_pages(&self, pages: &[u64]) -> Result<(), PagerError> {
        let mut unsaved: Vec<UnsavedPage> = list_of(pages.len())?;
        for page in pages {
            let (part, own) = self.place(*page)?;
            let found = part.unsaved(&part.lock(), own);
            unsaved.extend(found.map(|it| UnsavedPage { page: *page, ..it }));
        }
        unsaved.sort_unstable_by_key(|it| it.page);
        unsaved.dedup_by_key(|it| it.page);
        self.flush_all(&unsaved)
    }

    /// Writes out each page that has an unsaved write under a record below this LSN, as
    /// [`flush_pages`](Pager::flush_pages) does: so that redo need not begin before it. A page whose
    /// writes have no record stays. So do writes that other threads make meanwhile.
    ///
    /// So a checkpoint that shall not write out all pages is this, and then [`sync`](Pager::sync),
    /// which tells from where redo has to begin.
    ///
    /// # Errors
    /// Those of [`flush_pages`](Pager::flush_pages), but for `NoSuchPage`.
    pub fn flush_before(&self, lsn: u64) -> Result<(), PagerError> {
        let is_older = |first: Option<u64>| first.is_some_and(|first| first < lsn);
        self.flush_all(&self.unsaved_of(is_older)?)
    }

    /// Writes these pages out, which are in the order of the file.
    fn flush_all(&self, pages: &[UnsavedPage]) -> Result<(), PagerError> {
        let mut not_reached = NotReached::default();
        let reached = self.reach_for_all(pages, &mut not_reached);
        let mut done = Ok(());
        let most = self.most_in_a_row();
        let mut rest = pages;
        while let Some(first) = rest.first() {
            let numbers = rest.iter().map(|it| it.page).take(most);
            let row = (first.page..).zip(numbers).take_while(|(a, b)| a == b);
            let (count, flushed) = match row.count() {
                1 => (1, self.flush_one(first.page, &mut not_reached)),
                count => self.flush_row(first.page, count, &mut not_reached),
            };
            rest = &rest[count..];
            done = done.and(flushed);
        }
        match (reached, done) {
            // All went out: the log had come so far by then.
            (Err(PagerError::LogNotYet { .. }), Ok(())) => Ok(()),
            (reached, done) => reached.and(done),
        }
    }

    /// Writes out the first of these pages side by side, and those after it that can be had at once. It
    /// returns how many these were: the next one begins a row of its own.
    fn flush_row(
        &self,
        first: u64,
        count: usize,
        not_reached: &mut NotReached,
    ) -> (usize, Result<(), PagerError>) {
        let (lsn, writing) = match self.take_out(first, not_reached) {
            Ok(Some(begun)) => begun,
            other => return (1, other.map(drop)),
        };
        let Ok(mut run) = Run::new(first, count, self.config().page_size) else {
            return (1, self.write_out(first, lsn, writing));
        };
        run.add(lsn, writing);
        // This thread has tickets now, for which others may wait: so it waits for none of them.
        while run.pages.len() < count && self.add_next(&mut run) {}
        let (pages, count) = (first..run.next(), run.pages.len());
        let written = self.write_run(run).or_else(|fault| match count {
            1 => Err(fault),
            // One by one, so that each that can be written out is.
            _ => {
                let mut flush = |page| self.flush_one(page, not_reached);
                pages.map(&mut flush).fold(Ok(()), Result::and)
            }
        });
        (count, written)
    }

    /// Adds the next page to a run, if it can be had at once, and returns whether it was.
    fn add_next<'a>(&'a self, run: &mut Run<'a>) -> bool {
        let Ok((part, own)) = self.place(run.next()) else {
            return false;
        };
        let mut state = part.lock();
        let seat = part.unsaved_seat(&state, own);
        let stands_back = |number| part.is_written(number) || state.firsts.is_awaited(number, own);
        if seat.is_none_or(stands_back) {
            return false;
        }
        // Each part is told by itself how far the log is durable.
        if state.pool.mark(0, self.log.durable()).is_err() {
            return false;
        }
        let Ok(Some(ticket)) = part.ask_out_to(&mut state, own, run.room()) else {
            return false;
        };
        drop(state);
        run.add(ticket.lsn(), Writing::of_run(part, ticket));
        true
    }

    fn write_run(&self, mut run: Run<'_>) -> Result<(), PagerError> {
        let (first, count) = (run.first, run.pages.len());
        let images = &mut run.images[..count * run.page_size];
        let write = || match count {
            1 => self.io.write_page(first, images, run.lsns[0]),
            _ => self.io.write_pages(first, images, &run.lsns),
        };
        let fault = |source| {
            let page = first;
            PagerError::Write { page, source }
        };
        self.watch
            .have(Work::Write(first, count as u64), write, fault)?;
        Ok(run.end()?)
    }

    /// Writes out each page that was unsaved when the call began, in the order of the file, as
    /// [`flush_pages`](Pager::flush_pages) does, and then syncs the device, as
    /// [`sync`](Pager::sync) does. It ends however many threads read and write meanwhile: see
    /// [`Pager::flush`].
    ///
    /// It returns the LSN from which redo must begin, which counts writes of other threads
    /// meanwhile: the least among the writes that may not be on the device. It is None where there
    /// is no such write. The pager does not know a record that has no write yet: so note the end of
    /// the log before the call, while no thread is between a record and its write, and cut the log
    /// at the lesser of both. A thread that has a page under its exclusive latch waits here for
    /// ever.
    ///
    /// # Errors
    /// The first of those of [`Pager::flush`], after which all pages are written out that could
    /// be, and the device is not synced; [`OutOfMemory`](Error::OutOfMemory) in
    /// [`PagerError::Refused`].
    ///
    /// [`PagerError::Sync`] where the sync failed. Then all that was written out since the last
    /// successful sync may be lost, and the pager counts it as saved. From then on each checkpoint
    /// is refused with [`PagerError::SyncFailedBefore`], also one that was under way: end the pager,
    /// and redo from the log.
    ///
    /// [`PagerError::LogLost`] where the log had failed before, though no page needs it now: the log is not to be
    /// cut then. No page is written out.
    pub fn checkpoint(&self) -> Result<Option<u64>, PagerError> {
        self.check()?;
        self.flush_all(&self.unsaved()?)?;
        self.sync()
    }

    /// Syncs the device, by [`PageIo::sync`], and returns the LSN from which redo must begin then: the
    /// least among the writes that may not be on the device, as [`checkpoint`](Pager::checkpoint)
    /// does. It writes no page out. One sync
    /// serves all calls that came before it began.
    ///
    /// # Errors
    /// [`PagerError::Sync`], [`PagerError::SyncFailedBefore`] and [`PagerError::LogLost`], as
    /// [`checkpoint`](Pager::checkpoint).
    pub fn sync(&self) -> Result<Option<u64>, PagerError> {
        self.check()?;
        // Before the sync: what goes out during it may not be kept by it.
        let redo = self.redo_from();
        self.syncs.sync(&self.io, &self.watch)?;
        Ok(redo)
    }

    /// # Errors
    /// [`PagerError::SyncFailedBefore`] and [`PagerError::LogLost`].
    fn check(&self) -> Result<(), PagerError> {
        self.syncs.check()?;
        self.log.check()
    }
}
