//! A pager's counters, and the pages that are cleaned before they have to make way.
use super::Pager;
use super::ahead::join;
use super::part::{FEW_PAGES, Locked, Part};
use super::work::Writing;
use crate::image::Image;
use crate::{Error, PageIo, PagerError, Result, Totals, UnsavedPage};
use std::sync::atomic::Ordering;
use std::sync::{Arc, Condvar, Mutex, PoisonError};
use std::thread::{self, JoinHandle};
use std::time::Duration;
use std::{io, mem};

/// The counters of a [`Pager`]. While other threads use it, each part is counted at a
/// different moment.
#[derive(Clone, Copy, Debug, Default, PartialEq, Eq)]
#[non_exhaustive]
pub struct Stats {
    /// The counts since the pager was made, approximately. A pin of a page that was pinned already
    /// is a hit, which may be counted only when the page is unpinned. A new page is counted as a
    /// read, and also as discarded where it had been read ahead; a victim that could not be written out as a
    /// hit.
    pub totals: Totals,
    /// Pages that are in frames.
    pub resident: usize,
    /// Pages that are pinned.
    pub pinned: usize,
    /// Pages that were written to since they were saved.
    pub unsaved: usize,
    /// The number of times that a thread slept until a page was read, written out or unpinned, its latch
    /// was free, or another thread had made the log durable or synced the device.
    pub waits: u64,
    /// Pages in no frame whose references are kept, approximately: the pools below do not tell it, so
    /// it is counted as pages leave, are read again, and are forgotten. See
    /// [`PagerConfig::retained`](crate::PagerConfig::retained).
    pub remembered: usize,
    /// The memory of the pager in bytes, approximately: images, frames, lists, and 200 bytes for each
    /// page of the most that were remembered at once. The lists for these double as they grow, so that
    /// they may have twice as much, and do not shrink.
    pub memory: usize,
}

/// The bytes of memory for a frame besides its image, and for a page of the file.
const OF_FRAME: usize = 350;
const OF_PAGE: usize = 8;
/// For a page that is away and remembered.
const OF_REMEMBERED: usize = 200;
/// The buffers that a part has besides those of its frames.
const SPARE_IMAGES: usize = 3;

impl<F> Pager<F> {
    /// Returns true if the page is in a frame.
    pub fn is_resident(&self, page: u64) -> bool {
        let place = self.place(page);
        place.is_ok_and(|(part, own)| part.seats.of(own).is_some())
    }

    /// Returns the counters.
    pub fn stats(&self) -> Stats {
        let mut stats = Stats {
            waits: self.log.waits() + self.syncs.waits(),
            ..Stats::default()
        };
        for part in self.parts.iter() {
            let state = part.lock();
            let (config, counts) = (state.pool.config(), state.pool.stats());
            stats.memory += config.pages as usize * OF_PAGE + config.frames * OF_FRAME;
            stats.memory += state.free.most() * config.page_size;
            stats.memory += SPARE_IMAGES * Image::memory_of(config.page_size);
            stats.memory += state.away.most() * OF_REMEMBERED;
            stats.remembered += state.away.count();
            stats.resident += counts.resident;
            let (unused, joins) = part.kept(&state);
            stats.pinned += counts.pinned - unused;
            stats.unsaved += counts.unsaved;
            stats.waits += state.waits + part.latch_waits();
            stats.totals.add(&counts.totals);
            stats.totals.hits += state.joined + joins - state.referred;
        }
        stats
    }

    /// Forgets the references of pages that are in no frame and whose newest reference is older
    /// than the retained period. It returns the number of these pages.
    ///
    /// The pager does so by itself, in each part after 16 fixes: so there is no need to call this.
    ///
    /// # Errors
    /// None, so long as no pool answers 2^61 calls.
    pub fn purge(&self) -> Result<u64> {
        let forgotten = self.parts.iter().map(|part| {
            let mut state = part.lock();
            part.make_way(&mut state, usize::MAX);
            part.purge(&mut state)
        });
        forgotten.sum()
    }

    /// Returns the least LSN among the writes that are in no image on the device. It is None where
    /// there is no such write, or none with a log record.
    pub fn redo_from(&self) -> Option<u64> {
        self.parts.iter().filter_map(Part::redo_from).min()
    }
}

impl<F: PageIo> Pager<F> {
    /// Writes out at most `most` pages, so that later victims need not be written out. These are
    /// pages that nobody has pinned, whose log records are durable by what
    /// [`mark`](Pager::mark) or an earlier call told, but for
    /// [temporary](crate::PagerConfig::temporary) ones: of each part the page that has to make way next,
    /// and then others in the order of the file, on from where an earlier call stopped. It waits for
    /// no other thread. It returns the number of pages that were written out.
    ///
    /// # Errors
    /// [`PagerError::Write`] where the device failed: the page is unsaved, and the others were
    /// written out. [`PagerError::Refused`] with [`OutOfMemory`](Error::OutOfMemory). It returns
    /// the first of several.
    pub fn clean(&self, most: usize) -> Result<usize, PagerError> {
        let durable = self.log.durable();
        let (mut cleaned, mut fault) = (0, Ok(()));
        // Each call begins with another part, so that a panic does not always stop before the same
        // parts.
        let first = self.cleaned.fetch_add(1, Ordering::Relaxed) % self.parts.len();
        let (before, after) = self.parts.split_at(first);
        for (number, part) in after.iter().chain(before).enumerate() {
            let share = (most - cleaned).div_ceil(self.parts.len() - number);
            let end = cleaned + share;
            // Each unsaved page is looked at once, but not all of them where few may be written
            // out.
            let unsaved = part.lock().pool.stats().unsaved;
            let mut looks = unsaved.min(share.saturating_mul(4).saturating_add(FEW_PAGES));
            let mut is_first = true;
            while looks > 0 && cleaned < end {
                match self.clean_next(part, durable, &mut looks, mem::take(&mut is_first)) {
                    Ok(is_clean) => cleaned += usize::from(is_clean),
                    Err(error) => fault = fault.and(Err(error)),
                }
            }
        }
        fault.map(|()| cleaned)
    }

    /// Writes out the next page of a part that may be, if nobody is in the way. It returns true if
    /// one was written out.
    fn clean_next(
        &self,
        part: &Part,
        durable: u64,
        looks: &mut usize,
        is_first: bool,
    ) -> Result<bool, PagerError> {
        let Some((mut state, own)) = next_ready(part, durable, looks, is_first)? else {
            return Ok(false);
        };
        state.pool.mark(0, durable)?;
        match part.ask_out(&mut state, own) {
            Ok(Some(ticket)) => {
                let lsn = ticket.lsn();
                let writing = Writing::new(part, state, ticket, false);
                self.write_out(part.in_file(own), lsn, writing)?;
                Ok(true)
            }
            Ok(None) | Err(Error::Busy | Error::NeedLog { .. }) => Ok(false),
            Err(error) => Err(error.into()),
        }
    }
}

/// Returns the next page of a part that may be written out, if one is found at once: nobody uses it.
/// At first that is the victim, but not the same twice in a row. The search for others begins after the
/// page that was found last: so a page whose write-out panics is not always the first.
fn next_ready<'a>(
    part: &'a Part,
    durable: u64,
    looks: &mut usize,
    is_first: bool,
) -> Result<Option<(Locked<'a>, u64)>> {
    let locked = part.with_image(part.lock());
    if locked.is_err() {
        // The next page would need memory too.
        *looks = 0;
    }
    let mut state = locked?;
    let is_unused = |seat| !part.seats.seat(seat).word().is_used();
    let is_ready = |it: &UnsavedPage| {
        let seat = part.seats.of(it.page).filter(|_| it.lsn <= durable);
        seat.is_some_and(is_unused) && !part.is_temporary(it.page)
    };
    if let Some(victim) = is_first.then(|| state.pool.victim()).flatten() {
        let is_new = state.cleaned_victim.replace(victim) != Some(victim);
        let unsaved = part.unsaved(&state, victim).filter(is_ready);
        if is_new && unsaved.is_some() {
            return Ok(Some((state, victim)));
        }
    }
    for _ in 0..FEW_PAGES.min(*looks) {
        *looks -= 1;
        let from = state.clean_from;
        let next = state.pool.next_unsaved(from);
        let Some(next) = next.or_else(|| state.pool.next_unsaved(0)) else {
            *looks = 0;
            break;
        };
        if part.is_temporary(next.page) {
            state.clean_from = part.after_temporary(next.page);
            continue;
        }
        state.clean_from = next.page + 1;
        if is_ready(&next) {
            return Ok(Some((state, next.page)));
        }
    }
    Ok(None)
}

/// A thread that calls [`Pager::clean`] repeatedly. It ends when this is dropped, and the drop waits for
/// that: but where a function of the engine drops it in this thread, it ends once the function has.
#[derive(Debug)]
#[must_use = "the thread ends when this is dropped"]
pub struct Cleaner {
    end: Arc<End>,
    thread: Option<JoinHandle<()>>,
}

/// Whether a cleaner is to end.
#[derive(Debug, Default)]
struct End {
    has_come: Mutex<bool>,
    comes: Condvar,
}

impl End {
    /// Rests for a while, or until the end comes. It returns true if the end has come.
    fn rest(&self, most: Duration) -> bool {
        let has_come = self.has_come.lock().unwrap_or_else(PoisonError::into_inner);
        let rested = self
            .comes
            .wait_timeout_while(has_come, most, |has_come| !*has_come);
        *rested.unwrap_or_else(PoisonError::into_inner).0
    }

    fn come(&self) {
        *self.has_come.lock().unwrap_or_else(PoisonError::into_inner) = true;
        self.comes.notify_all();
    }
}

impl<F: PageIo + Send + Sync + 'static> Pager<F> {
    /// Starts a thread that writes out at most `most` pages, rests for a while, and begins again,
    /// as [`clean`](Pager::clean) does. A page that cannot be written out stays unsaved, and
    /// is tried again: a call for which no other page can make way gets the fault. Each fault, and a panic
    /// of the engine's functions, is told to an [`Observer`](crate::Observer), if there is one.
    ///
    /// # Errors
    /// Where the system has no thread for it.
    pub fn start_cleaner(self: &Arc<Self>, most: usize, rest: Duration) -> io::Result<Cleaner> {
        let end = Arc::new(End::default());
        let (pager, ends) = (Arc::clone(self), Arc::clone(&end));
        let clean = move || {
            let cleaned = pager.watch.go_on(|| pager.clean(most));
            cleaned.and_then(|cleaned| pager.watch.or_tell(cleaned));
        };
        let work = move || {
            while !ends.rest(Duration::ZERO) {
                clean();
                ends.rest(rest);
            }
        };
        let thread = thread::Builder::new()
            .name("hojzmated-cleaner".into())
            .spawn(work)?;
        Ok(Cleaner {
            end,
            thread: Some(thread),
        })
    }
}

impl Drop for Cleaner {
    fn drop(&mut self) {
        self.end.come();
        self.thread.take().into_iter().for_each(join);
    }
}
