//! Pages that are read before a thread asks for them, by threads of the pager.
use super::Pager;
use super::part::{Fix, Part};
use super::pins::PASSES;
use super::seats::list_of;
use super::within::Work;
use super::work::{Reading, Writing};
use crate::image::Image;
use crate::{Error, PageIo, PagerError, Result};
use std::collections::VecDeque;
use std::io;
use std::sync::atomic::{AtomicBool, Ordering};
use std::sync::{Arc, Condvar, Mutex, MutexGuard, PoisonError};
use std::thread::{self, JoinHandle};

/// The most pages that wait to be read.
const MOST_WAITING: usize = 4096;
/// So many pages are added in one go.
const FEW: usize = 64;
/// Who leaves pages on the list wakes so many threads, and each of these does so too. Thus a few pages do not
/// wake all that sleep, most of them for nothing, and who asks for many does not wake them all alone.
const WOKEN: usize = 2;
/// The pages that are to be read ahead, in the order in which they were asked for.
#[derive(Default)]
pub(super) struct Ahead {
    state: Mutex<Wanted>,
    comes: Condvar,
}

#[derive(Default)]
struct Wanted {
    pages: VecDeque<Want>,
    /// The number of threads that read, and of those that sleep until there are pages.
    readers: usize,
    sleeping: usize,
}

/// A page that is to be read, and what was noted of it when it was asked for.
#[derive(Clone, Copy, Default)]
struct Want {
    page: u64,
    noted: u32,
}

impl Ahead {
    fn lock(&self) -> MutexGuard<'_, Wanted> {
        self.state.lock().unwrap_or_else(PoisonError::into_inner)
    }

    /// Adds as many of these pages as there is room for, and returns how many.
    fn add(&self, pages: &[Want]) -> usize {
        if pages.is_empty() {
            return 0;
        }
        let mut wanted = self.lock();
        let room = match wanted.readers > 0 {
            true => MOST_WAITING - wanted.pages.len(),
            false => 0,
        };
        let added = &pages[..room.min(pages.len())];
        wanted.pages.extend(added);
        self.wake_for_the_rest(wanted);
        added.len()
    }

    /// Wakes threads, if any sleep, for the pages that are on the list.
    fn wake_for_the_rest(&self, wanted: MutexGuard<'_, Wanted>) {
        let count = WOKEN.min(wanted.sleeping).min(wanted.pages.len());
        drop(wanted);
        (0..count).for_each(|_| self.comes.notify_one());
    }

    /// Waits for pages to read, and puts those of them into the row, which has room, that are side by side. It returns false where the calling thread is to end. What comes too late is left out.
    fn next(
        &self,
        most: usize,
        row: &mut Vec<Want>,
        is_over: &AtomicBool,
        is_late: impl Fn(Want) -> bool,
    ) -> bool {
        row.clear();
        let mut wanted = self.lock();
        loop {
            if is_over.load(Ordering::Relaxed) {
                wanted.readers -= 1;
                if wanted.readers == 0 {
                    wanted.pages.clear();
                }
                // It may have been woken in another's place.
                self.wake_for_the_rest(wanted);
                return false;
            }
            if let Some(first) = wanted.pages.pop_front() {
                if is_late(first) {
                    continue;
                }
                row.push(first);
                while row.len() < most {
                    let end = first.page + row.len() as u64;
                    let next = wanted.pages.front().filter(|it| it.page == end);
                    let Some(next) = next.copied().filter(|it| !is_late(*it)) else {
                        break;
                    };
                    wanted.pages.pop_front();
                    row.push(next);
                }
                self.wake_for_the_rest(wanted);
                return true;
            }
            wanted.sleeping += 1;
            let waited = self.comes.wait(wanted);
            wanted = waited.unwrap_or_else(PoisonError::into_inner);
            wanted.sleeping -= 1;
        }
    }

    /// Has the threads end that look at this.
    fn end(&self, is_over: &AtomicBool) {
        // Under the lock: so none of them has looked and does not sleep yet.
        let wanted = self.lock();
        is_over.store(true, Ordering::Relaxed);
        drop(wanted);
        self.comes.notify_all();
    }
}

impl<F> Pager<F> {
    /// Has pages read that are in no frame, by the threads of
    /// [`start_readers`](Pager::start_readers), and does not wait for that. It returns how many are
    /// to be read: none where no such threads were started, and no more than have room among the 4,096
    /// that may wait. Pages that are in frames or that the file does not have are left out. It goes on while
    /// there is room, to the end of `pages` or to as many numbers as the file has pages: so `98..` is the rest
    /// of the file.
    ///
    /// It is a hint. A page is not read where no page may make way for it, or one whose log record is
    /// not durable would have to; nor where the device fails; nor if it came and went meanwhile, by a
    /// thread that did not wait for it. Who asks for it then has it read, and gets the fault.
    ///
    /// A page that was read ahead has one reference, which its first use does not add to: see
    /// [what counts as a reference](Pager#what-counts-as-a-reference). So ask for as many pages as are
    /// used soon, such as 32 before the place of a scan, and not for a whole table.
    pub fn prefetch(&self, pages: impl IntoIterator<Item = u64>) -> usize {
        let (mut few, mut count, mut added) = ([Want::default(); FEW], 0, 0);
        let want = |page| {
            let (part, own) = self.place(page).ok()?;
            let noted = part.seats.noted(own);
            part.seats.of(own).is_none().then_some(Want { page, noted })
        };
        let most = self.config().pages as usize;
        for page in pages.into_iter().take(most).filter_map(want) {
            few[count] = page;
            count += 1;
            if count == FEW {
                count = self.ahead.add(&few);
                added += count;
                if count < FEW {
                    return added;
                }
                count = 0;
            }
        }
        added + self.ahead.add(&few[..count])
    }
}

/// Threads that read pages ahead. They end when this is dropped, and the drop waits for that: but where a
/// function of the engine drops it in one of them, that one ends once the function has.
#[must_use = "the threads end when this is dropped"]
pub struct Readers {
    end: Box<dyn Fn() + Send + Sync>,
    threads: Vec<JoinHandle<()>>,
}

impl<F: PageIo + Send + Sync + 'static> Pager<F> {
    /// Starts threads that read the pages which [`prefetch`](Pager::prefetch) asks for. Each reads
    /// one page at a time, or as many side by side as [`PageIo::most_pages`] says by one call of
    /// [`PageIo::read_pages`]. So where the device is slow to answer, as many reads are under way as there
    /// are threads.
    ///
    /// Where a page has to be written out to make way, they do that. They make no log durable. What goes wrong
    /// there, a panic of the engine's functions too, is told to an [`Observer`](crate::Observer), if there is one.
    ///
    /// # Errors
    /// Where the system has no thread for it, or there is no memory.
    pub fn start_readers(self: &Arc<Self>, count: usize) -> io::Result<Readers> {
        // Here, so that a panic of the engine's is the caller's.
        let most = self.most_in_a_row();
        self.ahead.lock().pages.try_reserve(MOST_WAITING)?;
        let is_over = Arc::new(AtomicBool::new(false));
        let (pager, ends) = (Arc::clone(self), Arc::clone(&is_over));
        let mut readers = Readers {
            end: Box::new(move || pager.ahead.end(&ends)),
            threads: Vec::new(),
        };
        readers.threads.try_reserve(count)?;
        for _ in 0..count {
            let (pager, is_over) = (Arc::clone(self), Arc::clone(&is_over));
            let name = thread::Builder::new().name("hojzmated-reader".into());
            let row = list_of(most).map_err(|_| io::ErrorKind::OutOfMemory)?;
            self.ahead.lock().readers += 1;
            match name.spawn(move || pager.read_wanted(&is_over, most, row)) {
                Ok(thread) => readers.threads.push(thread),
                Err(error) => {
                    self.ahead.lock().readers -= 1;
                    return Err(error);
                }
            }
        }
        Ok(readers)
    }

    fn read_wanted(&self, is_over: &AtomicBool, most: usize, mut row: Vec<Want>) {
        let mut images = Image::default();
        let is_late = |it: Want| {
            let place = self.place(it.page);
            place.is_ok_and(|(part, own)| part.seats.noted(own) != it.noted)
        };
        while self.ahead.next(most, &mut row, is_over, is_late) {
            if images.is_empty() {
                // Without memory the pages are left to who asks for them.
                let made = Image::zeros(most * self.config().page_size);
                images = self.got(made).unwrap_or_default();
            }
            self.watch.go_on(|| self.read_row(&row, &mut images));
        }
    }
}

impl Drop for Readers {
    fn drop(&mut self) {
        (self.end)();
        self.threads.drain(..).for_each(join);
    }
}

/// Waits until a thread has ended, but for the calling one: where a function of the engine drops a thread's owner
/// in that thread, it ends once that function has.
pub(super) fn join(thread: JoinHandle<()>) {
    if thread.thread().id() != thread::current().id() {
        // Its panics were caught.
        let _ = thread.join();
    }
}

impl std::fmt::Debug for Readers {
    fn fmt(&self, f: &mut std::fmt::Formatter<'_>) -> std::fmt::Result {
        f.debug_struct("Readers")
            .field("threads", &self.threads.len())
            .finish_non_exhaustive()
    }
}

/// What comes of asking for a page ahead.
enum Began<'a> {
    /// It is to be read.
    Reads(Reading<'a>),
    /// Another page has to be written out before, by who has no ticket.
    Writes(u64, Writing<'a>),
    /// The same, and nothing was begun.
    WouldWrite,
    /// It is in a frame, or cannot be read now.
    Not,
}

impl Part {
    /// Asks for a page that is to be read ahead, if it is away, and was all the time since that was noted of
    /// it. The caller has tickets or none.
    fn begin_ahead(&self, page: u64, noted: u32, has_tickets: bool) -> Result<Began<'_>> {
        let mut state = self.with_image(self.lock())?;
        // Frames go to those first who wait for them.
        let is_late = self.seats.of(page).is_some() || self.seats.noted(page) != noted;
        if is_late || !state.line.is_empty() {
            return Ok(Began::Not);
        }
        self.make_way(&mut state, PASSES);
        self.tick_for_call(&mut state)?;
        // With this tick another page may be old enough to make way.
        let victim = state.pool.victim();
        if has_tickets && victim.is_some_and(|page| self.unsaved(&state, page).is_some()) {
            state.unused_ticks += 1;
            return Ok(Began::WouldWrite);
        }
        Ok(match self.ask(&mut state, page) {
            Ok(Fix::Read(ticket, evicted)) => {
                let reading = Reading::ahead(self, state, ticket);
                self.tell_evicted(evicted);
                Began::Reads(reading)
            }
            Ok(Fix::Write(ticket)) => {
                state.unused_ticks += 1;
                let lsn = ticket.lsn();
                Began::Writes(lsn, Writing::new(self, state, ticket, true))
            }
            Ok(Fix::Here(pass)) => {
                let _ = state.pool.unfix_by(&pass);
                Began::Not
            }
            Err(_) => {
                // The next call of the part has the tick.
                state.unused_ticks += 1;
                Began::Not
            }
        })
    }
}

impl<F: PageIo> Pager<F> {
    /// Reads pages side by side ahead, as many at a time as can be begun without device work between.
    fn read_row(&self, mut wants: &[Want], images: &mut [u8]) {
        while !wants.is_empty() && !images.is_empty() {
            let Some(mut row) = self.got(list_of(wants.len())) else {
                return;
            };
            wants = self.begin_row(wants, &mut row);
            let count = row.len();
            if let Some(first) = wants.first().filter(|_| count > 0) {
                self.read_begun(first.page, row, images);
            }
            // The first one is left out where it could not be begun.
            wants = wants.get(count.max(1)..).unwrap_or_default();
        }
    }

    /// Begins to read pages that are side by side and away, and returns those that are left from the first
    /// of these on.
    fn begin_row<'a, 'w>(
        &'a self,
        mut wants: &'w [Want],
        row: &mut Vec<Reading<'a>>,
    ) -> &'w [Want] {
        while let Some(want) = wants.get(row.len()) {
            let Ok((part, own)) = self.place(want.page) else {
                break;
            };
            let began = part.begin_ahead(own, want.noted, !row.is_empty());
            match self.got(began) {
                Some(Began::Reads(reading)) => row.push(reading),
                Some(Began::Writes(lsn, writing)) => {
                    let victim = part.in_file(writing.page().unwrap_or_default());
                    let written = self.write_out(victim, lsn, writing);
                    if self.watch.or_tell(written).is_none() {
                        break;
                    }
                }
                Some(Began::Not) if row.is_empty() => wants = &wants[1..],
                Some(Began::Not | Began::WouldWrite) | None => break,
            }
        }
        wants
    }

    /// Reads pages whose reads were begun. On every way out all of these end.
    fn read_begun(&self, first: u64, row: Vec<Reading<'_>>, images: &mut [u8]) {
        let (count, page_size) = (row.len(), self.config().page_size);
        let images = &mut images[..count * page_size];
        let read = || match count {
            1 => self.io.read_page(first, images),
            _ => self.io.read_pages(first, count, images),
        };
        let fault = |fault| PagerError::of_read(first, fault);
        let work = Work::Read(first, count as u64);
        if self.watch.have(work, read, fault).is_ok() {
            for (reading, image) in row.into_iter().zip(images.chunks_exact(page_size)) {
                // Without memory for it the page is away again.
                self.got(reading.end_ahead(image));
            }
        }
    }

    /// What a thread of the pager got, if it was not refused that.
    fn got<T>(&self, got: Result<T, Error>) -> Option<T> {
        self.watch.or_tell(got.map_err(PagerError::from))
    }
}
