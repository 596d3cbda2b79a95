//! An engine of many threads over a device that is slow, fails and panics at random. Each word of a
//! page has the LSN of the page's newest write.
use crate::faulty::{Broken, Device, HALVES, Numbers, SIZE, number_in, pause};
use hojzmated::{Error, PageMut, PagePin, Pager, PagerConfig, PagerError};
use std::io::{self, Write};
use std::panic::{AssertUnwindSafe, catch_unwind, resume_unwind};
use std::sync::atomic::{AtomicU64, Ordering};
use std::sync::{Arc, Mutex, PoisonError, RwLock, TryLockError};
use std::thread;
use std::time::Duration;

/// So many pages at the end of the file are for scratch: a thread writes to two side by side, and drops
/// them. The last two are temporary.
const SCRATCH: u64 = 4;
const DROPPED: u64 = 2;
/// Half of the calls are for so many pages.
const HOT: u64 = 64;
/// So many pages are read ahead by one call.
const AHEAD: u64 = 8;

pub struct Settings {
    pub pages: u64,
    pub frames: usize,
    pub parts: usize,
    pub seed: u64,
    /// Of so many requests to the device three do not go well.
    pub faults_in: u64,
    /// Of so many calls one wants several pages at a time, for which there may be no frames. None where
    /// it is 0.
    pub several_in: u64,
}

pub struct Engine {
    pub pager: Arc<Pager<Device>>,
    /// The LSN of each page's newest write, which changes under the page's exclusive latch.
    newest: Vec<AtomicU64>,
    /// How many pages were made. The others are made one after another.
    made: AtomicU64,
    making: Mutex<()>,
    /// The first pages of the scratch ones that nobody uses.
    scratch: Mutex<Vec<u64>>,
    /// A thread has it shared from a log record to the end of its write.
    records: RwLock<()>,
    checkpoints: Mutex<()>,
    several_in: u64,
    /// Calls that did not go well, and panics.
    pub faults: AtomicU64,
    pub kept: AtomicU64,
}

/// Says of which seed a run was that fails.
pub struct Told(pub u64);

impl Told {
    pub fn tell(&self) {
        let _ = writeln!(io::stderr(), "the seed is {}", self.0);
    }
}

impl Drop for Told {
    fn drop(&mut self) {
        if thread::panicking() {
            self.tell();
        }
    }
}

/// None where no page may make way, as for a call that waits for no other thread.
fn unless_pinned<T>(told: Result<Option<T>, PagerError>) -> Result<Option<T>, PagerError> {
    match told {
        Err(PagerError::Refused(Error::NoVictim)) => Ok(None),
        other => other,
    }
}

/// Whether a call came to this by a fault of the device.
fn is_of_device(error: &PagerError) -> bool {
    match error {
        PagerError::WrongPage { .. } | PagerError::LogNotYet { .. } => true,
        _ => std::error::Error::source(error).is_some_and(|it| it.to_string() == "no such luck"),
    }
}

impl Engine {
    pub fn new(settings: &Settings) -> Engine {
        let (pages, scratch) = (settings.pages, settings.pages - SCRATCH..settings.pages);
        let temporary = pages - DROPPED..pages;
        let config = PagerConfig::new(pages, SIZE, settings.frames)
            .with_parts(settings.parts)
            .with_correlated(settings.seed % 3 * settings.frames as u64 / 2)
            .with_retained(1_000)
            .with_pin_wait(Duration::from_millis(if settings.several_in > 0 {
                300
            } else {
                60_000
            }))
            .with_temporary(temporary.clone())
            .with_notes_latches(settings.seed % 2 == 0);
        let device = Device::new(pages, temporary, settings.seed, settings.faults_in);
        Engine {
            pager: Arc::new(Pager::new(&config, device).unwrap()),
            newest: (0..pages).map(|_| AtomicU64::default()).collect(),
            made: AtomicU64::new(pages / 2),
            making: Mutex::default(),
            scratch: Mutex::new(scratch.step_by(DROPPED as usize).collect()),
            records: RwLock::default(),
            checkpoints: Mutex::default(),
            several_in: settings.several_in,
            faults: AtomicU64::default(),
            kept: AtomicU64::default(),
        }
    }

    /// Makes calls at random as long as there is reason to. Each may fail by the device's faults.
    pub fn work(&self, numbers: &mut Numbers, mut goes_on: impl FnMut() -> bool) {
        while goes_on() {
            match catch_unwind(AssertUnwindSafe(|| self.act(numbers))) {
                Ok(Ok(())) => continue,
                Ok(Err(error)) => assert!(self.may_be(&error), "{error}: {error:?}"),
                Err(payload) if payload.is::<Broken>() => {}
                Err(payload) => resume_unwind(payload),
            }
            self.faults.fetch_add(1, Ordering::Relaxed);
        }
    }

    /// Whether a call may come to this.
    fn may_be(&self, error: &PagerError) -> bool {
        let is_full = matches!(error, PagerError::Refused(Error::NoVictim));
        is_of_device(error) || (is_full && self.several_in > 0)
    }

    fn act(&self, numbers: &mut Numbers) -> Result<(), PagerError> {
        if self.several_in > 0 && numbers.below(self.several_in) == 0 {
            return self.take_several(numbers);
        }
        let pages = self.made.load(Ordering::Acquire);
        let end = [pages, pages.min(HOT)][numbers.below(2) as usize];
        let page = numbers.below(end);
        match numbers.below(200) {
            0..70 => self.look(page, &self.pager.read(page)?),
            70..130 => self.change(&mut [self.pager.write(page)?]),
            130..140 => {
                let found = unless_pinned(self.pager.try_read(page))?;
                found.iter().for_each(|bytes| self.look(page, bytes));
            }
            140..150 => {
                let found = unless_pinned(self.pager.try_write(page))?;
                found.into_iter().for_each(|it| self.change(&mut [it]));
            }
            150..160 => self.use_pin(&self.pager.pin(page)?),
            160..170 => self.use_two(page, numbers.below(pages))?,
            170..185 => self.pager.flush(page)?,
            185..190 => drop(self.pager.clean(4)?),
            190..192 => self.checkpoint()?,
            192 => drop(self.pager.purge()?),
            193 => assert!(self.pager.stats().resident <= self.pager.config().frames),
            194 => drop(self.pager.prefetch(page..pages.min(page + AHEAD))),
            195..197 => self.use_scratch()?,
            _ => self.make_page()?,
        }
        Ok(())
    }

    /// The bytes are those of the newest write, and stay so.
    fn look(&self, page: u64, bytes: &[u8]) {
        for _ in 0..2 {
            let newest = self.newest[page as usize].load(Ordering::Acquire);
            assert_eq!(number_in(bytes), newest, "page {page}");
            pause(newest);
        }
    }

    /// Fills pages, each in one of three ways, under one log record.
    fn change(&self, pages: &mut [PageMut<'_>]) {
        for page in pages.iter() {
            self.look(page.page(), page.bytes());
        }
        let record = self.records.read().unwrap();
        let lsn = self.pager.io().log_end.fetch_add(1, Ordering::AcqRel) + 1;
        for page in pages.iter_mut() {
            fill(page, lsn);
            self.newest[page.page() as usize].store(lsn, Ordering::Release);
        }
        drop(record);
        for page in pages.iter() {
            assert_eq!(number_in(page.bytes()), lsn);
        }
    }

    fn use_pin(&self, pin: &PagePin<'_>) {
        self.look(pin.page(), &pin.read());
        self.change(&mut [pin.write()]);
        assert!(self.pager.is_resident(pin.page()));
        self.look(pin.page(), &pin.read());
    }

    /// Looks at one page and changes another, if that can be had without waiting.
    fn use_two(&self, page: u64, other: u64) -> Result<(), PagerError> {
        let look = self.pager.read(page)?;
        if page != other {
            let found = unless_pinned(self.pager.try_write(other))?;
            found.into_iter().for_each(|it| self.change(&mut [it]));
        }
        self.look(page, &look);
        Ok(())
    }

    /// Waits for the latches of several pages, the lesser first, of which a few are hot; commits; or has
    /// another thread use a pin.
    fn take_several(&self, numbers: &mut Numbers) -> Result<(), PagerError> {
        let pages = self.made.load(Ordering::Acquire);
        let mut pages = [0; 3].map(|_| {
            let few = if numbers.below(3) == 0 { 4 } else { pages };
            numbers.below(few.min(pages))
        });
        pages.sort_unstable();
        let [first, second, third] = pages;
        match numbers.below(8) {
            0..4 if first < second => {
                let one = self.pager.write(first)?;
                self.change(&mut [one, self.pager.write(second)?]);
            }
            4 if first < second && second < third => {
                let look = self.pager.read(first)?;
                let pin = self.pager.pin(second)?;
                self.change(&mut [self.pager.write(third)?]);
                self.look(first, &look);
                drop(look);
                self.change(&mut [pin.write()]);
            }
            5 => {
                let pin = self.pager.pin(first)?;
                thread::scope(|threads| {
                    // Joined here: the thread sanitizer does not see how a scope of std waits.
                    let look = threads.spawn(move || self.look(first, &pin.read()));
                    look.join().unwrap();
                });
            }
            6 => {
                let lsn = self.pager.io().end_of_log();
                let synced = self.pager.io().sync_log();
                self.pager
                    .mark(synced.map_err(|_| PagerError::LogNotYet { lsn })?);
            }
            _ => {}
        }
        Ok(())
    }

    /// How many pages are not for scratch.
    fn lasting(&self) -> usize {
        self.newest.len() - SCRATCH as usize
    }

    /// Writes to pages that no other thread uses, and drops them, whatever the device has of them.
    fn use_scratch(&self) -> Result<(), PagerError> {
        let free = self.scratch.lock().unwrap().pop();
        let Some(first) = free else {
            return Ok(());
        };
        let _scratch = Scratch {
            engine: self,
            first,
        };
        for page in first..first + DROPPED {
            self.change(&mut [self.pager.new_page(page)?]);
        }
        for page in first..first + DROPPED {
            self.change(&mut [self.pager.write(page)?]);
        }
        Ok(())
    }

    /// Makes a page that was never written.
    fn make_page(&self) -> Result<(), PagerError> {
        let _turn = self.making.lock().unwrap_or_else(PoisonError::into_inner);
        let page = self.made.load(Ordering::Acquire);
        if page < self.lasting() as u64 {
            self.change(&mut [self.pager.new_page(page)?]);
            self.made.store(page + 1, Ordering::Release);
        }
        Ok(())
    }

    /// What was written before a checkpoint began is kept by the device afterwards, as far as the log
    /// may be cut. The checkpoint is of all pages, by age, or of what went out by itself.
    fn checkpoint(&self) -> Result<(), PagerError> {
        let _turn = match self.checkpoints.try_lock() {
            Ok(turn) => turn,
            Err(TryLockError::Poisoned(poisoned)) => poisoned.into_inner(),
            Err(TryLockError::WouldBlock) => return Ok(()),
        };
        let device = self.pager.io();
        let (end, newest) = {
            let _no_record = self.records.write().unwrap();
            let newest = self.newest[..self.lasting()].iter();
            let newest = newest.map(|it| it.load(Ordering::Acquire));
            (device.end_of_log() + 1, newest.collect::<Vec<_>>())
        };
        let redo = match end % 3 {
            0 => self.pager.checkpoint()?,
            1 => self
                .pager
                .flush_before(end)
                .and_then(|()| self.pager.sync())?,
            _ => self.pager.sync()?,
        };
        let redo = redo.unwrap_or(end);
        for (page, lsn) in (0..).zip(newest) {
            let is_cut = lsn < redo.min(end);
            assert!(
                !is_cut || device.kept(page) >= lsn,
                "page {page} lost LSN {lsn}"
            );
        }
        self.kept.fetch_add(1, Ordering::Relaxed);
        Ok(())
    }

    /// At the end, with a device that has no faults: it has what was written last, and the pager has
    /// counted what the device did.
    pub fn end(self) {
        let device = self.pager.io();
        device.faults_in.store(0, Ordering::Relaxed);
        let stats = self.pager.stats();
        assert_eq!(stats.pinned, 0);
        assert!(stats.totals.evictions > 0 && stats.totals.failed > 0);
        assert_eq!(self.pager.checkpoint().unwrap(), None);
        for (page, newest) in (0..).zip(&self.newest[..self.lasting()]) {
            let newest = newest.load(Ordering::Acquire);
            assert_eq!(number_in(&device.bytes(page)), newest, "page {page}");
            assert_eq!(device.kept(page), newest, "page {page}");
        }
        let stats = self.pager.stats();
        assert_eq!((stats.unsaved, self.pager.redo_from()), (0, None));
        assert_eq!(stats.totals.writes, device.writes.load(Ordering::Relaxed));
        assert!(stats.totals.faults >= device.reads.load(Ordering::Relaxed));
    }
}

/// Puts a number into each word of a page: at two places at once, in place, or in two halves.
fn fill(page: &mut PageMut<'_>, lsn: u64) {
    let half = lsn.to_le_bytes().repeat(SIZE / 16);
    let mut puts = HALVES.map(|it| (it.start, half.as_slice())).into_iter();
    let filled = match lsn % 3 {
        0 => page.put_each(puts.as_slice(), lsn),
        1 => page.edit(.., lsn, |bytes| bytes.copy_from_slice(&half.repeat(2))),
        _ => puts.try_for_each(|(start, half)| {
            pause(lsn);
            page.put(start, half, lsn)
        }),
    };
    filled.unwrap();
}

/// Scratch pages that a thread uses.
struct Scratch<'a> {
    engine: &'a Engine,
    first: u64,
}

impl Drop for Scratch<'_> {
    /// Drops the pages, also where their use did not go well.
    fn drop(&mut self) {
        let (engine, first) = (self.engine, self.first);
        engine.pager.discard(first).unwrap();
        engine.pager.discard_from(first, DROPPED).unwrap();
        for page in first..first + DROPPED {
            assert!(!engine.pager.is_resident(page));
            engine.newest[page as usize].store(0, Ordering::Release);
        }
        engine.scratch.lock().unwrap().push(first);
    }
}
