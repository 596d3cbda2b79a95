//! Threads that share a pager and no lock: what one of them sees of another it sees by the pager alone. For
//! `check/sanitize`.
//!
//! usage: bare SECONDS
//!
//! Beside the bytes of each page stands a number in plain memory, which a thread uses under the page's latch. The
//! device is plain memory too. So the thread sanitizer finds each order between threads that the pager fails to give.
use hojzmated::pthreads::{LATCH_WAITS, Mutex};
use hojzmated::{
    Error, LogFault, PageIo, PageMut, PagePin, Pager, PagerConfig, PagerError, ReadFault, noted,
};
use std::cell::UnsafeCell;
use std::sync::atomic::{AtomicU64, Ordering::Relaxed};
use std::time::{Duration, Instant};
use std::{env, io, thread};

const SIZE: usize = 64;
const PAGES: u64 = 40;
/// Half of all calls are for the first few pages.
const HOT: u64 = 3;
/// So many pins wait at most for another thread.
const MOST_SENT: usize = 4;
const ROUND: Duration = Duration::from_secs(1);
/// The threads, frames, parts and the correlated period of a round.
const ROUNDS: [(u64, usize, usize, u64); 5] = [
    (6, 24, 1, 12),
    (6, 12, 1, 1),
    (6, 24, 2, 3),
    (8, 32, 1, 0),
    (4, 12, 1, 30),
];

/// Plain memory that no lock of its own guards.
struct Plain<T>(UnsafeCell<T>);

// SAFETY: that its users have an order is what is tested here.
unsafe impl<T: Send> Sync for Plain<T> {}

/// Such memory for each page.
fn plain<T: Copy>(value: T) -> Box<[Plain<T>]> {
    (0..PAGES).map(|_| Plain(UnsafeCell::new(value))).collect()
}

/// Whether each word of a page is this number.
fn is_all(bytes: &[u8], number: u64) -> bool {
    bytes.chunks(8).all(|word| word == number.to_le_bytes())
}

#[derive(Default)]
struct Counts {
    calls: AtomicU64,
    evictions: AtomicU64,
    checkpoints: AtomicU64,
    /// Pins that another thread used than the one that made them.
    sent: AtomicU64,
}

struct Device {
    pages: Box<[Plain<[u8; SIZE]>]>,
    durable: AtomicU64,
}

impl PageIo for Device {
    fn read_page(&self, page: u64, image: &mut [u8]) -> Result<(), ReadFault> {
        thread::yield_now();
        // SAFETY: nobody else reads this page or writes it out.
        image.copy_from_slice(unsafe { &*self.pages[page as usize].0.get() });
        Ok(())
    }

    fn write_page(&self, page: u64, image: &mut [u8], lsn: u64) -> io::Result<()> {
        thread::yield_now();
        assert!(is_all(image, lsn), "page {page}: {image:?}, and not {lsn}");
        assert!(
            lsn <= self.durable.load(Relaxed),
            "page {page} ahead of the log"
        );
        // SAFETY: nobody else reads this page or writes it out.
        unsafe { &mut *self.pages[page as usize].0.get() }.copy_from_slice(image);
        Ok(())
    }

    fn make_log_durable(&self, lsn: u64) -> Result<(), LogFault> {
        thread::yield_now();
        self.durable.fetch_max(lsn, Relaxed);
        Ok(())
    }

    fn sync(&self) -> io::Result<()> {
        Ok(())
    }
}

struct Engine<'a> {
    pager: &'a Pager<Device>,
    /// The LSN of each page's newest write. It changes under the page's exclusive latch.
    newest: Box<[Plain<u64>]>,
    log_end: AtomicU64,
    /// Pins for another thread, each with the number of its maker.
    sent: Mutex<Vec<(u64, PagePin<'a>)>>,
    counts: &'a Counts,
}

/// None where no page may make way.
fn unless_pinned<T>(told: Result<Option<T>, PagerError>) -> Result<Option<T>, PagerError> {
    match told {
        Err(PagerError::Refused(Error::NoVictim)) => Ok(None),
        other => other,
    }
}

impl<'a> Engine<'a> {
    /// The caller has a latch of the page.
    fn look(&self, page: u64, bytes: &[u8]) {
        // SAFETY: who changes it has the page's exclusive latch.
        let newest = unsafe { *self.newest[page as usize].0.get() };
        assert!(
            is_all(bytes, newest),
            "page {page}: {bytes:?}, and not {newest}"
        );
        if newest % 4 == 0 {
            thread::yield_now();
        }
    }

    fn change(&self, page: &mut PageMut<'_>) {
        self.look(page.page(), page.bytes());
        let lsn = self.log_end.fetch_add(1, Relaxed) + 1;
        let half = lsn.to_le_bytes().repeat(SIZE / 16);
        for offset in [0, SIZE / 2] {
            page.put(offset, &half, lsn).expect("bytes within the page");
        }
        // SAFETY: nobody else has a latch of the page.
        unsafe { *self.newest[page.page() as usize].0.get() = lsn };
    }

    fn act(&self, thread: u64, numbers: &mut Numbers) -> Result<(), PagerError> {
        let few = if numbers.below(2) == 0 { HOT } else { PAGES };
        let page = numbers.below(few);
        match numbers.below(100) {
            0..40 => self.look(page, &self.pager.read(page)?),
            40..60 => self.change(&mut self.pager.write(page)?),
            60..65 => {
                let found = unless_pinned(self.pager.try_read(page))?;
                found.iter().for_each(|bytes| self.look(page, bytes));
            }
            65..70 => {
                let found = unless_pinned(self.pager.try_write(page))?;
                found.into_iter().for_each(|mut it| self.change(&mut it));
            }
            70..80 => self.use_pin(&self.pager.pin(page)?),
            80..85 => self.send(thread, self.pager.pin(page)?),
            85..90 => self.receive(thread),
            90..97 => self.pager.flush(page)?,
            97..99 => drop(self.pager.clean(2)?),
            _ => {
                self.pager.checkpoint()?;
                self.counts.checkpoints.fetch_add(1, Relaxed);
            }
        }
        Ok(())
    }

    fn use_pin(&self, pin: &PagePin<'_>) {
        self.look(pin.page(), &pin.read());
        self.change(&mut pin.write());
    }

    fn send(&self, thread: u64, pin: PagePin<'a>) {
        let mut sent = self.sent.lock().expect("it is not poisoned");
        if sent.len() < MOST_SENT {
            sent.push((thread, pin));
        }
    }

    fn receive(&self, thread: u64) {
        let received = self.sent.lock().expect("it is not poisoned").pop();
        if let Some((maker, pin)) = received {
            self.use_pin(&pin);
            self.counts
                .sent
                .fetch_add(u64::from(maker != thread), Relaxed);
        }
    }
}

/// Numbers that look random, others for each thread.
struct Numbers(u64);

impl Numbers {
    fn below(&mut self, end: u64) -> u64 {
        self.0 = self
            .0
            .wrapping_mul(6_364_136_223_846_793_005)
            .wrapping_add(1_442_695_040_888_963_407);
        (self.0 >> 33) % end
    }
}

fn round(number: usize, counts: &Counts) {
    let (threads, frames, parts, correlated) = ROUNDS[number % ROUNDS.len()];
    let config = PagerConfig::new(PAGES, SIZE, frames)
        .with_parts(parts)
        .with_correlated(correlated)
        .with_pin_wait(Duration::from_secs(60));
    let device = Device {
        pages: plain([0; SIZE]),
        durable: AtomicU64::new(0),
    };
    let pager = Pager::new(&config, device).expect("a pager");
    let (log_end, sent) = (AtomicU64::new(0), Mutex::default());
    let engine = Engine {
        pager: &pager,
        newest: plain(0),
        log_end,
        sent,
        counts,
    };
    let end = Instant::now() + ROUND;
    thread::scope(|scope| {
        let work = |thread: u64| {
            let mut numbers = Numbers((number as u64) << 32 | thread);
            while Instant::now() < end {
                engine
                    .act(thread, &mut numbers)
                    .expect("a call that goes well");
                engine.counts.calls.fetch_add(1, Relaxed);
            }
        };
        let started: Vec<_> = (0..threads)
            .map(|thread| scope.spawn(move || work(thread)))
            .collect();
        // The sanitizer sees a join. It does not see how a scope waits.
        started
            .into_iter()
            .for_each(|it| it.join().expect("a thread that ends well"));
    });
    drop(engine.sent);
    pager.checkpoint().expect("a checkpoint");
    counts
        .evictions
        .fetch_add(pager.stats().totals.evictions, Relaxed);
    for (page, newest) in pager.io().pages.iter().zip(&engine.newest) {
        // SAFETY: no other thread is left.
        assert!(unsafe { is_all(&*page.0.get(), *newest.0.get()) });
    }
}

fn main() {
    let seconds = env::args().nth(1).and_then(|it| it.parse().ok());
    let time = Duration::from_secs_f64(seconds.expect("usage: bare SECONDS"));
    let (began, counts) = (Instant::now(), Counts::default());
    let mut number = 0;
    while began.elapsed() < time {
        round(number, &counts);
        number += 1;
    }
    let told = [
        ("calls", counts.calls.into_inner()),
        ("evictions", counts.evictions.into_inner()),
        ("checkpoints", counts.checkpoints.into_inner()),
        ("pins sent to threads", counts.sent.into_inner()),
        ("latches waited for", LATCH_WAITS.load(Relaxed)),
    ];
    noted::tell(&told);
}
