//! A device and a log that are slow, fail and panic at random, and look at all that they are given.
use hojzmated::{LogFault, PageIo, ReadFault};
use std::ops::Range;
use std::panic::resume_unwind;
use std::sync::atomic::{AtomicBool, AtomicU64, Ordering};
use std::sync::{Mutex, PoisonError};
use std::time::Duration;
use std::{io, thread};

pub const SIZE: usize = 64;
pub const HALVES: [Range<usize>; 2] = [0..SIZE / 2, SIZE / 2..SIZE];

/// What a panic of the device has with it.
pub struct Broken;

/// Numbers that look random, the same ones for each seed.
pub struct Numbers(pub u64);

impl Numbers {
    pub fn below(&mut self, end: u64) -> u64 {
        self.0 = self.0.wrapping_add(STEP);
        mixed(self.0) % end
    }
}

const STEP: u64 = 0x9e37_79b9_7f4a_7c15;

fn mixed(state: u64) -> u64 {
    let one = (state ^ (state >> 30)).wrapping_mul(0xbf58_476d_1ce4_e5b9);
    let other = (one ^ (one >> 27)).wrapping_mul(0x94d0_49bb_1331_11eb);
    other ^ (other >> 31)
}

/// Lets other threads go on, for one number of eight.
pub fn pause(number: u64) {
    if number % 8 == 0 {
        thread::yield_now();
    }
}

/// The number that stands in each word of a page.
pub fn number_in(bytes: &[u8]) -> u64 {
    let words = bytes.chunks(8).map(|word| word.try_into().unwrap());
    let numbers: Vec<_> = words.map(u64::from_le_bytes).collect();
    assert!(
        numbers.iter().all(|it| *it == numbers[0]),
        "torn: {numbers:?}"
    );
    numbers[0]
}

/// A page as the device has it.
struct Place {
    bytes: Mutex<[u8; SIZE]>,
    is_used: AtomicBool,
    /// The LSN of the image that was written last and went well.
    saved: AtomicU64,
    /// The same, when the device was last told to keep what it has.
    kept: AtomicU64,
}

/// The longest times for a page and for the log, in microseconds.
const OF_PAGE: u64 = 5;
const OF_LOG: u64 = 400;

pub struct Device {
    places: Vec<Place>,
    /// Pages that go out under no log record.
    temporary: Range<u64>,
    pub log_end: AtomicU64,
    durable: AtomicU64,
    is_at_log: AtomicBool,
    log_turn: Mutex<()>,
    numbers: AtomicU64,
    /// Of so many requests one fails, one panics, and one finds another page. None where it is 0.
    pub faults_in: AtomicU64,
    /// The requests that did not go well.
    pub faults: AtomicU64,
    pub reads: AtomicU64,
    pub writes: AtomicU64,
}

/// Something that is used by one thread at a time.
struct Alone<'a>(&'a AtomicBool);

impl Alone<'_> {
    fn at(is_used: &AtomicBool) -> Alone<'_> {
        assert!(!is_used.swap(true, Ordering::AcqRel), "two at once");
        Alone(is_used)
    }
}

impl Drop for Alone<'_> {
    fn drop(&mut self) {
        self.0.store(false, Ordering::Release);
    }
}

impl Device {
    pub fn new(pages: u64, temporary: Range<u64>, seed: u64, faults_in: u64) -> Device {
        let place = |_| Place {
            bytes: Mutex::new([0; SIZE]),
            is_used: AtomicBool::default(),
            saved: AtomicU64::default(),
            kept: AtomicU64::default(),
        };
        Device {
            places: (0..pages).map(place).collect(),
            temporary,
            log_end: AtomicU64::default(),
            durable: AtomicU64::default(),
            is_at_log: AtomicBool::default(),
            log_turn: Mutex::default(),
            numbers: AtomicU64::new(seed),
            faults_in: AtomicU64::new(faults_in),
            faults: AtomicU64::default(),
            reads: AtomicU64::default(),
            writes: AtomicU64::default(),
        }
    }

    fn below(&self, end: u64) -> u64 {
        mixed(self.numbers.fetch_add(STEP, Ordering::Relaxed)) % end
    }

    fn place(&self, page: u64) -> &Place {
        &self.places[page as usize]
    }

    fn rest(&self, most: u64) {
        match self.below(8) {
            0 => thread::sleep(Duration::from_micros(self.below(most))),
            1 => thread::yield_now(),
            _ => {}
        }
    }

    /// Takes its time, up to so many microseconds, and may fail, in the first so many of three ways.
    fn work(&self, most: u64, ways: u64) -> Result<(), ReadFault> {
        self.rest(most);
        let way = match self.faults_in.load(Ordering::Relaxed) {
            0 => ways,
            faults_in => self.below(faults_in),
        };
        if way >= ways {
            return Ok(());
        }
        self.faults.fetch_add(1, Ordering::Relaxed);
        match way {
            0 => Err(io::Error::other("no such luck").into()),
            1 => resume_unwind(Box::new(Broken)),
            _ => Err(ReadFault::WrongPage),
        }
    }

    fn write_or_fail(&self, most: u64) -> io::Result<()> {
        match self.work(most, 2) {
            Err(ReadFault::Device(error)) => Err(error),
            Err(_) | Ok(()) => Ok(()),
        }
    }

    /// The LSN of a page's image that the device keeps for sure.
    pub fn kept(&self, page: u64) -> u64 {
        self.place(page).kept.load(Ordering::Acquire)
    }

    pub fn bytes(&self, page: u64) -> [u8; SIZE] {
        *self.place(page).bytes.lock().unwrap()
    }

    /// Makes all of the log durable, for the pager or for the engine, and tells its end.
    /// It fails so that nothing is lost.
    pub fn sync_log(&self) -> Result<u64, LogFault> {
        let _turn = self.log_turn.lock().unwrap_or_else(PoisonError::into_inner);
        let end = self.end_of_log();
        self.work(OF_LOG, 1).map_err(|_| LogFault::NotYet)?;
        self.durable.fetch_max(end, Ordering::AcqRel);
        Ok(end)
    }

    pub fn end_of_log(&self) -> u64 {
        self.log_end.load(Ordering::Acquire)
    }
}

impl PageIo for Device {
    fn read_page(&self, page: u64, image: &mut [u8]) -> Result<(), ReadFault> {
        let place = self.place(page);
        let _alone = Alone::at(&place.is_used);
        image.fill(0xa5);
        self.work(OF_PAGE, 3)?;
        image.copy_from_slice(place.bytes.lock().unwrap().as_slice());
        assert_eq!(
            number_in(image),
            place.saved.load(Ordering::Acquire),
            "page {page}"
        );
        self.reads.fetch_add(1, Ordering::Relaxed);
        Ok(())
    }

    /// Where it fails the place has half of the image.
    fn write_page(&self, page: u64, image: &mut [u8], lsn: u64) -> io::Result<()> {
        let place = self.place(page);
        let _alone = Alone::at(&place.is_used);
        let number = number_in(image);
        let wanted = if self.temporary.contains(&page) {
            0
        } else {
            number
        };
        assert_eq!(wanted, lsn, "page {page}");
        assert!(
            lsn <= self.durable.load(Ordering::Acquire),
            "page {page} ahead of the log"
        );
        let [first, second] = HALVES;
        place.bytes.lock().unwrap()[first.clone()].copy_from_slice(&image[first]);
        self.write_or_fail(OF_PAGE)?;
        place.bytes.lock().unwrap()[second.clone()].copy_from_slice(&image[second]);
        place.saved.store(number, Ordering::Release);
        self.writes.fetch_add(1, Ordering::Relaxed);
        image.fill(0xa5);
        Ok(())
    }

    fn make_log_durable(&self, lsn: u64) -> Result<(), LogFault> {
        let _alone = Alone::at(&self.is_at_log);
        let end = self.end_of_log();
        assert!(lsn <= end, "no log record has LSN {lsn}");
        self.sync_log().map(drop)
    }

    /// It does not fail: after that an engine ends its pager.
    fn sync(&self) -> io::Result<()> {
        let saved = self
            .places
            .iter()
            .map(|it| it.saved.load(Ordering::Acquire));
        let saved: Vec<_> = saved.collect();
        self.rest(OF_PAGE);
        for (place, lsn) in self.places.iter().zip(saved) {
            place.kept.fetch_max(lsn, Ordering::AcqRel);
        }
        Ok(())
    }
}
