//! Does a scan push out the pages that are wanted again and again, and what is gained by reading ahead?
//!
//!     scan [SECONDS]
//!     scan ahead [SECONDS]
//!     scan file FOLDER [SECONDS]
//!     scan calls
//!
//! The table has 12,000 pages of 4,096 bytes. Their device is in memory, so that each read is a copy.
//! There are 1,024 frames in 16 parts.
//!
//! Two threads look at pages of 620, spread over the table, and rest 200 us after each; a third one
//! scans, from the beginning again after the end. For each row the pager is made anew, and three scans
//! are made before it counts, for so many seconds. Printed is a table by K, period and the memory of pages
//! that are away: the pages that had to be read for a look-up, beside a plain scan and one that has 16 pages
//! read ahead by four threads; the pages that these scans had in a second; how many pages were remembered at
//! the end of the plain one, and the memory of its pager.
//!
//! With `ahead` each read takes 100 us and more, as long as a thread sleeps that wants to sleep so long.
//! The third thread scans with pages read ahead by so many threads, one by one or up to 16 by one read:
//! printed are the pages in a second, how many times that of the plain scan it is, and the pages that had
//! to be read for a look-up.
//!
//! With `file` the same is done over a file that it makes in FOLDER and takes away at the end. It is opened
//! with `O_DIRECT`, so that the system keeps none of its pages, and each read goes to the disk.
//!
//! With `calls` one thread scans 1,000,000 pages, which need no device, with 65,536 frames in one part:
//! printed are the mean and the greatest time of a call, the pages that are remembered at the end and the
//! memory of the pager, with a memory of eight times the frames and with one without end. The same is done
//! with a `Pool`, which is purged after each 16 fixes: printed are the mean and the greatest time of a
//! purge, and the most pages that one forgot.
use hojzmated::core::{Config, Fixed, Pool};
use hojzmated::{LogFault, PageIo, Pager, PagerConfig, ReadFault, Stats};
use std::cell::Cell;
use std::error::Error;
use std::fs::{File, remove_file};
use std::io;
use std::os::unix::fs::{FileExt, OpenOptionsExt};
use std::path::Path;
use std::sync::Arc;
use std::sync::atomic::{AtomicBool, AtomicU64, Ordering};
use std::thread::{scope, sleep};
use std::time::{Duration, Instant};

type Outcome<T> = Result<T, Box<dyn Error + Send + Sync>>;
type Shared = Arc<Pager<Arc<Pages>>>;

const PAGES: u64 = 12_000;
const SIZE: usize = 4096;
const FRAMES: usize = 1024;
const PARTS: usize = 16;
const HOT: u64 = 620;
const REST: Duration = Duration::from_micros(200);
const SLOW: Duration = Duration::from_micros(100);
const WITHOUT_END: u64 = 1 << 62;
/// `O_DIRECT` of the system's headers.
const DIRECT: i32 = if cfg!(target_arch = "aarch64") {
    0o200_000
} else {
    0o40_000
};
/// So many scans come before those that count.
const BEFORE: u64 = 3;
/// So many pages are asked for at a time.
const STEP: u64 = 8;

thread_local! {
    /// The pages that this thread had to read.
    static READS: Cell<u64> = const { Cell::new(0) };
}

/// Pages with their number in each byte, and a log that is always durable.
#[derive(Clone)]
struct Pages {
    source: Source,
    /// How many pages one read takes.
    most: usize,
}

/// Where the pages are.
#[derive(Clone)]
enum Source {
    Memory,
    /// In memory too, but each read sleeps first.
    Slow,
    File(Arc<File>),
}

impl PageIo for Pages {
    fn read_page(&self, page: u64, image: &mut [u8]) -> Result<(), ReadFault> {
        READS.set(READS.get() + 1);
        self.read_pages(page, 1, image)
    }

    fn write_page(&self, _page: u64, _image: &mut [u8], _lsn: u64) -> io::Result<()> {
        Ok(())
    }

    fn most_pages(&self) -> usize {
        self.most
    }

    fn read_pages(&self, first: u64, _count: usize, images: &mut [u8]) -> Result<(), ReadFault> {
        match &self.source {
            Source::File(file) => return Ok(file.read_exact_at(images, first * SIZE as u64)?),
            Source::Slow => sleep(SLOW),
            Source::Memory => {}
        }
        fill(first, images);
        Ok(())
    }

    fn make_log_durable(&self, _lsn: u64) -> Result<(), LogFault> {
        Ok(())
    }

    fn sync(&self) -> io::Result<()> {
        Ok(())
    }
}

/// Makes the images of pages, from the first one on.
fn fill(first: u64, images: &mut [u8]) {
    for (page, image) in (first..).zip(images.chunks_mut(SIZE)) {
        image.fill(page as u8);
    }
}

/// Makes a file of all pages, of which the system keeps none.
fn file_at(path: &Path) -> Outcome<File> {
    let mut images = vec![0; PAGES as usize * SIZE];
    fill(0, &mut images);
    let file = File::create_new(path)?;
    file.write_all_at(&images, 0)?;
    file.sync_all()?;
    Ok(File::options().read(true).custom_flags(DIRECT).open(path)?)
}

/// Pages that need no device.
struct Nothing;

impl PageIo for Nothing {
    fn read_page(&self, _page: u64, _image: &mut [u8]) -> Result<(), ReadFault> {
        Ok(())
    }

    fn write_page(&self, _page: u64, _image: &mut [u8], _lsn: u64) -> io::Result<()> {
        Ok(())
    }

    fn make_log_durable(&self, _lsn: u64) -> Result<(), LogFault> {
        Ok(())
    }

    fn sync(&self) -> io::Result<()> {
        Ok(())
    }
}

/// What is counted while it counts.
#[derive(Default)]
struct Counts {
    is_counting: AtomicBool,
    is_over: AtomicBool,
    look_ups: AtomicU64,
    reads: AtomicU64,
    scanned: AtomicU64,
    /// How many whole scans were made.
    scans: AtomicU64,
}

impl Counts {
    fn add(&self, to: &AtomicU64, number: u64) {
        if self.is_counting.load(Ordering::Relaxed) {
            to.fetch_add(number, Ordering::Relaxed);
        }
    }

    fn is_over(&self) -> bool {
        self.is_over.load(Ordering::Relaxed)
    }

    fn of(number: &AtomicU64) -> f64 {
        number.load(Ordering::Relaxed) as f64
    }
}

/// Looks at the whole of a page.
fn look(pager: &Shared, page: u64) -> Outcome<()> {
    let bytes = pager.read(page)?;
    match bytes.iter().all(|byte| *byte == page as u8) {
        true => Ok(()),
        false => Err("a wrong page".into()),
    }
}

/// Looks hot pages up, and rests after each.
fn look_up(pager: &Shared, counts: &Counts, thread: u64) -> Outcome<()> {
    let mut number = 0x9e37_79b9_7f4a_7c15u64.wrapping_mul(thread + 1);
    while !counts.is_over() {
        number ^= number << 13;
        number ^= number >> 7;
        number ^= number << 17;
        let before = READS.get();
        look(pager, number % HOT * (PAGES / HOT))?;
        counts.add(&counts.look_ups, 1);
        counts.add(&counts.reads, READS.get() - before);
        sleep(REST);
    }
    Ok(())
}

/// Scans again and again, with so many pages read ahead.
fn scan(pager: &Shared, counts: &Counts, ahead: u64) -> Outcome<()> {
    while !counts.is_over() {
        if ahead > 0 {
            pager.prefetch(0..ahead);
        }
        for page in 0..PAGES {
            if ahead > 0 && page % STEP == 0 {
                pager.prefetch(page + ahead..page + ahead + STEP);
            }
            look(pager, page)?;
            counts.add(&counts.scanned, 1);
            if counts.is_over() {
                break;
            }
        }
        counts.scans.fetch_add(1, Ordering::Relaxed);
    }
    Ok(())
}

/// What a run of scans came to.
struct Run {
    reads_for_look_up: f64,
    rate: f64,
    stats: Stats,
}

/// Scans, with pages read ahead by so many threads, beside so many that look pages up.
fn run(
    config: &PagerConfig,
    pages: Pages,
    (ahead, readers): (u64, usize),
    look_ups: u64,
    length: Duration,
) -> Outcome<Run> {
    let pager = Arc::new(Pager::new(config, Arc::new(pages))?);
    let readers = pager.start_readers(readers)?;
    let (pager, counts) = (&pager, &Counts::default());
    scope(|threads| -> Outcome<()> {
        let mut all = vec![threads.spawn(move || scan(pager, counts, ahead))];
        let spawn = |thread| threads.spawn(move || look_up(pager, counts, thread));
        all.extend((0..look_ups).map(spawn));
        while counts.scans.load(Ordering::Relaxed) < BEFORE && !all[0].is_finished() {
            sleep(REST);
        }
        counts.is_counting.store(true, Ordering::Relaxed);
        sleep(length);
        counts.is_over.store(true, Ordering::Relaxed);
        for thread in all {
            thread.join().map_err(|_| "a thread panicked")??;
        }
        Ok(())
    })?;
    drop(readers);
    Ok(Run {
        reads_for_look_up: Counts::of(&counts.reads) / Counts::of(&counts.look_ups),
        rate: Counts::of(&counts.scanned) / length.as_secs_f64(),
        stats: pager.stats(),
    })
}

fn settings() -> PagerConfig {
    PagerConfig::in_parts(PAGES, SIZE, FRAMES, PARTS)
}

/// The pages that must be read for look-ups beside scans.
fn beside_look_ups(length: Duration) -> Outcome<()> {
    println!(
        "| K | Period | Remembered | Reads for a look-up | the same, 16 ahead | Scanned a second | 16 ahead | Pages remembered | KB |"
    );
    println!("{}|", "|---".repeat(9));
    let (eighth, frames) = (FRAMES as u64 / 8, FRAMES as u64);
    let rows = [
        (2, eighth, 4 * frames, "4 times the frames"),
        (2, eighth, 8 * frames, "8 times"),
        (2, eighth, 16 * frames, "16 times"),
        (2, eighth, WITHOUT_END, "without end"),
        (2, 0, 8 * frames, "8 times"),
        (2, 0, WITHOUT_END, "without end"),
        (1, 0, 8 * frames, "8 times"),
    ];
    for (k, correlated, retained, name) in rows {
        let config = settings()
            .with_k(k)
            .with_correlated(correlated)
            .with_retained(retained);
        let pages = Pages {
            source: Source::Memory,
            most: 1,
        };
        let plain = run(&config, pages.clone(), (0, 0), 2, length)?;
        let ahead = run(&config, pages, (16, 4), 2, length)?;
        println!(
            "| {k} | {correlated} | {name} | {:.4} | {:.4} | {:.0} | {:.0} | {} | {} |",
            plain.reads_for_look_up,
            ahead.reads_for_look_up,
            plain.rate,
            ahead.rate,
            plain.stats.remembered,
            plain.stats.memory / 1024
        );
    }
    Ok(())
}

/// What is gained by reading ahead where reads are slow.
fn ahead(source: &Source, length: Duration) -> Outcome<()> {
    println!(
        "| Ahead | Threads | Pages of a read | Scanned a second | Times the plain scan | Reads for a look-up |"
    );
    println!("{}|", "|---".repeat(6));
    let mut plain = 0.0;
    for (ahead, readers, most) in [
        (0, 0, 1),
        (32, 8, 1),
        (32, 16, 1),
        (64, 32, 1),
        (32, 2, 16),
        (64, 4, 16),
    ] {
        let pages = Pages {
            source: source.clone(),
            most,
        };
        let run = run(&settings(), pages, (ahead, readers), 2, length)?;
        if ahead == 0 {
            plain = run.rate;
        }
        let (rate, times, reads) = (run.rate, run.rate / plain, run.reads_for_look_up);
        println!("| {ahead} | {readers} | {most} | {rate:.0} | {times:.1} | {reads:.4} |");
    }
    Ok(())
}

/// The pages that are scanned where calls are timed.
const MANY: u64 = 1_000_000;

/// The mean and the greatest of some times, in nanoseconds.
fn mean_and_greatest(times: &[Duration]) -> (u64, u64) {
    let nanos = |it: &Duration| it.as_nanos() as u64;
    let sum: u64 = times.iter().map(nanos).sum();
    let greatest = times.iter().map(nanos).max();
    (sum / times.len() as u64, greatest.unwrap_or(0))
}

/// Measures how long the purges of a pool take.
fn purges() -> Outcome<()> {
    let pool = Pool::new(&Config::new(MANY, 64, 1 << 16))?;
    let (mut image, mut times, mut most) = ([0; 64], Vec::new(), 0);
    for page in 0..MANY {
        pool.tick(0, 1)?;
        if let Fixed::Load { ticket, .. } = pool.fix(0, page, &mut image)? {
            drop(pool.end_read(ticket, &image)?);
        }
        if page % 16 == 0 {
            let began = Instant::now();
            most = pool.purge(0)?.max(most);
            times.push(began.elapsed());
        }
    }
    let (mean, greatest) = mean_and_greatest(&times[times.len() / 2 + times.len() / 8..]);
    println!("A purge: mean {mean} ns, greatest {greatest} ns, at most {most} pages");
    Ok(())
}

/// Measures how long calls take, with this memory of pages that are away.
fn calls(name: &str, retained: u64) -> Outcome<()> {
    let config = PagerConfig::in_parts(MANY, 64, 1 << 16, 1).with_retained(retained);
    let pager = Pager::new(&config, Nothing)?;
    let mut times = Vec::with_capacity(MANY as usize);
    for page in 0..MANY {
        let began = Instant::now();
        drop(pager.read(page)?);
        times.push(began.elapsed());
    }
    let (mean, greatest) = mean_and_greatest(&times);
    let stats = pager.stats();
    let (greatest, remembered, memory) = (greatest / 1000, stats.remembered, stats.memory >> 20);
    println!("| {name} | {mean} | {greatest} | {remembered} | {memory} |");
    Ok(())
}

fn main() -> Outcome<()> {
    let words: Vec<String> = std::env::args().skip(1).collect();
    let words: Vec<&str> = words.iter().map(String::as_str).collect();
    if words == ["calls"] {
        println!("| Memory | Mean, ns | Greatest, us | Pages remembered | MB |");
        println!("{}|", "|---".repeat(5));
        calls("8 times the frames", 8 << 16)?;
        calls("without end", WITHOUT_END)?;
        return purges();
    }
    let length = |rest: &[&str]| -> Outcome<Duration> {
        let seconds = rest.first().map_or(Ok(3.0), |it| it.parse())?;
        Ok(Duration::try_from_secs_f64(seconds)?)
    };
    match words.as_slice() {
        ["ahead", rest @ ..] => ahead(&Source::Slow, length(rest)?),
        ["file", folder, rest @ ..] => {
            let path = Path::new(folder).join(format!("scan-{}.pages", std::process::id()));
            let length = length(rest)?;
            let file = file_at(&path).map(|file| Source::File(Arc::new(file)));
            let done = file.and_then(|file| ahead(&file, length));
            remove_file(path)?;
            done
        }
        rest => beside_look_ups(length(rest)?),
    }
}
