//! Pages that many threads use at once, through a `Pager`: what `peers/c/bench.c` does over
//! Berkeley DB, with the same pages in the same order in each thread.
//!
//!     bench_pager USE SIZE SECONDS THREADS [PARTS]
//!
//! There are 4,096 frames for as many pages of SIZE bytes, each with its number in each word. They
//! are taken at random. USE is what is done with each: `nothing`, so it is pinned and let go; `look`
//! at 16 bytes; the sum of the `page`; an `update` of 8 bytes. With `tree` it is a look-up in a
//! B+tree of three levels, which has nearly as many pages: each is let go before the next is asked
//! for. With `evict` it is `look` over four times as many pages as frames, and with `write-out` an
//! `update` of these, so that a page that leaves is written out before. The pages are in the file
//! `bench.pages` of the folder, which is made anew. Before it counts each is used once, and then some
//! at random, eight for each frame.
//!
//! The settings are those of `PagerConfig::new`, but for PARTS, $K and $PERIOD. Printed: operations a
//! second of wall clock, over all threads, the hit rate, K and the correlated period.
use hojzmated::{LogFault, PageIo, Pager, PagerConfig, ReadFault, Totals};
use pages::{Numbers, asked_for, fill, sum_of, tree, two_words};
use std::error::Error;
use std::fs::File;
use std::io;
use std::os::unix::fs::FileExt;
use std::sync::Barrier;
use std::sync::atomic::{AtomicBool, Ordering};
use std::thread::{scope, sleep};
use std::time::{Duration, Instant};

#[path = "bench/pages.rs"]
mod pages;

type Outcome<T> = Result<T, Box<dyn Error + Send + Sync>>;

const FRAMES: usize = 4096;
/// As `peers/c/threads.h` has it.
const MOST_THREADS: u64 = 64;

/// A file of pages, and a log that is always durable.
struct Pages(File);

impl Pages {
    fn new(count: u64, size: usize, fill: impl Fn(u64, &mut [u8])) -> io::Result<Pages> {
        let mut options = File::options();
        let options = options.read(true).write(true).create(true).truncate(true);
        let pages = Pages(options.open("bench.pages")?);
        for page in 0..count {
            let mut image = vec![0; size];
            fill(page, &mut image);
            pages.0.write_all_at(&image, page * size as u64)?;
        }
        Ok(pages)
    }
}

impl PageIo for Pages {
    fn read_page(&self, page: u64, image: &mut [u8]) -> Result<(), ReadFault> {
        Ok(self.0.read_exact_at(image, page * image.len() as u64)?)
    }

    fn write_page(&self, page: u64, image: &mut [u8], _lsn: u64) -> io::Result<()> {
        self.0.write_all_at(image, page * image.len() as u64)
    }

    fn make_log_durable(&self, _lsn: u64) -> Result<(), LogFault> {
        Ok(())
    }

    fn sync(&self) -> io::Result<()> {
        self.0.sync_data()
    }
}

struct Bench {
    pager: Pager<Pages>,
    threads: u64,
    length: Duration,
}

impl Bench {
    fn look(&self, page: u64) -> Outcome<u64> {
        Ok(two_words(&self.pager.read(page)?))
    }

    fn update(&self, page: u64) -> Outcome<u64> {
        self.pager.write(page)?.put(64, &page.to_le_bytes(), 1)?;
        Ok(0)
    }

    fn look_up(&self, key: u64) -> Outcome<u64> {
        let mut found = 0;
        for level in 0..tree::LEVELS {
            found = tree::search(&self.pager.read(found)?, level, key);
        }
        if found != key + 7 {
            return Err("a key is lost".into());
        }
        Ok(found)
    }

    /// Uses each page once, and looks whether it finds there what belongs there.
    fn use_all(&self, is_tree: bool) -> Outcome<()> {
        let config = self.pager.config();
        for page in 0..config.pages {
            let sum = sum_of(&self.pager.read(page)?);
            if !is_tree && sum != page * (config.page_size as u64 / 8) {
                return Err("a wrong page".into());
            }
        }
        Ok(())
    }

    /// Has all threads do something again and again, with numbers of which each is below the end.
    /// Before, one does it until the pager is in its steady state.
    fn measure(&self, end: u64, work: impl Fn(u64) -> Outcome<u64> + Sync) -> Outcome<()> {
        let mut numbers = Numbers::of_thread(MOST_THREADS);
        for _ in 0..8 * FRAMES {
            work(numbers.next(end))?;
        }
        let (all_are_here, is_over) = (
            Barrier::new(self.threads as usize + 1),
            AtomicBool::new(false),
        );
        let before = self.pager.stats().totals;
        let client = |thread| -> Outcome<(u64, u64)> {
            let (mut numbers, mut done, mut sum) = (Numbers::of_thread(thread), 0, 0u64);
            all_are_here.wait();
            while !is_over.load(Ordering::Relaxed) {
                for _ in 0..64 {
                    sum = sum.wrapping_add(work(numbers.next(end))?);
                }
                done += 64;
            }
            Ok((done, sum))
        };
        let rate = scope(|scope| -> Outcome<f64> {
            let client = &client;
            let starts = (0..self.threads).map(|thread| scope.spawn(move || client(thread)));
            let threads: Vec<_> = starts.collect();
            all_are_here.wait();
            let began = Instant::now();
            sleep(self.length);
            is_over.store(true, Ordering::Relaxed);
            let mut done = 0;
            for thread in threads {
                done += thread.join().map_err(|_| "a thread panicked")??.0;
            }
            Ok(done as f64 / began.elapsed().as_secs_f64())
        })?;
        self.tell(rate, &before)
    }

    /// Prints what was measured since these counts. Where pages were updated, those that left were
    /// written out, or it fails.
    fn tell(&self, rate: f64, before: &Totals) -> Outcome<()> {
        let (stats, config) = (self.pager.stats(), self.pager.config());
        let hits = stats.totals.hits - before.hits;
        let faults = stats.totals.faults - before.faults;
        let writes = stats.totals.writes - before.writes;
        if stats.unsaved > 0 && writes * 10 < faults * 9 {
            return Err("pages left that were not written out".into());
        }
        let rate_of_hits = hits as f64 / (hits + faults) as f64;
        let (k, period) = (config.k, config.correlated);
        println!("{rate:.0} {rate_of_hits:.3} K {k} period {period}");
        Ok(())
    }
}

fn main() -> Outcome<()> {
    let words: Vec<String> = std::env::args().skip(1).collect();
    let (4 | 5, [what, size, seconds, threads, ..]) = (words.len(), words.as_slice()) else {
        return Err("bench_pager USE SIZE SECONDS THREADS [PARTS]".into());
    };
    let (size, is_tree) = (size.parse()?, what == "tree");
    let tree = tree::Tree::new(size, FRAMES as u64);
    let pages = match what.as_str() {
        "tree" => tree.pages(),
        "evict" | "write-out" => 4 * FRAMES as u64,
        _ => FRAMES as u64,
    };
    let mut config = PagerConfig::new(pages, size, FRAMES);
    config.k = asked_for("K", config.k.into())?.try_into()?;
    config.correlated = asked_for("PERIOD", config.correlated)?;
    if let Some(parts) = words.get(4) {
        config.parts = parts.parse()?;
    }
    let file = Pages::new(pages, size, |page, image| match is_tree {
        true => tree.node(page, image),
        false => fill(page, image),
    })?;
    let bench = Bench {
        pager: Pager::new(&config, file)?,
        threads: threads.parse()?,
        length: Duration::try_from_secs_f64(seconds.parse()?)?,
    };
    bench.use_all(is_tree)?;
    match what.as_str() {
        "nothing" => bench.measure(pages, |page| {
            drop(bench.pager.pin(page)?);
            Ok(0)
        }),
        "look" | "evict" => bench.measure(pages, |page| bench.look(page)),
        "page" => bench.measure(pages, |page| Ok(sum_of(&bench.pager.read(page)?))),
        "update" | "write-out" => bench.measure(pages, |page| bench.update(page)),
        "tree" => bench.measure(tree.keys(), |key| bench.look_up(2 * key)),
        _ => Err("USE is nothing, look, page, update, tree, evict or write-out".into()),
    }
}
