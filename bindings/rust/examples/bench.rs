//! Pages in memory that are fixed, used and given back, through a core of this crate: what
//! `peers/c/bench.c` does through C, with the same pages in the same order.
//!
//!     bench USE SIZE SECONDS
//!
//! 4,096 pages of SIZE bytes, or as many as $FRAMES says, each with its number in each word, are all
//! in frames, and are taken at random. USE is what is done with each: `nothing`; `look` at 16 bytes;
//! the sum of the `page`; an `update` of 8 bytes. With `tree` it is a look-up in a B+tree of three
//! levels, which has nearly as many pages. Pages are looked at in place. The settings are those of
//! `core::Config::new`, but for $K and $PERIOD, and the clock moves at each fix.
//!
//! Printed: operations a second of wall clock, and the sum of what was seen.
use hojzmated::core::{Config, Fixed, PageGuard, Pool};
use pages::{Numbers, asked_for, fill, sum_of, tree, two_words};
use std::error::Error;
use std::time::{Duration, Instant};

#[path = "bench/pages.rs"]
mod pages;

type Outcome<T> = Result<T, Box<dyn Error>>;

struct Bench {
    pool: Pool,
    /// For pages that go out, of which there are none.
    buffer: Vec<u8>,
}

impl Bench {
    /// A pool with all pages in it, each filled by the function.
    fn new(pages: u64, size: usize, fill: impl Fn(u64, &mut [u8])) -> Outcome<Bench> {
        let mut config = Config::new(pages, size, pages as usize);
        config.k = asked_for("K", config.k.into())?.try_into()?;
        config.correlated = asked_for("PERIOD", config.correlated)?;
        let pool = Pool::new(&config)?;
        let (mut image, mut buffer) = (vec![0; size], vec![0; size]);
        for page in 0..pages {
            image.fill(0);
            fill(page, &mut image);
            let Fixed::Load { ticket, .. } = pool.fix(0, page, &mut buffer)? else {
                return Err("a page is there already".into());
            };
            drop(pool.end_read(ticket, &image)?);
            pool.tick(0, 1)?;
        }
        Ok(Bench { pool, buffer })
    }

    #[inline]
    fn fix(&mut self, page: u64) -> Outcome<PageGuard<'_>> {
        self.pool.tick(0, 1)?;
        match self.pool.fix(0, page, &mut self.buffer)? {
            Fixed::Hit(page) => Ok(page),
            _ => Err("a page is away".into()),
        }
    }

    fn look(&mut self, page: u64) -> Outcome<u64> {
        Ok(two_words(&self.fix(page)?.bytes()?))
    }

    fn update(&mut self, number: u64) -> Outcome<u64> {
        let page = self.fix(number)?;
        page.put(64, &number.to_le_bytes(), 1)?;
        Ok(0)
    }

    fn look_up(&mut self, key: u64) -> Outcome<u64> {
        let mut found = 0;
        for level in 0..tree::LEVELS {
            found = tree::search(&self.fix(found)?.bytes()?, level, key);
        }
        if found != key + 7 {
            return Err("a key is lost".into());
        }
        Ok(found)
    }
}

/// Does something again and again, with numbers of which each is below the end.
fn measure(seconds: f64, end: u64, mut work: impl FnMut(u64) -> Outcome<u64>) -> Outcome<()> {
    let (mut numbers, mut done, mut sum) = (Numbers::of_thread(0), 0u64, 0u64);
    let (began, length) = (Instant::now(), Duration::try_from_secs_f64(seconds)?);
    while began.elapsed() < length {
        for _ in 0..256 {
            sum = sum.wrapping_add(work(numbers.next(end))?);
        }
        done += 256;
    }
    let rate = done as f64 / began.elapsed().as_secs_f64();
    println!("{rate:.0} a second, sum {sum:x}");
    Ok(())
}

fn main() -> Outcome<()> {
    let words: Vec<String> = std::env::args().skip(1).collect();
    let [what, size, seconds] = words.as_slice() else {
        return Err("bench USE SIZE SECONDS".into());
    };
    let (size, seconds) = (size.parse()?, seconds.parse()?);
    let frames = asked_for("FRAMES", 4096)?;
    if what == "tree" {
        let tree = tree::Tree::new(size, frames);
        let mut bench = Bench::new(tree.pages(), size, |page, image| tree.node(page, image))?;
        return measure(seconds, tree.keys(), |key| bench.look_up(2 * key));
    }
    let mut bench = Bench::new(frames, size, fill)?;
    match what.as_str() {
        "nothing" => measure(seconds, frames, |page| bench.fix(page).map(|_| 0)),
        "look" => measure(seconds, frames, |page| bench.look(page)),
        "page" => measure(seconds, frames, |page| {
            Ok(sum_of(&bench.fix(page)?.bytes()?))
        }),
        "update" => measure(seconds, frames, |page| bench.update(page)),
        _ => Err("USE is nothing, look, page, update or tree".into()),
    }
}
