//! What a change of a page costs, beside a copy of as many bytes in plain memory.
//!
//!     puts [ROUNDS]
//!
//! Pages of 4,096 bytes are taken at random, of 64 and of 4,096, which are all in frames. Each is latched,
//! changed and let go; the time of a latch alone is taken off. A copy is made to the same place of a
//! page in a plain list of pages. Printed are nanoseconds, the least of the rounds, which other work on
//! the machine changes least, and in brackets how many copies that is.
use hojzmated::{PageMut, Pager, PagerConfig};
use pages::Numbers;
use std::error::Error;
use std::hint::black_box;
use std::time::Instant;
use zeros::Zeros;

#[path = "bench/pages.rs"]
#[allow(dead_code)]
mod pages;

#[path = "bench/zeros.rs"]
mod zeros;

type Outcome<T> = Result<T, Box<dyn Error>>;

const SIZE: usize = 4096;
const TIMES: u64 = 2_000;

/// Where a page of a turn is, and where the bytes in it are.
fn turns(pages: u64) -> impl Iterator<Item = (u64, usize)> {
    let mut numbers = Numbers::of_thread(7);
    (0..TIMES).map(move |_| (numbers.next(pages), numbers.next(3_000) as usize))
}

/// The nanoseconds of a turn: the least of the rounds.
fn timed(rounds: usize, mut work: impl FnMut() -> Outcome<()>) -> Outcome<f64> {
    let mut least = f64::INFINITY;
    for _ in 0..rounds {
        let began = Instant::now();
        work()?;
        least = least.min(began.elapsed().as_nanos() as f64 / TIMES as f64);
    }
    Ok(least)
}

/// Measures copies of so many bytes in plain memory.
fn copies(rounds: usize, pages: u64, len: usize) -> Outcome<f64> {
    let mut plain = vec![[0u8; SIZE]; pages as usize];
    let bytes = [7u8; SIZE];
    let none = timed(rounds, || {
        turns(pages).for_each(|turn| {
            black_box(turn);
        });
        Ok(())
    })?;
    let all = timed(rounds, || {
        for (page, at) in turns(pages) {
            let at = at.min(SIZE - len);
            plain[page as usize][at..at + len].copy_from_slice(black_box(&bytes[..len]));
        }
        Ok(())
    })?;
    black_box(&plain);
    Ok(all - none)
}

/// Measures a change of a page that is latched for it.
fn changes(
    rounds: usize,
    pages: u64,
    change: impl Fn(&mut PageMut<'_>, usize) -> hojzmated::Result<()>,
) -> Outcome<f64> {
    let config = PagerConfig::new(pages, SIZE, pages as usize);
    let pager = Pager::new(&config, Zeros)?;
    let none = timed(rounds, || {
        for (page, at) in turns(pages) {
            black_box((&mut pager.write(page)?, at));
        }
        Ok(())
    })?;
    let all = timed(rounds, || {
        for (page, at) in turns(pages) {
            change(&mut pager.write(page)?, at)?;
        }
        Ok(())
    })?;
    Ok(all - none)
}

fn main() -> Outcome<()> {
    let rounds = std::env::args().nth(1).map_or(Ok(300), |it| it.parse())?;
    println!("| Pages | Bytes | Copy | put | edit | four put | put_each of four |");
    println!("|---|---|---|---|---|---|---|");
    let bytes = &[7u8; SIZE];
    for pages in [64, 4096] {
        for len in [8, 64, 256, SIZE] {
            let copy = copies(rounds, pages, len)?;
            let place = move |at: usize| at.min(SIZE - len);
            let put = changes(rounds, pages, |page, at| {
                page.put(place(at), black_box(&bytes[..len]), 1)
            })?;
            let edit = changes(rounds, pages, |page, at| {
                let at = place(at);
                page.edit(at..at + len, 1, |it| it.fill(black_box(9)))
            })?;
            let near = move |at: usize| [0, 1, 2, 3].map(|part| place(at + part * 300));
            let four = changes(rounds, pages, |page, at| {
                near(at)
                    .iter()
                    .try_for_each(|at| page.put(*at, black_box(&bytes[..len]), 1))
            })?;
            let each = changes(rounds, pages, |page, at| {
                page.put_each(&near(at).map(|at| (at, black_box(&bytes[..len]))), 1)
            })?;
            let shown = [put, edit, four, each].map(|it| format!("{it:.0} ({:.1})", it / copy));
            println!("| {pages} | {len} | {copy:.1} | {} |", shown.join(" | "));
        }
    }
    Ok(())
}
