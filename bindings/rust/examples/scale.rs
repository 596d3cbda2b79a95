//! What a pager of the greatest size takes in memory, and what a checkpoint costs there.
//!
//!     scale [PARTS [PAGE_SIZE]]
//!
//! There are 64 parts of pages of 64 bytes if nothing is said, each with 65,536 frames and 1,048,576
//! pages, which are the most. The device gives zeros, and takes all images at once. Four threads look at
//! each page once. Printed is the memory that the system tells, and what the pager tells of itself: when it
//! was made, when its frames were full, and when as many pages are remembered as may be. Then the newest
//! half of the frames is changed, and a checkpoint is timed; then a hundredth of these, and then nothing.
use hojzmated::{PagerConfig, PagerError};
use std::error::Error;
use std::time::Instant;
use std::{env, fs, io, thread};
use zeros::Zeros;

#[path = "bench/zeros.rs"]
mod zeros;

const THREADS: u64 = 4;

type Pager = hojzmated::Pager<Zeros>;
type Outcome = Result<(), Box<dyn Error + Send + Sync>>;

/// Bytes of this program that are in memory.
fn resident() -> io::Result<usize> {
    let told = fs::read_to_string("/proc/self/statm")?;
    let pages = told
        .split(' ')
        .nth(1)
        .and_then(|it| it.parse::<usize>().ok());
    Ok(pages.map_or(0, |it| it * 4096))
}

fn tell(pager: &Pager, what: &str) -> Outcome {
    let (stats, bytes) = (pager.stats(), resident()?);
    println!(
        "{what}: {bytes} bytes in memory, {} told, {} pages in frames, {} remembered",
        stats.memory, stats.resident, stats.remembered
    );
    Ok(())
}

/// Has four threads use all pages of a range, each those that are four apart.
fn use_all(
    first: u64,
    end: u64,
    use_page: impl Fn(u64) -> Result<(), PagerError> + Sync,
) -> Outcome {
    let use_page = &use_page;
    thread::scope(|threads| {
        let workers = (0..THREADS).map(|own| {
            threads.spawn(move || {
                let mut own_pages = (first + own..end).step_by(THREADS as usize);
                own_pages.try_for_each(use_page)
            })
        });
        let workers: Vec<_> = workers.collect();
        workers
            .into_iter()
            .try_for_each(|it| Ok(it.join().expect("a thread")?))
    })
}

/// Changes each page of a range that is so many apart, and makes a checkpoint.
fn keep(pager: &Pager, first: u64, end: u64, step: u64) -> Outcome {
    let (mut changed, mut lsn) = (0, 1);
    for page in (first..end).step_by(step as usize) {
        pager.write(page)?.put(0, &[1], lsn)?;
        (changed, lsn) = (changed + 1, lsn + 1);
    }
    let unsaved = pager.stats().unsaved;
    let began = Instant::now();
    pager.checkpoint()?;
    println!(
        "checkpoint of {unsaved} unsaved pages, {changed} changed: {:.3} s",
        began.elapsed().as_secs_f64()
    );
    Ok(())
}

fn main() -> Outcome {
    let mut numbers = env::args().skip(1).map(|it| it.parse::<usize>());
    let parts = numbers.next().transpose()?.unwrap_or(64);
    let page_size = numbers.next().transpose()?.unwrap_or(64);
    let (frames, pages) = (parts * 65_536, parts as u64 * 1_048_576);
    let config = PagerConfig::new(pages, page_size, frames).with_parts(parts);
    let began = resident()?;
    let pager = Pager::new(&config, Zeros)?;
    println!("before: {began} bytes in memory");
    tell(&pager, "made")?;
    let look = |page| pager.read(page).map(drop);
    use_all(0, frames as u64, look)?;
    tell(&pager, "frames full")?;
    use_all(frames as u64, pages, look)?;
    tell(&pager, "each page used once")?;
    // The newest pages are in frames.
    let first = pages - frames as u64 / 2;
    keep(&pager, first, pages, 1)?;
    keep(&pager, first, pages, 100)?;
    keep(&pager, 0, 0, 1)?;
    tell(&pager, "at the end")
}
