//! Tries every interleaving of the protocols by which the threads of a pager take latches and frames, and
//! share syncs.
//! README.md says what is tried, and which lines of the pager each step stands for.
mod explore;
mod frames;
mod latch;
mod numbers;
mod runs;
mod syncs;
// What the pager runs. Some of its functions are of no use here.
#[path = "../../src/pager/waiters.rs"]
mod waiters;
#[allow(dead_code)]
#[path = "../../src/pager/word.rs"]
mod word;

use runs::{Run, Size};
use std::process::ExitCode;
use std::sync::Mutex;
use std::thread;

const USAGE: &str = "usage: hojzmated_interleavings [--full] [WORD]

Tries each run, or those whose names have WORD. --full has larger ones. With WORD it tells the steps to what was found.";

/// So many runs are made at a time.
const AT_A_TIME: usize = 2;

fn main() -> ExitCode {
    let mut words: Vec<String> = std::env::args().skip(1).collect();
    let is_full = words.first().is_some_and(|it| it == "--full");
    if is_full {
        words.remove(0);
    }
    if words.len() > 1 || words.iter().any(|it| it.starts_with('-')) {
        eprintln!("{USAGE}");
        return ExitCode::from(2);
    }
    let size = if is_full { Size::Full } else { Size::Gate };
    let mut runs = runs::all(size);
    if let Some(word) = words.first() {
        runs.retain(|it| it.name.contains(word));
    }
    let (passed, failed) = try_all(runs, !words.is_empty());
    println!("{passed} passed, {failed} failed");
    match passed > 0 && failed == 0 {
        true => ExitCode::SUCCESS,
        false => ExitCode::FAILURE,
    }
}

/// Makes all runs, and returns how many passed and failed.
fn try_all(runs: Vec<Run>, tells_all: bool) -> (usize, usize) {
    let (left, counts) = (Mutex::new(runs.into_iter()), Mutex::new((0, 0)));
    let next = || left.lock().expect("no run panics").next();
    let work = || {
        while let Some(run) = next() {
            let has_passed = run.tell(tells_all);
            let mut counts = counts.lock().expect("no run panics");
            counts.0 += usize::from(has_passed);
            counts.1 += usize::from(!has_passed);
        }
    };
    thread::scope(|scope| {
        for _ in 0..AT_A_TIME {
            scope.spawn(work);
        }
    });
    counts.into_inner().expect("no run panics")
}
