//! Cuts the power of an engine that has unlogged and temporary pages, drops tables, reads ahead and makes
//! checkpoints by age. After each cut a model says what has to be there.
//!
//!     lives cuts SEED RUNS                so many runs, of six lives each
//!     lives planted SEED RUNS [NAME..]    the engine does each thing wrong that wrong.rs has, or those of
//!                                         these names, and has to be found within so many runs
//!
//! A life ends as the power fails at one of its requests, or a read, a write or a sync does, or after some
//! steps. Then the power is cut, or in one of four the process alone has ended. Half of the runs have three
//! threads: what these do is another thing each time. Without words there are 20 runs.
mod files;
mod log;
mod model;
mod store;
mod wrong;

use files::Shape;
use hojzmated_disk::{Disk, Fault};
use model::{Failure, Model, Outcome, Tables, Worker};
use std::process::ExitCode;
use std::sync::atomic::{AtomicBool, Ordering};
use std::thread::{self, ScopedJoinHandle};
use std::time::Duration;
use store::{MOST, Store};
use wrong::Wrong;

/// Numbers at random.
pub struct Random(u64);

impl Random {
    /// The next number, which is below the bound.
    pub fn below(&mut self, bound: u64) -> u64 {
        self.0 = self.0.wrapping_add(0x9e37_79b9_7f4a_7c15);
        let factors = [0xbf58_476d_1ce4_e5b9, 0x94d0_49bb_1331_11eb];
        let mix = |word: u64, factor| (word ^ word >> 30).wrapping_mul(factor);
        let mixed = factors.into_iter().fold(self.0, mix);
        (mixed ^ mixed >> 31) % bound
    }
}

const LIVES: u64 = 6;
const STEPS: u64 = 150;

struct Run {
    disk: Disk,
    shape: Shape,
    model: Model,
    wrong: Option<Wrong>,
    random: Random,
    seldom: u64,
    /// How many lives have ended.
    lives: u64,
}

impl Run {
    fn new(seed: u64, wrong: Option<Wrong>) -> Run {
        let mut random = Random(seed);
        let mut pick = |from: &[u64]| from[random.below(from.len() as u64) as usize];
        let threads = pick(&[1, 3]);
        let first = pick(&[10, 40, 150]);
        let shape = Shape {
            pages: pick(&[70, 200]).max(first + 3 * MOST + 20),
            size: pick(&[1024, 2048]) as usize,
            frames: pick(&[16, 24, 32]) as usize * threads.min(2) as usize,
            parts: pick(&[1, 2]) as usize,
            correlated: pick(&[0, 2, 4]),
            temporary: first..first + 3 * MOST,
            threads,
            way: pick(&[0, 0, 1, 2]),
        };
        let (disk, seldom) = (Disk::new(seed ^ 0x5eed), pick(&[2, 10, 40]));
        Run {
            disk,
            shape,
            model: Model::default(),
            wrong,
            random,
            seldom,
            lives: 0,
        }
    }

    fn fault(&mut self) -> Fault {
        let most = [2_000, 600, 40][self.random.below(3) as usize];
        let number = 1 + self.random.below(most);
        match self.random.below(12) {
            0 => Fault::Read(number),
            1 => Fault::Write(number),
            2 | 3 => Fault::Sync(1 + number / 8),
            _ => Fault::Cut(number),
        }
    }

    /// Some lives, each of which ends by a fault or after some steps.
    fn run(&mut self) -> Outcome {
        Store::create(&self.disk, &self.shape)?;
        if self.shape.threads > 1 {
            self.disk.slow_syncs(Duration::from_micros(150));
        }
        for _ in 0..LIVES {
            let fault = self.fault();
            self.disk.set_fault(Some(fault));
            match self.live(STEPS) {
                Err(Failure::Ended(_)) if self.disk.failures() > 0 => {}
                other => other?,
            }
            self.lives += 1;
            match self.random.below(4) {
                0 => self.disk.restart(),
                _ => self.disk.lose_power(),
            }
        }
        self.disk.set_fault(None);
        self.live(5)?;
        self.disk.lose_power();
        self.live(0)
    }

    fn live(&mut self, steps: u64) -> Outcome {
        let store = Store::open(&self.disk, &self.shape, self.wrong)?;
        self.model.compare(&store)?;
        let worked = match self.shape.threads {
            1 => self.work_alone(&store, steps),
            _ => self.work(&store, steps),
        };
        self.model.steps = std::mem::take(&mut store.steps.lock().unwrap());
        worked
    }

    fn worker<'a>(&'a self, store: &'a Store, number: u64, seed: u64) -> Worker<'a> {
        let threads = self.shape.threads;
        let is_own = |it: &(&u8, &_)| u64::from(*it.0 - 1) % threads == number;
        let tables: Tables = self
            .model
            .tables
            .iter()
            .filter(is_own)
            .map(|(of, it)| (*of, it.clone()))
            .collect();
        Worker {
            number,
            store,
            shape: &self.shape,
            tables,
            kept: &self.model.kept,
            random: Random(seed + number),
            seldom: self.seldom,
        }
    }

    fn work_alone(&mut self, store: &Store, steps: u64) -> Outcome {
        let seed = self.random.below(1 << 40);
        let mut worker = self.worker(store, 0, seed);
        for _ in 0..steps {
            worker.step()?;
            if worker.random.below(12) == 0 {
                store.checkpoint()?;
            }
        }
        Ok(())
    }

    /// Three threads work, one makes checkpoints, and others read ahead and clean.
    fn work(&mut self, store: &Store, steps: u64) -> Outcome {
        let (seed, rest) = (self.random.below(1 << 40), 100 + self.random.below(2_000));
        let _readers = store.pager.start_readers(2)?;
        let _cleaner = match self.random.below(2) {
            0 => Some(store.pager.start_cleaner(4, Duration::from_micros(rest))?),
            _ => None,
        };
        let has_ended = &AtomicBool::new(false);
        let ends = |done: Outcome| {
            has_ended.fetch_or(done.is_err(), Ordering::Relaxed);
            done
        };
        thread::scope(|scope| {
            let work = |number| {
                let mut worker = self.worker(store, number, seed);
                move || {
                    (0..steps)
                        .take_while(|_| !has_ended.load(Ordering::Relaxed))
                        .try_for_each(|_| worker.step())
                }
            };
            let workers: Vec<_> = (0..self.shape.threads)
                .map(work)
                .map(|mut it| scope.spawn(move || ends(it())))
                .collect();
            let keeper = scope.spawn(move || {
                while !has_ended.load(Ordering::Relaxed) {
                    ends(store.checkpoint())?;
                    thread::sleep(Duration::from_micros(rest));
                }
                Ok(())
            });
            let mut done: Vec<Outcome> = workers.into_iter().map(|it| joined(it)).collect();
            has_ended.store(true, Ordering::Relaxed);
            done.push(joined(keeper));
            // What is wrong comes first: others ended since a request failed.
            done.sort_by_key(|it| !matches!(it, Err(Failure::Wrong(_))));
            done.into_iter().collect()
        })
    }
}

fn joined(thread: ScopedJoinHandle<'_, Outcome>) -> Outcome {
    let panicked = |_| Err(Failure::Wrong("a thread panicked".into()));
    thread.join().unwrap_or_else(panicked)
}

/// Makes a run, and tells how many lives were as they have to be, and why it is not as it has to be.
fn run(seed: u64, wrong: Option<Wrong>) -> (u64, Option<String>) {
    let mut run = Run::new(seed, wrong);
    let why = run
        .run()
        .err()
        .map(|why| format!("seed {seed}, {} threads: {why}", run.shape.threads));
    (run.lives, why)
}

/// Prints the runs that fail.
fn cuts(seed: u64, runs: u64) -> (u64, u64) {
    let (mut passed, mut failed) = (0, 0);
    for seed in seed..seed + runs {
        let (lives, why) = run(seed, None);
        passed += lives;
        failed += u64::from(why.is_some());
        why.into_iter().for_each(|why| println!("{why}"));
    }
    (passed, failed)
}

/// Has the engine do each thing wrong, or those that are named, until it is found.
fn planted(seed: u64, runs: u64, names: &[String]) -> (u64, u64) {
    let (mut found, mut missed) = (0, 0);
    let is_meant = |wrong: &&Wrong| names.is_empty() || names.contains(&format!("{wrong:?}"));
    for wrong in Wrong::ALL.iter().filter(is_meant) {
        let mut lives = 0;
        let finds = |seed| {
            let (these, why) = run(seed, Some(*wrong));
            lives += these;
            why
        };
        match (seed..seed + runs).find_map(finds) {
            Some(why) => {
                found += 1;
                println!("found: {wrong:?} after {lives} lives ({why})");
            }
            None => {
                missed += 1;
                println!("NOT FOUND: {wrong:?}: {lives} lives pass");
            }
        }
    }
    (found, missed)
}

fn main() -> ExitCode {
    let words: Vec<String> = std::env::args().skip(1).collect();
    let number = |at: usize| words.get(at).and_then(|word| word.parse().ok());
    let (passed, failed) = match (words.first().map(String::as_str), number(1), number(2)) {
        (Some("cuts"), Some(seed), Some(runs)) => cuts(seed, runs),
        (Some("planted"), Some(seed), Some(runs)) => planted(seed, runs, &words[3..]),
        _ => cuts(1, 20),
    };
    println!("{passed} passed, {failed} failed");
    ExitCode::from(u8::from(failed > 0))
}
