//! Cuts the power of a store, and fails its requests, and looks whether redo mends it.
//!
//!     cuts some SEED RUNS CUTS    so many cuts of each run, and a third as many requests that fail
//!     cuts all SEED RUNS          of each run each request is cut, and each of its kind fails
//!     cuts threads SEED RUNS      the power is cut while four threads work
//!     cuts one SEED KIND NUMBER   one of them again: KIND is cut, kill, read, write or sync
#[path = "../bank/bank.rs"]
mod bank;
mod disk;
mod loads;
mod run;
mod spread;
mod threads;

use bank::Random;
use hojzmated_disk::Fault;
use std::panic::{UnwindSafe, catch_unwind};
use std::process::{self, ExitCode};
use std::sync::mpsc::{RecvTimeoutError, Sender, channel};
use std::thread;
use std::time::Duration;

/// A run takes a part of a second.
const LONGEST: Duration = Duration::from_secs(60);

#[derive(Default)]
struct Tally {
    passed: u64,
    failed: u64,
}

impl Tally {
    /// Whether so many failed that the rest would tell nothing new.
    fn is_enough(&self) -> bool {
        self.failed >= 20
    }

    fn try_one(&mut self, seed: u64, fault: Option<Fault>) -> run::Asked {
        // Each fourth run loads and clears.
        let run = if seed % 4 == 3 { loads::run } else { run::run };
        self.tried(&format!("seed {seed}, {fault:?}"), || run(seed, fault))
    }

    fn tried<T: Default>(
        &mut self,
        name: &str,
        work: impl FnOnce() -> Result<T, String> + UnwindSafe,
    ) -> T {
        if self.is_enough() {
            return T::default();
        }
        let _ends = in_time(name.into());
        let why = match catch_unwind(work) {
            Ok(Ok(given)) => {
                self.passed += 1;
                return given;
            }
            Ok(Err(why)) => why,
            Err(_) => "it panicked".into(),
        };
        self.failed += 1;
        println!("{name}: {why}");
        T::default()
    }

    /// Half of the cuts are within starts.
    fn some(&mut self, seed: u64, cuts: u64) {
        let asked = self.try_one(seed, None);
        let of_starts: Vec<u64> = asked.starts.into_iter().flatten().collect();
        if of_starts.is_empty() {
            return;
        }
        let (mut random, counts) = (Random(seed), asked.counts);
        for cut in 0..cuts {
            let number = match cut % 2 {
                0 => 1 + random.below(counts.all),
                _ => of_starts[random.below(of_starts.len() as u64) as usize],
            };
            let kind = if cut % 3 == 0 {
                Fault::Kill
            } else {
                Fault::Cut
            };
            self.try_one(seed, Some(kind(number)));
        }
        for failing in 0..cuts / 3 {
            let fault = match failing % 3 {
                0 => Fault::Sync(1 + random.below(counts.syncs)),
                1 => Fault::Write(1 + random.below(counts.writes)),
                _ => Fault::Read(1 + random.below(counts.reads)),
            };
            self.try_one(seed, Some(fault));
        }
    }

    fn all(&mut self, seed: u64) {
        let counts = self.try_one(seed, None).counts;
        let cuts = (1..=counts.all).map(Fault::Cut);
        let kills = (1..=counts.all).map(Fault::Kill);
        let reads = (1..=counts.reads).map(Fault::Read);
        let writes = (1..=counts.writes).map(Fault::Write);
        let syncs = (1..=counts.syncs).map(Fault::Sync);
        for fault in cuts.chain(kills).chain(reads).chain(writes).chain(syncs) {
            self.try_one(seed, Some(fault));
        }
    }
}

/// Ends the process where what this gives is not dropped in time, as a thread may wait for ever.
fn in_time(name: String) -> Sender<()> {
    let (ends, has_ended) = channel();
    thread::spawn(move || {
        if has_ended.recv_timeout(LONGEST) == Err(RecvTimeoutError::Timeout) {
            println!("{name}: it does not end");
            println!("0 passed, 1 failed");
            process::exit(1);
        }
    });
    ends
}

fn fault_of(kind: &str, number: u64) -> Option<Fault> {
    match kind {
        "cut" => Some(Fault::Cut(number)),
        "kill" => Some(Fault::Kill(number)),
        "read" => Some(Fault::Read(number)),
        "write" => Some(Fault::Write(number)),
        "sync" => Some(Fault::Sync(number)),
        _ => None,
    }
}

fn main() -> ExitCode {
    let words: Vec<String> = std::env::args().skip(1).collect();
    let words: Vec<&str> = words.iter().map(String::as_str).collect();
    let numbers: Vec<u64> = words.iter().filter_map(|word| word.parse().ok()).collect();
    let mut tally = Tally::default();
    match (&words[..], &numbers[..]) {
        (["some", ..], [seed, runs, cuts]) => {
            for seed in *seed..seed + runs {
                tally.some(seed, *cuts);
            }
        }
        (["all", ..], [seed, runs]) => (*seed..seed + runs).for_each(|seed| tally.all(seed)),
        (["threads", ..], [seed, runs]) => {
            for seed in *seed..seed + runs {
                let name = format!("seed {seed}, four threads");
                tally.tried(&name, || threads::run(seed));
            }
        }
        (["one", _, kind, _], [seed, number]) => {
            tally.try_one(*seed, fault_of(kind, *number));
        }
        _ => {
            eprintln!("usage: cuts some SEED RUNS CUTS | all SEED RUNS | threads SEED RUNS");
            eprintln!(
                "       cuts one SEED KIND NUMBER, where KIND is cut, kill, read, write or sync"
            );
            return ExitCode::from(2);
        }
    }
    println!("{} passed, {} failed", tally.passed, tally.failed);
    ExitCode::from(u8::from(tally.failed > 0))
}
