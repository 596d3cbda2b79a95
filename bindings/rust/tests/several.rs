//! Threads that wait for the latches of two or three pages, beside flushes, checkpoints and a cleaner,
//! over a device with faults, for as long as is wanted. No call stands still, and each look finds what
//! was written last.
//!
//! `HOJZMATED_SOAK_SECONDS` says for how long, which is 2 seconds else.
#[path = "pager/engine.rs"]
mod engine;
#[path = "pager/faulty.rs"]
mod faulty;

use engine::{Engine, Settings, Told};
use faulty::Numbers;
use std::sync::atomic::{AtomicBool, Ordering};
use std::time::{Duration, Instant};
use std::{env, thread};

/// So long it goes on at most until a checkpoint went well, and a read or write-out did not.
const LONGEST: Duration = Duration::from_secs(60);

fn seconds() -> f64 {
    let told = env::var("HOJZMATED_SOAK_SECONDS").ok();
    told.map_or(2.0, |it| it.parse().expect("seconds"))
}

/// Has so many threads work for a while, and tells how many calls they made.
fn run(threads: u64, settings: &Settings, time: Duration) -> u64 {
    let _told = Told(settings.seed);
    let engine = Engine::new(settings);
    let cleaner = engine
        .pager
        .start_cleaner(4, Duration::from_millis(2))
        .unwrap();
    let (began, has_ended) = (Instant::now(), AtomicBool::new(false));
    let calls = thread::scope(|scope| {
        let work = |thread| {
            let mut calls = 0;
            engine.work(&mut Numbers(settings.seed * 1_000 + thread), || {
                calls += 1;
                !has_ended.load(Ordering::Relaxed)
            });
            calls
        };
        let workers: Vec<_> = (0..threads)
            .map(|thread| scope.spawn(move || work(thread)))
            .collect();
        let is_over = |at: Duration| {
            let totals = engine.pager.stats().totals;
            let counts = [
                engine.kept.load(Ordering::Relaxed),
                totals.evictions,
                totals.failed,
            ];
            at > time && (!counts.contains(&0) || at > LONGEST)
        };
        while !is_over(began.elapsed()) && workers.iter().all(|it| !it.is_finished()) {
            thread::sleep(Duration::from_millis(10));
        }
        has_ended.store(true, Ordering::Relaxed);
        workers.into_iter().map(|it| it.join().unwrap()).sum()
    });
    drop(cleaner);
    assert!(engine.kept.load(Ordering::Relaxed) > 0);
    engine.end();
    calls
}

// Few frames and many, one part and four, a device that often fails and one that seldom does.
#[test]
fn several_pages_at_a_time() {
    let time = Duration::from_secs_f64(seconds() / 4.0);
    let first = 1 + u64::from(std::process::id());
    let runs = [
        (12, 20, 1, 40, 300),
        (32, 24, 1, 64, 100),
        (24, 64, 4, 200, 200),
        (6, 9, 1, 24, 50),
    ];
    for (seed, (threads, frames, parts, pages, faults_in)) in (first..).zip(runs) {
        let settings = Settings {
            pages,
            frames,
            parts,
            seed,
            faults_in,
            several_in: 2,
        };
        let calls = run(threads, &settings, time);
        println!("seed {seed}: {calls} calls");
    }
}
