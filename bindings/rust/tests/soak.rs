//! Many threads for as long as is wanted, over a device with faults. Memory stays as it is.
//!
//! `HOJZMATED_SOAK_SECONDS` says for how long, which is 2 seconds else, and `HOJZMATED_SOAK_SEED` by which
//! numbers, which are others each time else. The memory of the program is told each minute, or each
//! quarter of a time below four minutes. From the first minute on it does not grow by more than a
//! twentieth. The program ends at the first thing that is wrong, whichever thread finds it.
#[path = "pager/engine.rs"]
mod engine;
#[path = "pager/faulty.rs"]
mod faulty;

use engine::{Engine, Settings, Told};
use faulty::Numbers;
use std::io::{self, Write};
use std::panic;
use std::str::FromStr;
use std::sync::atomic::{AtomicBool, Ordering};
use std::time::{Duration, Instant};
use std::{env, fs, process, thread};

const THREADS: u64 = 64;
const MINUTE: Duration = Duration::from_secs(60);
/// By so many bytes memory may grow after a quarter that is less than a minute.
const MOST_GROWTH: usize = 4 << 20;

/// Bytes of this program that are in memory. None where the system does not tell.
fn resident() -> Option<usize> {
    let told = fs::read_to_string("/proc/self/statm").ok()?;
    let pages: usize = told.split(' ').nth(1)?.parse().ok()?;
    Some(pages * 4096)
}

/// The same, which is told too.
fn tell_size(at: Duration) -> Option<usize> {
    let size = resident()?;
    println!("after {:.1} s: {size} bytes", at.as_secs_f64());
    Some(size)
}

/// What the environment says of this, if it does.
fn told<T: FromStr>(name: &str) -> Option<T> {
    let told = env::var(format!("HOJZMATED_SOAK_{name}")).ok()?;
    Some(told.parse().ok().expect("a number"))
}

/// Has the program end where any thread panics, also one of the pager, which would go on. A fault of the
/// device comes by no such way.
fn end_at_a_panic(seed: Told) {
    panic::set_hook(Box::new(move |panic| {
        // What a test prints by a macro is kept until it ends.
        let _ = writeln!(io::stderr(), "{panic}");
        seed.tell();
        process::exit(1);
    }));
}

/// Memory at the end of each minute or quarter, and how many calls were made.
fn soak(engine: &Engine, seed: u64, time: Duration) -> (Vec<Option<usize>>, u64) {
    let has_ended = AtomicBool::new(false);
    let each = MINUTE.min(time / 4);
    thread::scope(|threads| {
        let work = |thread| {
            let mut calls = 0;
            engine.work(&mut Numbers(seed * 1_000 + thread), || {
                calls += 1;
                !has_ended.load(Ordering::Relaxed)
            });
            calls
        };
        let workers: Vec<_> = (0..THREADS)
            .map(|thread| threads.spawn(move || work(thread)))
            .collect();
        let (began, mut sizes) = (Instant::now(), Vec::new());
        while began.elapsed() < time {
            thread::sleep(Duration::from_millis(10));
            let at = began.elapsed();
            if at >= each * (sizes.len() as u32 + 1) {
                sizes.push(tell_size(at));
            }
        }
        has_ended.store(true, Ordering::Relaxed);
        let calls = workers.into_iter().map(|it| it.join().unwrap()).sum();
        (sizes, calls)
    })
}

#[test]
fn soak_of_64_threads() {
    let time = Duration::from_secs_f64(told("SECONDS").unwrap_or(2.0));
    let seed = told("SEED").unwrap_or(1 + u64::from(process::id()));
    end_at_a_panic(Told(seed));
    let engine = Engine::new(&Settings {
        pages: 4_096,
        frames: 128,
        parts: 4,
        seed,
        faults_in: 300,
        several_in: 0,
    });
    let cleaner = engine
        .pager
        .start_cleaner(8, Duration::from_millis(1))
        .unwrap();
    let readers = engine.pager.start_readers(2).unwrap();
    let (sizes, calls) = soak(&engine, seed, time);
    drop((cleaner, readers));
    let (first, most) = (sizes[0], *sizes.iter().max().unwrap());
    let growth = first.zip(most).map(|(first, most)| most - first);
    let totals = engine.pager.stats().totals;
    let [faults, kept] =
        [&engine.pager.io().faults, &engine.kept].map(|it| it.load(Ordering::Relaxed));
    println!(
        "seed {seed}: {calls} calls, {} evictions, {} discards, {faults} faults of the device, \
         {kept} checkpoints, memory grew by {} bytes",
        totals.evictions,
        totals.discards,
        growth.unwrap_or(0)
    );
    assert!(faults > 0 && kept > 0 && totals.discards > 0);
    let is_long = time >= 4 * MINUTE;
    let may_grow = first.map(|it| if is_long { it / 20 } else { MOST_GROWTH });
    assert!(growth <= may_grow, "{first:?} grew to {most:?}");
    engine.end();
}
