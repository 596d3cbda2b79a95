//! Eight threads beside an array of what was written last, over a device with faults.
use crate::device::{Device, Watch, config};
use crate::engine::{Engine, Settings, Told};
use crate::faulty::{Numbers, pause};
use hojzmated::Pager;
use std::sync::atomic::Ordering;
use std::thread;
use std::time::Duration;

const THREADS: u64 = 8;
const CALLS: u64 = 1_500;

/// Tells how many checkpoints went well.
fn run(settings: &Settings) -> u64 {
    let _watch = Watch::over("stress", 300);
    let _told = Told(settings.seed);
    let engine = Engine::new(settings);
    let cleaner = engine
        .pager
        .start_cleaner(2, Duration::from_millis(1))
        .unwrap();
    thread::scope(|threads| {
        for thread in 0..THREADS {
            let (engine, mut calls) = (&engine, CALLS);
            let mut numbers = Numbers(settings.seed * 1_000 + thread);
            threads.spawn(move || {
                engine.work(&mut numbers, || {
                    calls -= 1;
                    calls > 0
                })
            });
        }
    });
    drop(cleaner);
    assert!(engine.faults.load(Ordering::Relaxed) > 0);
    let kept = engine.kept.load(Ordering::Relaxed);
    engine.end();
    kept
}

#[test]
fn one_part() {
    for seed in [3, 4, 5] {
        let kept = run(&Settings {
            pages: 64,
            frames: 6,
            parts: 1,
            seed,
            faults_in: 60,
            several_in: 0,
        });
        assert!(kept > 0);
    }
}

#[test]
fn four_parts() {
    for seed in [6, 7, 8] {
        let kept = run(&Settings {
            pages: 64,
            frames: 10,
            parts: 4,
            seed,
            faults_in: 60,
            several_in: 0,
        });
        assert!(kept > 0);
    }
}

// Three of six requests do not go well. The page that could not make way may be another thread's by
// then, and no page is left on which the device works for ever.
#[test]
fn device_that_often_fails() {
    for seed in 9..19 {
        run(&Settings {
            pages: 16,
            frames: 3,
            parts: 1,
            seed,
            faults_in: 6,
            several_in: 0,
        });
    }
}

// Eight threads pin a page at a time, or none, in two frames. All get through.
#[test]
fn pins_in_two_frames() {
    let _watch = Watch::over("pins_in_two_frames", 600);
    let pin_wait = Duration::from_secs(60);
    let config = config(2).with_pin_wait(pin_wait);
    let pager = Pager::new(&config, Device::default()).unwrap();
    thread::scope(|threads| {
        for thread in 0..THREADS {
            let pager = &pager;
            let mut numbers = Numbers(thread);
            threads.spawn(move || {
                for _ in 0..500 {
                    let pin = pager.pin(numbers.below(16)).unwrap();
                    pause(numbers.below(16));
                    drop(pin);
                    pause(numbers.below(16));
                }
            });
        }
    });
    let stats = pager.stats();
    assert_eq!((stats.pinned, stats.resident), (0, 2));
    assert!(stats.totals.hits + stats.totals.faults >= THREADS * 500);
    assert!(stats.waits > 0);
}
