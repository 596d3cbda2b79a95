//! Threads that have leaves of their own, and come back to each late: so what a checkpoint forgot of a
//! page is not in a later record.
use crate::threads::{Acks, THREADS, Work};
use ledger::{Error, Result, Store};
use std::sync::atomic::{AtomicU64, Ordering};
use std::thread;
use std::time::Duration;

pub const WORK: Work = Work {
    load,
    work,
    check,
    rest: Duration::ZERO,
    frames: 24,
};

/// The keys of a thread: some three are in a leaf.
const KEYS: u64 = 90;
/// From one key to the next that is changed.
const STRIDE: u64 = 7;
const SIZE: usize = 256;

fn key_of(thread: usize, count: u64) -> u64 {
    thread as u64 * KEYS + count * STRIDE % KEYS
}

/// A value that is the last one of so many transactions of a thread.
fn value_of(count: u64) -> [u8; SIZE] {
    let mut value = [count as u8; SIZE];
    value[..8].copy_from_slice(&count.to_le_bytes());
    value
}

fn load(store: &Store) -> Result<()> {
    store.load((0..THREADS as u64 * KEYS).map(|key| (key, value_of(0))))
}

fn count_of(store: &Store, key: u64) -> Result<u64> {
    let value = store.get(key)?.unwrap_or_default();
    let count = value.first_chunk().map_or(0, |it| u64::from_le_bytes(*it));
    match value == value_of(count) {
        true => Ok(count),
        false => bad(format!("the value of key {key} is wrong")),
    }
}

fn bad<T>(why: String) -> Result<T> {
    Err(Error::BadStore(why))
}

/// How many transactions a thread has made.
fn made(store: &Store, thread: usize) -> Result<u64> {
    let mut counts = (0..KEYS).map(|at| count_of(store, thread as u64 * KEYS + at));
    counts.try_fold(0, |most, count| Ok(most.max(count?)))
}

/// Each transaction changes one key. Of the first thread nobody waits for them, and the last waits at
/// once. The others do so later, when a checkpoint may have begun.
fn work(store: &Store, number: usize, _seed: u64, ack: &AtomicU64) -> Result<()> {
    for count in made(store, number)? + 1.. {
        let mut it = store.begin();
        it.put(key_of(number, count), &value_of(count))?;
        let lsn = it.commit()?;
        if number > 0 {
            if number + 1 < THREADS {
                thread::sleep(Duration::from_micros(count * 37 % 400));
            }
            store.make_durable(lsn)?;
            ack.store(count, Ordering::Relaxed);
        }
    }
    Ok(())
}

/// Each key has the last value that the thread gave it until its newest transaction.
fn check(store: &Store, acks: &Acks) -> Result<()> {
    for (thread, ack) in acks.iter().enumerate() {
        let (made, known) = (made(store, thread)?, ack.load(Ordering::Relaxed));
        if made < known {
            return bad(format!(
                "thread {thread}: {made} kept of {known} acknowledged"
            ));
        }
        for count in made.saturating_sub(KEYS - 1).max(1)..=made {
            let key = key_of(thread, count);
            let found = count_of(store, key)?;
            if found != count {
                return bad(format!(
                    "key {key} has the value {found}, and not {count} of {made}"
                ));
            }
        }
    }
    Ok(())
}
