//! The power fails while four threads make transactions, and one makes checkpoints.
use crate::bank::{self, Client, Random};
use crate::disk::device;
use crate::spread;
use hojzmated::PagerConfig;
use hojzmated_disk::{Disk, Fault};
use ledger::{Error, Result, Store};
use std::sync::atomic::{AtomicBool, AtomicU64, Ordering};
use std::thread;
use std::time::Duration;

pub const THREADS: usize = 4;
const ACCOUNTS: u64 = 60;

/// What was acknowledged to each thread.
pub type Acks = [AtomicU64; THREADS];

/// What the threads do.
pub struct Work {
    pub load: fn(&Store) -> Result<()>,
    /// Makes transactions until something fails, as the thread of this number, from a seed.
    pub work: fn(&Store, usize, u64, &AtomicU64) -> Result<()>,
    /// Looks whether all is there that was acknowledged.
    pub check: fn(&Store, &Acks) -> Result<()>,
    /// The rest between two checkpoints.
    pub rest: Duration,
    /// With few of them, pages go out as others come.
    pub frames: usize,
}

const TRANSFERS: Work = Work {
    load: |store| bank::load(store, ACCOUNTS),
    work: transfer,
    check: |store, acks| {
        let acks = acks.iter().map(|it| it.load(Ordering::Relaxed));
        let known: Vec<u8> = acks.flat_map(u64::to_le_bytes).collect();
        bank::check(store, &known).map(drop)
    },
    rest: Duration::from_micros(500),
    frames: 64,
};

/// Cuts the power twice. What the threads did until then is another thing each time. In half of the runs
/// they move amounts between accounts; in the others each has leaves of its own.
pub fn run(seed: u64) -> Result<(), String> {
    let work = [&TRANSFERS, &spread::WORK][seed as usize % 2];
    cut(seed, work).map_err(|why| why.to_string())
}

fn cut(seed: u64, work: &Work) -> Result<()> {
    let (disk, mut random) = (Disk::new(seed), Random(seed));
    let (pages, log) = (device(&disk, "pages"), device(&disk, "log"));
    Store::create(&*pages, &*log, [500, 1024, 100_000])?;
    (work.load)(&opened(&disk, work)?)?;
    disk.slow_syncs(Duration::from_micros(150));
    let acks = Acks::default();
    for _ in 0..2 {
        let store = opened(&disk, work)?;
        disk.set_fault(Some(match random.below(2) {
            0 => Fault::Cut(1 + random.below(600)),
            _ => Fault::CutAtSync(1 + random.below(60)),
        }));
        side_by_side(&store, &disk, work, random.below(1 << 40), &acks)?;
        drop(store);
        if random.below(4) > 0 {
            disk.lose_power();
        } else {
            disk.restart();
        }
        disk.set_fault(None);
        let store = opened(&disk, work)?;
        store.verify()?;
        (work.check)(&store, &acks)?;
    }
    Ok(())
}

fn opened(disk: &Disk, work: &Work) -> Result<Store> {
    let opened = Store::open(device(disk, "pages"), device(disk, "log"), |pages, size| {
        PagerConfig::new(pages, size, work.frames)
    });
    opened.map(|it| it.0)
}

/// Has the threads work until the power fails.
fn side_by_side(store: &Store, disk: &Disk, work: &Work, seed: u64, acks: &Acks) -> Result<()> {
    let has_ended = &AtomicBool::new(false);
    // What fails once the power is off is no fault.
    let or_off = &|done: Result<()>| match done {
        Err(why) if !disk.is_off() => Err(why),
        _ => Ok(()),
    };
    thread::scope(|scope| {
        let worker = |(number, ack)| {
            let seed = seed + number as u64;
            scope.spawn(move || or_off((work.work)(store, number, seed, ack)))
        };
        let workers: Vec<_> = acks.iter().enumerate().map(worker).collect();
        let keeper = scope.spawn(move || {
            while !has_ended.load(Ordering::Relaxed) && store.is_running() {
                or_off(store.checkpoint())?;
                thread::sleep(work.rest);
            }
            Ok(())
        });
        let done: Vec<_> = workers.into_iter().map(|it| it.join()).collect();
        has_ended.store(true, Ordering::Relaxed);
        let mut done = done.into_iter().chain([keeper.join()]);
        done.try_for_each(|it| it.unwrap_or(Err(Error::NoRoom("a thread panicked"))))
    })
}

/// Moves amounts. Other transactions are rolled back, and are never seen by scans.
fn transfer(store: &Store, number: usize, seed: u64, ack: &AtomicU64) -> Result<()> {
    let mut client = Client {
        store,
        number: number as u64,
        accounts: ACCOUNTS,
        opens: 30,
        waits: number > 0,
        random: Random(seed),
    };
    loop {
        let count = client.step()?;
        if client.waits {
            ack.store(count, Ordering::Relaxed);
        }
        let (from, mut dropped) = (client.random.below(16 * ACCOUNTS), client.store.begin());
        dropped.put(from, b"never")?;
        let found = client.store.scan(from, 20)?;
        let is_good = found.is_sorted_by(|one, next| one.0 < next.0)
            && found
                .iter()
                .all(|(key, value)| *key >= from && value != b"never");
        if !is_good {
            return Err(Error::BadStore(format!("a scan from {from} is wrong")));
        }
    }
}
