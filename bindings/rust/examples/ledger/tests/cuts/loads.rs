//! Runs in which a store is loaded and cleared, over and over: pages without records, and pages that are
//! dropped and used again.
use crate::bank::Random;
use crate::disk::device;
use crate::run::{Asked, Outcome};
use hojzmated::PagerConfig;
use hojzmated_disk::{Disk, Fault};
use ledger::{Result, Store};
use std::collections::BTreeMap;
use std::ops::Range;

type Map = BTreeMap<u64, Vec<u8>>;

const LIVES: u64 = 3;
const STEPS: u64 = 14;
const SIZES: [u64; 3] = [400, 1024, 100_000];

struct Run {
    disk: Disk,
    random: Random,
    /// What the store has had, of which it has one.
    states: Vec<Map>,
    /// It has this one, or a later one.
    kept: usize,
    starts: Vec<Range<u64>>,
}

/// Runs a store for some lives, with a fault in one of them, and looks at it after each.
pub fn run(seed: u64, fault: Option<Fault>) -> Outcome<Asked> {
    let disk = Disk::new(seed ^ 0x10ad);
    let (pages, log) = (device(&disk, "pages"), device(&disk, "log"));
    Store::create(&*pages, &*log, SIZES).map_err(|why| why.to_string())?;
    disk.set_fault(fault);
    let mut run = Run {
        disk,
        random: Random(seed),
        states: vec![Map::new()],
        kept: 0,
        starts: Vec::new(),
    };
    for _ in 0..LIVES {
        run.life(STEPS)?;
        match run.random.below(3) {
            _ if run.disk.is_off() => run.disk.come_back(),
            0 => run.disk.restart(),
            _ => run.disk.lose_power(),
        }
    }
    let counts = run.disk.counts();
    if fault.is_some() && run.disk.failures() == 0 {
        return Err("the fault did not come".into());
    }
    run.disk.set_fault(None);
    run.life(3)?;
    run.disk.lose_power();
    run.life(0)?;
    let starts = run.starts;
    Ok(Asked { counts, starts })
}

impl Run {
    fn life(&mut self, steps: u64) -> Outcome {
        let Some(store) = self.opened()? else {
            return Ok(());
        };
        for _ in 0..steps {
            let (failures, states) = (self.disk.failures(), self.states.len());
            let step = self.step(&store);
            match step {
                Ok(()) => {}
                Err(_) if self.disk.is_off() || !store.is_running() => break,
                // Nothing was changed.
                Err(_) if self.disk.failures() > failures => self.states.truncate(states),
                Err(error) => return Err(format!("refused: {error}")),
            }
        }
        Ok(())
    }

    fn opened(&mut self) -> Outcome<Option<Store>> {
        for _ in 0..3 {
            let (failures, from) = (self.disk.failures(), self.disk.counts().all + 1);
            let (pages, log) = (device(&self.disk, "pages"), device(&self.disk, "log"));
            let opened = Store::open(pages, log, |pages, size| {
                PagerConfig::new(pages, size, 32).with_parts(1)
            });
            self.starts.push(from..self.disk.counts().all + 1);
            let compared = opened.and_then(|(store, _)| Ok((self.compare(&store)?, store)));
            match compared {
                Ok((None, store)) => return Ok(Some(store)),
                Ok((Some(wrong), _)) => return Err(wrong),
                Err(why) if self.disk.failures() == failures => {
                    return Err(format!("at a start: {why}"));
                }
                Err(_) if self.disk.is_off() => self.disk.come_back(),
                Err(_) => {}
            }
        }
        Err("no start is good".into())
    }

    /// What is wrong with what the store has.
    fn compare(&mut self, store: &Store) -> Result<Option<String>> {
        store.verify()?;
        let found: Map = store.scan(0, usize::MAX)?.into_iter().collect();
        let states = self.states[self.kept..].iter();
        match states.rev().position(|it| *it == found) {
            Some(back) => {
                let at = self.states.len() - 1 - back;
                self.states.truncate(at + 1);
                self.kept = at;
                Ok(None)
            }
            None => {
                let (keys, kept, made) = (found.len(), self.kept, self.states.len());
                Ok(Some(format!(
                    "{keys} keys are none of the states from {kept} to {made}"
                )))
            }
        }
    }

    /// A step whose outcome is the last state, also where it fails and nobody knows.
    fn step(&mut self, store: &Store) -> Result<()> {
        let mut next = self.states.last().cloned().unwrap_or_default();
        match self.random.below(5) {
            0 => return store.checkpoint(),
            1 | 2 if next.is_empty() => {
                let (count, salt) = (self.random.below(500), self.random.below(1 << 30));
                let value = |key: u64| vec![(key ^ salt) as u8; ((key * salt) % 257) as usize];
                next.extend((0..count).map(|at| at * 3).map(|key| (key, value(key))));
                self.states.push(next.clone());
                store.load(next.iter().map(|(key, value)| (*key, value)))?;
            }
            1 | 2 => {
                self.states.push(Map::new());
                store.clear()?;
            }
            _ => {
                let mut transaction = store.begin();
                for _ in 0..1 + self.random.below(12) {
                    let (key, size) = (self.random.below(1_500), self.random.below(257));
                    let value = vec![(key ^ size) as u8; size as usize];
                    if self.random.below(4) == 0 {
                        transaction.delete(key);
                        next.remove(&key);
                    } else {
                        transaction.put(key, &value)?;
                        next.insert(key, value);
                    }
                }
                self.states.push(next);
                let lsn = transaction.commit()?;
                if self.random.below(3) > 0 {
                    return Ok(());
                }
                store.make_durable(lsn)?;
            }
        }
        self.kept = self.states.len() - 1;
        Ok(())
    }
}
