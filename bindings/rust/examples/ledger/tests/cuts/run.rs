//! One run: a few lives of a store on one disk, and what has to be there after each.
use crate::bank::Random;
use crate::disk::device;
use hojzmated::PagerConfig;
use hojzmated_disk::{Counts, Disk, Fault};
use ledger::{Error, Store};
use std::collections::BTreeMap;
use std::ops::Range;

type Map = BTreeMap<u64, Vec<u8>>;
type Changes = Vec<(u64, Option<Vec<u8>>)>;
pub type Outcome<T = ()> = Result<T, String>;

/// The key in which each transaction counts.
const STEPS: u64 = u64::MAX;
const KEYS: u64 = 400;
const LIVES: u64 = 3;

/// What the store has to have: the changes of each transaction, in order.
#[derive(Default)]
struct Model {
    steps: Vec<Changes>,
    /// What all of them make.
    now: Map,
    /// So many of them are kept for sure.
    kept: usize,
    /// One of which nobody knows whether it was made.
    begun: Option<Changes>,
}

fn make(map: &mut Map, changes: &Changes) {
    for (key, value) in changes {
        match value {
            Some(value) => map.insert(*key, value.clone()),
            None => map.remove(key),
        };
    }
}

impl Model {
    fn done(&mut self, changes: Changes) {
        make(&mut self.now, &changes);
        self.steps.push(changes);
    }

    /// After a start: the store has made the first so many transactions, and all of each.
    fn compare(&mut self, store: &Store) -> Outcome {
        let found = store.scan(0, usize::MAX).map_err(|why| why.to_string())?;
        if !found.is_sorted_by(|one, next| one.0 < next.0) {
            return Err("keys are out of order".into());
        }
        let found: Map = found.into_iter().collect();
        let count = found
            .get(&STEPS)
            .map_or(0, |it| u64::from_le_bytes(it[..8].try_into().unwrap()));
        let count = count as usize;
        self.steps.extend(self.begun.take());
        if count < self.kept || count > self.steps.len() {
            let (kept, made) = (self.kept, self.steps.len());
            return Err(format!(
                "{count} transactions are there: {kept} were kept, {made} made"
            ));
        }
        self.steps.truncate(count);
        let mut wanted = Map::new();
        self.steps.iter().for_each(|it| make(&mut wanted, it));
        for key in wanted.keys().chain(found.keys()) {
            if wanted.get(key) != found.get(key) {
                let (wanted, found) = (wanted.get(key).map(Vec::len), found.get(key).map(Vec::len));
                return Err(format!(
                    "key {key} of step {count}: {found:?}, and not {wanted:?}"
                ));
            }
        }
        (self.now, self.kept) = (wanted, count);
        store.verify().map_err(|why| why.to_string())?;
        Ok(())
    }
}

struct Run {
    disk: Disk,
    random: Random,
    frames: usize,
    model: Model,
    /// Of ten changes so many take a key out.
    deletes: u64,
    /// Each transaction is of one size, and seldom kept at once. So after a cut a record may stand
    /// where an older one stood, before another that is whole.
    is_even: bool,
    /// The requests of each start.
    starts: Vec<Range<u64>>,
}

/// What a run asked its disk for.
#[derive(Default)]
pub struct Asked {
    pub counts: Counts,
    pub starts: Vec<Range<u64>>,
}

/// Runs a store for some lives, with a fault in one of them, and looks at it after each.
pub fn run(seed: u64, fault: Option<Fault>) -> Outcome<Asked> {
    let mut random = Random(seed);
    let mut pick = |from: &[u64]| from[random.below(from.len() as u64) as usize];
    let (page_size, pages) = (pick(&[1024, 1024, 2048, 4096]), pick(&[60, 600, 600]));
    let (log_size, frames, is_even) = (
        pick(&[80_000, 140_000]),
        pick(&[32, 48, 64]),
        pick(&[1, 0, 0, 0]),
    );
    let disk = Disk::new(seed ^ 0x5eed);
    let sizes = [pages, page_size, log_size];
    Store::create(&*device(&disk, "pages"), &*device(&disk, "log"), sizes)
        .map_err(|why| why.to_string())?;
    disk.set_fault(fault);
    let mut run = Run {
        disk,
        random,
        frames: frames as usize,
        model: Model::default(),
        deletes: 1,
        is_even: is_even == 1,
        starts: Vec::new(),
    };
    for life in 0..LIVES {
        run.deletes = if life == 1 { 7 } else { 2 };
        run.life(60)?;
        match run.random.below(3) {
            _ if run.disk.is_off() => run.disk.come_back(),
            0 => run.disk.restart(),
            _ => run.disk.lose_power(),
        }
    }
    let (counts, starts) = (run.disk.counts(), std::mem::take(&mut run.starts));
    if fault.is_some() && run.disk.failures() == 0 {
        return Err("the fault did not come".into());
    }
    run.disk.set_fault(None);
    run.life(5)?;
    run.disk.lose_power();
    run.life(0)?;
    Ok(Asked { counts, starts })
}

impl Run {
    /// Opens the store, compares, and works for so many steps or until the power fails.
    fn life(&mut self, steps: u64) -> Outcome {
        let Some(store) = self.opened()? else {
            return Ok(());
        };
        for _ in 0..steps {
            let failures = self.disk.failures();
            let step = self.step(&store);
            let is_excused = self.disk.failures() > failures;
            match step {
                Ok(()) => {}
                Err(Failure::Wrong(why)) => return Err(why),
                Err(Failure::Refused(_)) if self.disk.is_off() || !store.is_running() => break,
                // A request failed, and the store goes on: nothing was changed.
                Err(Failure::Refused(Error::Pager(_) | Error::Device(_))) if is_excused => {}
                Err(Failure::Refused(error)) => return Err(format!("refused: {error}")),
            }
        }
        Ok(())
    }

    /// The store after a start, which has what it must. None where the start was made to fail.
    fn opened(&mut self) -> Outcome<Option<Store>> {
        for _ in 0..3 {
            let (failures, from) = (self.disk.failures(), self.disk.counts().all + 1);
            let frames = self.frames;
            let config = |pages, page_size| {
                PagerConfig::new(pages, page_size, frames).with_parts(if frames < 64 {
                    1
                } else {
                    2
                })
            };
            let opened = Store::open(
                device(&self.disk, "pages"),
                device(&self.disk, "log"),
                config,
            );
            self.starts.push(from..self.disk.counts().all + 1);
            let done: Outcome = match opened {
                Ok((store, _)) => match self.model.compare(&store) {
                    Ok(()) => return Ok(Some(store)),
                    Err(why) => Err(why),
                },
                Err(error) => Err(error.to_string()),
            };
            let is_excused = self.disk.failures() > failures;
            match done {
                Err(why) if !is_excused => return Err(format!("at a start: {why}")),
                _ if self.disk.is_off() => self.disk.come_back(),
                _ => {}
            }
        }
        Err("no start is good".into())
    }

    fn step(&mut self, store: &Store) -> Result<(), Failure> {
        match self.random.below(20) {
            0 => Ok(store.checkpoint()?),
            1 => self.look(store),
            2 => self.roll_back(store),
            3 => self.conflict(store),
            _ => self.transaction(store),
        }
    }

    fn key(&mut self) -> u64 {
        // In places, so that leaves fill and empty there.
        let place = self.random.below(8) * KEYS / 8;
        (place + self.random.below(KEYS / 8)) << self.random.below(2)
    }

    fn changes(&mut self) -> Changes {
        let count = (self.model.steps.len() as u64 + 1).to_le_bytes();
        let mut changes: Changes = vec![(STEPS, Some(count.to_vec()))];
        if self.is_even {
            let value = (0..8).map(|_| self.random.below(256) as u8).collect();
            changes.push((STEPS - 1, Some(value)));
            return changes;
        }
        let some = 1 + self.random.below(6);
        for _ in 0..some {
            let key = self.key();
            let is_delete = self.random.below(10) < self.deletes;
            let size = self.random.below(257);
            let value = (0..size).map(|at| (at ^ key ^ size) as u8).collect();
            changes.push((key, (!is_delete).then_some(value)));
        }
        changes
    }

    fn transaction(&mut self, store: &Store) -> Result<(), Failure> {
        let changes = self.changes();
        let mut transaction = store.begin();
        for (key, value) in &changes {
            if self.random.below(3) == 0 {
                let before = transaction.get(*key)?.map(<[u8]>::to_vec);
                let had = transaction.get(*key)?.map(<[u8]>::to_vec);
                same(before.as_ref(), had.as_ref())?;
            }
            match value {
                Some(value) => transaction.put(*key, value)?,
                None => transaction.delete(*key),
            }
        }
        match transaction.commit() {
            Ok(lsn) => self.committed(store, changes, lsn),
            Err(Error::NoRoom(_)) => Ok(()),
            Err(error) => {
                // Where the store goes on, nothing was made.
                self.model.begun = (!store.is_running()).then_some(changes);
                Err(error.into())
            }
        }
    }

    fn committed(&mut self, store: &Store, changes: Changes, lsn: u64) -> Result<(), Failure> {
        self.model.done(changes);
        if self.random.below(if self.is_even { 20 } else { 2 }) == 0 {
            store.make_durable(lsn)?;
            self.model.kept = self.model.steps.len();
        }
        Ok(())
    }

    fn look(&mut self, store: &Store) -> Result<(), Failure> {
        for _ in 0..8 {
            let key = self.key();
            same(store.get(key)?.as_ref(), self.model.now.get(&key))?;
        }
        let (from, most) = (self.key(), self.random.below(200) as usize);
        for (from, most) in [(0, usize::MAX), (from, most)] {
            let found = store.scan(from, most)?;
            let wanted = self.model.now.range(from..).take(most);
            if !found.iter().map(|(key, value)| (key, value)).eq(wanted) {
                return Err(Failure::Wrong("a scan gives something else".into()));
            }
        }
        Ok(())
    }

    fn roll_back(&mut self, store: &Store) -> Result<(), Failure> {
        let mut transaction = store.begin();
        for (key, _) in self.changes() {
            transaction.get(key)?;
            transaction.put(key, b"never")?;
        }
        Ok(())
    }

    /// Of two transactions that read one key and change it, the second is refused.
    fn conflict(&mut self, store: &Store) -> Result<(), Failure> {
        let mut late = store.begin();
        late.get(STEPS)?;
        late.put(STEPS, b"never")?;
        let before = self.model.steps.len();
        self.transaction(store)?;
        if self.model.steps.len() == before {
            return Ok(());
        }
        match late.commit() {
            Err(Error::Conflict) => Ok(()),
            Ok(_) => Err(Failure::Wrong("a late transaction was not refused".into())),
            Err(error) => Err(error.into()),
        }
    }
}

enum Failure {
    /// The store gives what it should not.
    Wrong(String),
    Refused(Error),
}

impl From<Error> for Failure {
    fn from(error: Error) -> Failure {
        Failure::Refused(error)
    }
}

fn same(found: Option<&Vec<u8>>, wanted: Option<&Vec<u8>>) -> Result<(), Failure> {
    match found == wanted {
        true => Ok(()),
        false => Err(Failure::Wrong("a look-up gives something else".into())),
    }
}
