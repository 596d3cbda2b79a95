//! What has to be there, and threads that work on a store and beside that on the model.
use crate::Random;
use crate::files::{BODY, Shape};
use crate::log::{Ranges, word};
use crate::store::{MOST, Store};
use hojzmated::PagerError;
use std::collections::BTreeMap;
use std::sync::atomic::{AtomicU64, Ordering};
use std::{fmt, io};

pub type Body = Vec<u8>;
/// Each table with the bodies of its pages.
pub type Tables = BTreeMap<u8, Vec<Body>>;

/// What a record means to a table.
#[derive(Clone)]
pub enum Step {
    Make(u8, Vec<Body>),
    Change(u8, usize, Ranges),
    Drop(u8),
}

impl Step {
    fn make(&self, tables: &mut Tables) {
        match self {
            Step::Make(table, bodies) => drop(tables.insert(*table, bodies.clone())),
            Step::Drop(table) => drop(tables.remove(table)),
            Step::Change(table, place, ranges) => {
                let body = &mut tables.get_mut(table).unwrap()[*place];
                ranges
                    .iter()
                    .for_each(|(at, bytes)| body[*at..at + bytes.len()].copy_from_slice(bytes));
            }
        }
    }
}

pub enum Failure {
    /// Something is other than it has to be.
    Wrong(String),
    /// A request failed.
    Ended(String),
}

pub type Outcome<T = ()> = Result<T, Failure>;

impl fmt::Display for Failure {
    fn fmt(&self, f: &mut fmt::Formatter<'_>) -> fmt::Result {
        match self {
            Failure::Wrong(why) => f.write_str(why),
            Failure::Ended(why) => write!(f, "no request was to fail: {why}"),
        }
    }
}

impl From<io::Error> for Failure {
    fn from(error: io::Error) -> Failure {
        Failure::Ended(error.to_string())
    }
}

impl From<PagerError> for Failure {
    fn from(error: PagerError) -> Failure {
        match error {
            PagerError::WrongPage { .. } => Failure::Wrong(error.to_string()),
            _ => Failure::Ended(error.to_string()),
        }
    }
}

impl From<hojzmated::Error> for Failure {
    fn from(error: hojzmated::Error) -> Failure {
        Failure::Ended(error.to_string())
    }
}

fn wrong<T>(why: String) -> Outcome<T> {
    Err(Failure::Wrong(why))
}

/// What is known of a store from one life to the next.
#[derive(Default)]
pub struct Model {
    pub tables: Tables,
    /// The steps since, by their records.
    pub steps: Vec<(u64, Step)>,
    /// The greatest LSN of a record that was kept for sure.
    pub kept: AtomicU64,
}

impl Model {
    /// After a start: the records before the log's end were made, and no others.
    pub fn compare(&mut self, store: &Store) -> Outcome {
        let kept = self.kept.get_mut();
        if store.began <= *kept {
            return wrong(format!(
                "the log ends at {}, and its record {kept} was kept",
                store.began
            ));
        }
        self.steps.sort_by_key(|it| it.0);
        let made = self.steps.iter().take_while(|it| it.0 < store.began);
        made.for_each(|(_, step)| step.make(&mut self.tables));
        self.steps.clear();
        *kept = store.began - 1;
        let mut found: Vec<u8> = store.owners()?.into_iter().map(|it| it.0).collect();
        found.sort_unstable();
        found.dedup();
        if !found.iter().eq(self.tables.keys()) {
            return wrong(format!(
                "tables {found:?}, and not {:?}",
                self.tables.keys()
            ));
        }
        let mut tables = self.tables.iter();
        tables.try_for_each(|(table, bodies)| compare(store, *table, bodies))
    }
}

/// Scans a table.
fn compare(store: &Store, table: u8, bodies: &[Body]) -> Outcome {
    let pages = store.pages_of(table)?;
    if pages.len() != bodies.len() {
        return wrong(format!(
            "table {table} has {} pages, and not {}",
            pages.len(),
            bodies.len()
        ));
    }
    store.pager.prefetch(pages.iter().copied());
    for (place, (page, body)) in pages.iter().zip(bodies).enumerate() {
        let (index, found) = (store.index(*page)?, store.pager.read(*page)?);
        if let Some(at) = (0..body.len()).find(|at| found[BODY + at] != body[*at]) {
            return wrong(format!(
                "page {page}, at {place} of table {table}, is wrong from byte {at} on"
            ));
        }
        if index != word(body, 0) {
            return wrong(format!("the index has {index} of page {page}"));
        }
    }
    Ok(())
}

/// A thread that has some tables to itself.
pub struct Worker<'a> {
    pub number: u64,
    pub store: &'a Store,
    pub shape: &'a Shape,
    pub tables: Tables,
    pub kept: &'a AtomicU64,
    pub random: Random,
    /// One step of so many is kept at once.
    pub seldom: u64,
}

impl Worker<'_> {
    pub fn step(&mut self) -> Outcome {
        let table = (1 + self.number + self.shape.threads * self.random.below(3)) as u8;
        let (bodies, odds) = (self.tables.get(&table), self.random.below(12));
        let lsn = match bodies {
            Some(bodies) if odds < 3 => {
                compare(self.store, table, bodies)?;
                None
            }
            Some(_) if odds < 5 => {
                let lsn = self.store.drop_table(table, Step::Drop(table))?;
                self.tables.remove(&table);
                Some(lsn)
            }
            Some(_) => Some(self.change(table)?),
            None => self.make(table, odds < 6)?,
        };
        if let Some(lsn) = lsn.filter(|_| self.random.below(self.seldom) == 0) {
            self.store.make_durable(lsn)?;
            self.kept.fetch_max(lsn, Ordering::Relaxed);
        }
        Ok(())
    }

    /// Some bytes, the first eight of which are those of no other body.
    fn bytes(&mut self, count: u64) -> Vec<u8> {
        (0..count).map(|_| self.random.below(256) as u8).collect()
    }

    /// Bytes at few places. The second half of the body has none of them.
    fn body(&mut self) -> Body {
        let count = 32 + self.random.below(100);
        let mut body = self.bytes(count);
        body.resize(self.shape.size - BODY, 0);
        body
    }

    fn make(&mut self, table: u8, is_loaded: bool) -> Outcome<Option<u64>> {
        let count = 1 + self.random.below(if is_loaded { MOST } else { 3 });
        let bodies: Vec<Body> = (0..count).map(|_| self.body()).collect();
        let step = Step::Make(table, bodies.clone());
        let made = match is_loaded {
            true => self.store.load(self.number, table, &bodies, step)?,
            false => self.store.make(table, &bodies, step)?,
        };
        if made.is_some() {
            self.tables.insert(table, bodies);
        }
        Ok(made)
    }

    fn change(&mut self, table: u8) -> Outcome<u64> {
        let place = self.random.below(self.tables[&table].len() as u64) as usize;
        let mut ranges = vec![(0, self.bytes(8))];
        for _ in 0..self.random.below(4) {
            let count = 1 + self.random.below(40);
            let at = 8 + self.random.below(self.shape.size as u64 - BODY as u64 - 48);
            ranges.push((at as usize, self.bytes(count)));
        }
        let step = Step::Change(table, place, ranges.clone());
        let lsn = self.store.change(table, place, &ranges, step.clone())?;
        step.make(&mut self.tables);
        Ok(lsn)
    }
}
