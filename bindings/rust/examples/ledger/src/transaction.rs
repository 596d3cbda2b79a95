//! `Transaction`: steps that are committed all or not at all.
use crate::mini::{Mini, Stop};
use crate::{Error, MOST_VALUE, Result, Store};
use std::cell::Cell;
use std::ops::Range;

/// What a transaction knows of a key: what it has read, and what it will write. Values stand among its
/// bytes; there is none where the key is not there.
pub struct Entry {
    pub key: u64,
    seen: Option<Option<Range<usize>>>,
    change: Option<Option<Range<usize>>>,
}

/// The memory of a transaction.
#[derive(Default)]
struct Memory {
    /// In the order of their keys.
    entries: Vec<Entry>,
    bytes: Vec<u8>,
}

thread_local! {
    /// The memory of this thread for its next transaction.
    static KEPT: Cell<Memory> = Cell::default();
}

/// Steps that are kept all or not at all.
///
/// What is put is seen by this transaction alone until [`commit`](Transaction::commit). Where it is
/// dropped before, nothing of it was ever in the log or in a page: that is rollback. A commit looks
/// whether all that was read is still so, while it has the latches of the leaves: transactions that
/// commit are as if they ran one by one.
pub struct Transaction<'a> {
    store: &'a Store,
    memory: Memory,
}

impl Store {
    /// Begins a transaction.
    pub fn begin(&self) -> Transaction<'_> {
        let memory = KEPT.take();
        Transaction {
            store: self,
            memory,
        }
    }

    /// Does the work in a transaction and commits it, again while others are first. Gives what the
    /// work gave, and the LSN for [`Store::make_durable`].
    pub fn transact<T>(&self, work: impl Fn(&mut Transaction) -> Result<T>) -> Result<(T, u64)> {
        loop {
            let mut transaction = self.begin();
            let given = work(&mut transaction)?;
            match transaction.commit() {
                Err(Error::Conflict) => continue,
                done => return Ok((given, done?)),
            }
        }
    }
}

impl Memory {
    /// The entry of a key.
    fn entry(&mut self, key: u64) -> &mut Entry {
        let found = self.entries.binary_search_by_key(&key, |it| it.key);
        let place = found.unwrap_or_else(|place| {
            let (seen, change) = (None, None);
            self.entries.insert(place, Entry { key, seen, change });
            place
        });
        &mut self.entries[place]
    }

    fn keep(&mut self, value: &[u8]) -> Range<usize> {
        let start = self.bytes.len();
        self.bytes.extend_from_slice(value);
        start..self.bytes.len()
    }
}

impl Transaction<'_> {
    /// The value of a key.
    pub fn get(&mut self, key: u64) -> Result<Option<&[u8]>> {
        let Entry { seen, change, .. } = self.memory.entry(key);
        let known = change.as_ref().or(seen.as_ref()).cloned();
        let value = match known {
            Some(known) => known,
            None => {
                let memory = &mut self.memory;
                let value = self
                    .store
                    .look(key, |value| value.map(|it| memory.keep(it)))?;
                self.memory.entry(key).seen = Some(value.clone());
                value
            }
        };
        Ok(value.map(|it| &self.memory.bytes[it]))
    }

    /// Puts a value in the place of a key's.
    pub fn put(&mut self, key: u64, value: &[u8]) -> Result<()> {
        if value.len() > MOST_VALUE {
            return Err(Error::NoRoom("the value is longer than 256 bytes"));
        }
        let value = self.memory.keep(value);
        self.memory.entry(key).change = Some(Some(value));
        Ok(())
    }

    /// Takes a key out.
    pub fn delete(&mut self, key: u64) {
        self.memory.entry(key).change = Some(None);
    }

    /// Makes the changes, for all to see, and gives their LSN. They are kept for sure once
    /// [`Store::make_durable`] returns for that: so several may wait for one sync.
    ///
    /// # Errors
    /// [`Error::Conflict`] where another transaction changed what this one has read;
    /// [`Error::NoRoom`]; [`Error::Pager`] and [`Error::Device`]. Nothing was changed then, but where the
    /// log failed: then the store has stopped.
    pub fn commit(self) -> Result<u64> {
        let mut height = 0;
        loop {
            match self.attempt(height) {
                Ok(lsn) => return Ok(lsn),
                Err(Stop::Full(start)) => self.store.make_room(start)?,
                Err(Stop::Above) => height += 1,
                Err(Stop::Failed(error)) => return Err(error),
            }
        }
    }

    /// Commits with exclusive latches of the nodes up to this level.
    fn attempt(&self, height: u8) -> Result<u64, Stop> {
        let Memory { entries, bytes } = &self.memory;
        let mut mini = Mini::new(self.store, height);
        mini.latch(entries)?;
        for entry in entries {
            let seen = entry.seen.clone().map(|it| it.map(|it| &bytes[it]));
            if seen.is_some_and(|seen| seen != mini.get(entry.key)) {
                return Err(Error::Conflict.into());
            }
        }
        mini.pass_gate();
        for entry in entries {
            match &entry.change {
                Some(Some(value)) => mini.put(entry.key, &bytes[value.clone()])?,
                Some(None) => mini.delete(entry.key),
                None => {}
            }
        }
        mini.prune()?;
        mini.publish()
    }
}

impl Drop for Transaction<'_> {
    fn drop(&mut self) {
        let mut memory = std::mem::take(&mut self.memory);
        memory.entries.clear();
        memory.bytes.clear();
        // Once the thread's own objects are gone, the memory is, too.
        let _ = KEPT.try_with(|kept| kept.set(memory));
    }
}
