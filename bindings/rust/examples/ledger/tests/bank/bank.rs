//! Accounts between which amounts move: what the store is tried with.
//!
//! A value begins with four numbers. The first three of all keys are 0 in sum, and each transaction
//! keeps that: so it shows whether one was lost, made in part, or made twice.
use ledger::{Error, MOST_VALUE, Result, Store, Transaction};
use std::array;

/// Accounts have the keys 0, 16, 32 and so on; between them are those that clients open and close.
const APART: u64 = 16;
/// The key of client 0's counter. Those of the others follow.
const COUNTERS: u64 = 1 << 63;
/// The key that makes up for the accounts that were loaded. It is put last.
const LOADED: u64 = u64::MAX;

/// Of an account: its balance, how often it changed, 1, and 0. Of a client's counter: what makes up
/// for these, and how many transactions the client made.
type Row = [i64; 4];

/// Numbers at random, the same from the same seed.
pub struct Random(pub u64);

impl Random {
    /// The next number, which is below the bound.
    pub fn below(&mut self, bound: u64) -> u64 {
        self.0 = self.0.wrapping_add(0x9e37_79b9_7f4a_7c15);
        mixed(self.0) % bound
    }
}

fn mixed(mut word: u64) -> u64 {
    for factor in [0xbf58_476d_1ce4_e5b9, 0x94d0_49bb_1331_11eb] {
        word = (word ^ word >> 30).wrapping_mul(factor);
    }
    word ^ word >> 31
}

/// Puts the value into the room and gives it. It is of another length after each change. What fills it
/// tells the key.
fn encode(key: u64, row: Row, room: &mut [u8; MOST_VALUE]) -> &[u8] {
    let (numbers, rest) = room.split_at_mut(32);
    numbers.copy_from_slice(row.map(i64::to_le_bytes).as_flattened());
    let seed = mixed(key ^ mixed(row[1] as u64));
    let size = (seed % 225) as usize;
    for (at, byte) in rest[..size].iter_mut().enumerate() {
        *byte = (seed >> (at % 57)) as u8;
    }
    &room[..32 + size]
}

fn number(bytes: &[u8], at: usize) -> i64 {
    i64::from_le_bytes(array::from_fn(|byte| bytes[at + byte]))
}

fn bad<T>(why: impl Into<String>) -> Result<T> {
    Err(Error::BadStore(why.into()))
}

fn decode(key: u64, value: &[u8]) -> Result<Row> {
    let numbers = value.get(..32).unwrap_or(&[0; 32]);
    let row = array::from_fn(|at| number(numbers, 8 * at));
    match encode(key, row, &mut [0; MOST_VALUE]) == value {
        true => Ok(row),
        false => bad(format!("the value of key {key} is wrong")),
    }
}

fn row_of(it: &mut Transaction, key: u64) -> Result<Option<Row>> {
    let value = it.get(key)?;
    value.map(|value| decode(key, value)).transpose()
}

/// Adds to the numbers of a key. Gives the last one.
fn add(it: &mut Transaction, key: u64, by: Row) -> Result<u64> {
    let row = row_of(it, key)?.unwrap_or_default();
    let sums = array::from_fn(|at| row[at] + by[at]);
    it.put(key, encode(key, sums, &mut [0; MOST_VALUE]))?;
    Ok(sums[3] as u64)
}

/// Puts accounts into an empty store.
pub fn load(store: &Store, accounts: u64) -> Result<()> {
    let count = accounts as i64;
    let rows = (0..accounts).map(|at| (at * APART, [1_000, 0, 1, 0]));
    let all = rows.chain([(LOADED, [-1_000 * count, 0, -count, 0])]);
    store.load(all.map(|(key, row)| (key, encode(key, row, &mut [0; MOST_VALUE]).to_vec())))
}

/// How many accounts were loaded.
pub fn accounts(store: &Store) -> Result<u64> {
    match store.get(LOADED)? {
        Some(value) => Ok(-decode(LOADED, &value)?[2] as u64),
        None => bad("the accounts were never loaded"),
    }
}

/// One who makes transactions.
pub struct Client<'a> {
    /// Where the accounts are.
    pub store: &'a Store,
    /// Which client it is, from 0 on: less than 14.
    pub number: u64,
    /// How many accounts were loaded.
    pub accounts: u64,
    /// Of 100 transactions so many open or close an account.
    pub opens: u64,
    /// Whether it waits until each transaction is kept.
    pub waits: bool,
    /// What it does by chance.
    pub random: Random,
}

impl Client<'_> {
    /// Makes a transaction. Gives how many the client made, all of which are kept if it waits for that.
    pub fn step(&mut self) -> Result<u64> {
        let (from, to) = (self.account(), self.account());
        let (amount, odds) = (self.random.below(100) as i64, self.random.below(100));
        let (count, lsn) = self.store.transact(|it| match odds < self.opens {
            true => self.open_or_close(it, from, amount),
            false => self.transfer(it, from, to, amount),
        })?;
        if self.waits {
            self.store.make_durable(lsn)?;
        }
        Ok(count)
    }

    /// The key of an account. Skewed: nearly a third of all are below a hundredth of the accounts.
    pub fn account(&mut self) -> u64 {
        let part = self.random.below(1 << 20) as f64 / (1 << 20) as f64;
        (part.powi(4) * self.accounts as f64) as u64 * APART
    }

    fn transfer(&self, it: &mut Transaction, from: u64, to: u64, amount: i64) -> Result<u64> {
        let next = to + APART * u64::from(to == from);
        add(it, from, [-amount, 1, 0, 0])?;
        add(it, next, [amount, 1, 0, 0])?;
        add(it, COUNTERS + self.number, [0, -2, 0, 1])
    }

    /// An account of this client's own beside another: opened with some of its money, or closed.
    fn open_or_close(&self, it: &mut Transaction, from: u64, amount: i64) -> Result<u64> {
        let own = from + 1 + self.number;
        if let Some([balance, changes, ..]) = row_of(it, own)? {
            it.delete(own);
            add(it, from, [balance, 1, 0, 0])?;
            add(it, COUNTERS + self.number, [0, changes - 1, 1, 1])
        } else {
            add(it, own, [amount, 0, 1, 0])?;
            add(it, from, [-amount, 1, 0, 0])?;
            add(it, COUNTERS + self.number, [0, -1, -1, 1])
        }
    }
}

/// Looks at all keys: the sums are 0, and each client has made the transactions that were
/// acknowledged, of which it has a word here. Gives how many were made and acknowledged in all.
pub fn check(store: &Store, acknowledged: &[u8]) -> Result<(i64, i64)> {
    accounts(store)?;
    let mut sums = Row::default();
    for (key, value) in store.scan(0, usize::MAX)? {
        let row = decode(key, &value)?;
        sums = array::from_fn(|at| sums[at] + row[at]);
    }
    if sums[..3] != [0; 3] {
        return bad(format!("the sums of all keys are {sums:?}"));
    }
    let (mut it, mut all) = (store.begin(), 0);
    for (client, known) in (0..).zip(acknowledged.chunks_exact(8)) {
        let known = number(known, 0);
        let [.., made] = row_of(&mut it, COUNTERS + client)?.unwrap_or_default();
        if made < known {
            let why = format!("client {client}: {made} kept of {known} acknowledged");
            return bad(why);
        }
        all += known;
    }
    Ok((sums[3], all))
}
