//! An engine whose pages do not all live the plain life. Tables are made with records, or loaded without
//! them after a sort in temporary pages; they are changed, and dropped, and their pages are used again.
//! Page 0 says which table has each page. An index has no records at all, and each start makes it anew.
use crate::files::{BODY, Files, Head, Shape, put, redo, stamp};
use crate::log::{FIRST, Log, Puts, Ranges, word};
use crate::model::{Body, Failure, Outcome, Step};
use crate::wrong::Wrong;
use hojzmated::{PageIo, PageMut, Pager};
use hojzmated_disk::Disk;
use std::os::unix::fs::FileExt;
use std::sync::atomic::{AtomicU64, Ordering};
use std::sync::{Arc, Mutex, RwLock};
use std::thread;
use std::time::Duration;

/// What the last checkpoint noted: the log's end and the record before it.
struct Noted {
    head: Head,
    end: u64,
    last: u64,
}

pub struct Store {
    pub pager: Arc<Pager<Files>>,
    shape: Shape,
    wrong: Option<Wrong>,
    /// Who writes has it shared from the record to the last put of it.
    gate: RwLock<()>,
    /// A record is of all bytes of a page, if it is the first since this LSN; and the LSN from which on
    /// it was looked at so, of each page.
    since: AtomicU64,
    imaged: Vec<AtomicU64>,
    noted: Mutex<Noted>,
    free: Mutex<Vec<u64>>,
    /// Where the log ended at the start.
    pub began: u64,
    /// What each record means, for the model.
    pub steps: Mutex<Vec<(u64, Step)>>,
}

/// Makes the changes of a record, in one of several ways.
fn change(page: &mut PageMut<'_>, ranges: &[(usize, Vec<u8>)], lsn: u64) -> hojzmated::Result<()> {
    match lsn % 3 {
        0 => ranges
            .iter()
            .try_for_each(|(at, bytes)| page.put(*at, bytes, lsn)),
        1 => {
            let each: Vec<_> = ranges.iter().map(|(at, bytes)| (*at, &bytes[..])).collect();
            page.put_each(&each, lsn)
        }
        _ => page.edit(.., lsn, |image| put(image, ranges)),
    }
}

impl Store {
    pub fn create(disk: &Disk, shape: &Shape) -> Outcome {
        let (pages, log) = (disk.file("pages"), disk.file("log"));
        pages.set_len((shape.pages + 1) * shape.size as u64)?;
        log.set_len(FIRST)?;
        log.sync_data()?;
        let mut catalog = vec![0; shape.size];
        stamp(0, &mut catalog, 0);
        pages.write_all_at(&catalog, 0)?;
        let head = Head {
            life: 0,
            redo: FIRST,
        };
        head.write(&pages, shape)?;
        Ok(pages.sync_data()?)
    }

    pub fn open(disk: &Disk, shape: &Shape, wrong: Option<Wrong>) -> Outcome<Store> {
        let pages = disk.file("pages");
        let head = Head::read(&pages, shape)?;
        let (log, records) = Log::open(disk.file("log"), head.redo, head.life)?;
        let (end, last) = log.end();
        for (page, mut image) in redo(&pages, shape, &records)? {
            let lsn = word(&image, 0);
            stamp(page, &mut image, lsn);
            pages.write_all_at(&image, page * shape.size as u64)?;
        }
        if wrong != Some(Wrong::RedoneNotSynced) {
            pages.sync_data()?;
        }
        let head = Head {
            life: head.life + 1,
            redo: end,
        };
        head.write(&pages, shape)?;
        pages.sync_data()?;
        let files = Files {
            pages,
            log,
            has_failed: Mutex::default(),
        };
        let pager = Pager::new(&shape.config(), files)?;
        pager.mark(last);
        let store = Store {
            pager: Arc::new(pager),
            shape: shape.clone(),
            wrong,
            gate: RwLock::default(),
            since: AtomicU64::new(end),
            imaged: (0..shape.pages).map(|_| AtomicU64::new(0)).collect(),
            noted: Mutex::new(Noted { head, end, last }),
            free: Mutex::default(),
            began: end,
            steps: Mutex::default(),
        };
        store.make_index()?;
        Ok(store)
    }

    fn is(&self, wrong: Wrong) -> bool {
        self.wrong == Some(wrong)
    }

    fn log(&self) -> &Log {
        &self.pager.io().log
    }

    pub fn make_durable(&self, lsn: u64) -> Outcome {
        Ok(self.log().make_durable(lsn)?)
    }

    // ---- The catalog and the index

    /// The pages of a table, in its order.
    pub fn pages_of(&self, table: u8) -> Outcome<Vec<u64>> {
        let mut pages: Vec<_> = self
            .owners()?
            .into_iter()
            .filter(|it| it.0 == table)
            .collect();
        pages.sort_unstable();
        Ok(pages.into_iter().map(|it| it.2).collect())
    }

    /// The table of each page that has one, the place there, and the page.
    pub fn owners(&self) -> Outcome<Vec<(u8, u8, u64)>> {
        let catalog = self.pager.read(0)?;
        let entries = (0..)
            .zip(catalog[BODY..].chunks_exact(2))
            .take(self.shape.pages as usize);
        Ok(entries
            .filter(|it| it.1[0] > 0)
            .map(|(page, it)| (it[0], it[1], page))
            .collect())
    }

    /// What makes these pages a table's, or with table 0 nobody's.
    fn entries(pages: &[u64], table: u8) -> Ranges {
        let places = (0..).zip(pages);
        places
            .map(|(place, page)| (BODY + 2 * *page as usize, vec![table, place]))
            .collect()
    }

    /// How many pages the index has, which are those after the catalog, and how many entries each.
    fn index_pages(&self) -> (u64, u64) {
        let each = ((self.shape.size - BODY) / 8) as u64;
        (self.shape.pages.div_ceil(each), each)
    }

    fn make_index(&self) -> Outcome {
        let (owners, pages) = (self.owners()?, self.index_pages().0);
        let is_kept = self.is(Wrong::IndexKept) && self.began > FIRST;
        for page in 1..=pages {
            if !is_kept {
                let zeros = vec![0; self.shape.size - BODY];
                self.pager
                    .new_page(page)?
                    .put_unlogged(BODY, &zeros, self.log().end().1)?;
            }
        }
        for (_, _, page) in owners.iter().filter(|_| !is_kept) {
            let version = word(&self.pager.read(*page)?[..], BODY);
            self.set_index(*page, version)?;
        }
        let is_free = |page: &u64| {
            let is_owned = owners.iter().any(|it| it.2 == *page);
            !is_owned && !self.shape.temporary.contains(page)
        };
        *self.free.lock().unwrap() = (pages + 1..self.shape.pages).filter(is_free).collect();
        Ok(())
    }

    fn set_index(&self, page: u64, version: u64) -> Outcome {
        let each = self.index_pages().1;
        let mut index = self.pager.write(1 + page / each)?;
        let at = BODY + (page % each) as usize * 8;
        Ok(index.put_unlogged(at, &version.to_le_bytes(), self.log().end().1)?)
    }

    pub fn index(&self, page: u64) -> Outcome<u64> {
        let each = self.index_pages().1;
        let index = self.pager.read(1 + page / each)?;
        Ok(word(&index, BODY + (page % each) as usize * 8))
    }

    /// Takes so many pages that nobody has, the newest of them first.
    fn take(&self, count: usize) -> Option<Vec<u64>> {
        let mut free = self.free.lock().unwrap();
        let at = free.len().checked_sub(count)?;
        Some(free.split_off(at))
    }

    // ---- Records

    /// Appends a record and makes its changes, to pages of which some are new.
    fn write(&self, mut puts: Puts, new: &[u64], step: Step) -> Outcome<u64> {
        let latched = puts.keys().map(|page| match new.contains(page) {
            true => self.pager.new_page(*page),
            false => self.pager.write(*page),
        });
        let pages = latched.collect::<Result<Vec<_>, _>>()?;
        let gate = self.gate.read().unwrap();
        let since = self.since.load(Ordering::Relaxed);
        for page in &pages {
            let ranges = puts.get_mut(&page.page()).unwrap();
            let before = self.imaged[page.page() as usize].swap(since, Ordering::Relaxed);
            if before < since && !new.contains(&page.page()) {
                let mut image = page.bytes().to_vec();
                put(&mut image, ranges);
                *ranges = vec![(BODY, image.split_off(BODY))];
            }
        }
        let tell = |lsn| self.steps.lock().unwrap().push((lsn, step));
        let lsn = self.log().append(&puts, tell)?;
        let gate = (!self.is(Wrong::NotedBesideWriters)).then_some(gate);
        if gate.is_none() && lsn % 4 == 0 {
            thread::sleep(PAUSE);
        }
        for page in pages {
            let number = page.page();
            self.change_page(page, &puts[&number], lsn, new.contains(&number))?;
        }
        Ok(lsn)
    }

    fn change_page(
        &self,
        mut page: PageMut<'_>,
        ranges: &Ranges,
        lsn: u64,
        is_new: bool,
    ) -> Outcome {
        let number = page.page();
        if self.is(Wrong::PutUnlogged) && !is_new {
            let mut each = ranges.iter();
            each.try_for_each(|(at, bytes)| page.put_unlogged(*at, bytes, lsn))?;
        } else if self.is(Wrong::PutInTwo) && number > 0 && ranges.len() > 1 {
            let half = ranges.len() / 2;
            change(&mut page, &ranges[..half], lsn)?;
            drop(page);
            thread::sleep(PAUSE);
            change(&mut self.pager.write(number)?, &ranges[half..], lsn)?;
        } else {
            change(&mut page, ranges, lsn)?;
        }
        Ok(())
    }

    /// Makes a table, of which no page was written before. None where there is no room.
    pub fn make(&self, table: u8, bodies: &[Body], step: Step) -> Outcome<Option<u64>> {
        let Some(pages) = self.take(bodies.len()) else {
            return Ok(None);
        };
        let mut puts = Puts::from([(0, Store::entries(&pages, table))]);
        for (page, body) in pages.iter().zip(bodies) {
            let ranges = match self.is(Wrong::FirstRecordOfAPart) {
                // What is left out is zeros.
                true => vec![(BODY, body[..body.len() / 2].to_vec())],
                false => vec![(BODY, body.clone())],
            };
            puts.insert(*page, ranges);
        }
        let lsn = self.write(puts, &pages, step)?;
        self.index_all(&pages, bodies)?;
        Ok(Some(lsn))
    }

    fn index_all(&self, pages: &[u64], bodies: &[Body]) -> Outcome {
        let mut each = pages.iter().zip(bodies);
        each.try_for_each(|(page, body)| self.set_index(*page, word(body, 0)))
    }

    /// Makes a table of bodies that are sorted before, without records, but for the one that names it.
    pub fn load(
        &self,
        worker: u64,
        table: u8,
        bodies: &[Body],
        step: Step,
    ) -> Outcome<Option<u64>> {
        let first = self.shape.temporary.start + worker * MOST;
        let temporary = first..first + bodies.len() as u64;
        let is_named = self.is(Wrong::TemporaryNamed)
            && self.owners()?.iter().any(|it| temporary.contains(&it.2));
        let sorted = if is_named {
            bodies.to_vec()
        } else {
            self.sort(first, bodies)?
        };
        let Some(mut pages) = self.take(bodies.len()) else {
            return Ok(None);
        };
        if self.is(Wrong::TemporaryNamed) && !is_named {
            pages = temporary.collect();
        }
        self.fill(&pages, &sorted)?;
        let is_early = self.is(Wrong::NamedBeforeSync);
        if !is_early {
            self.keep(&pages)?;
        }
        let lsn = self.write(Puts::from([(0, Store::entries(&pages, table))]), &[], step)?;
        if is_early {
            self.keep(&pages)?;
        }
        self.index_all(&pages, bodies)?;
        if !self.is(Wrong::TemporaryNamed) {
            self.pager.discard_from(first, bodies.len() as u64)?;
        }
        Ok(Some(lsn))
    }

    fn fill(&self, pages: &[u64], bodies: &[Body]) -> Outcome {
        let is_zero = self.is(Wrong::UnloggedUnderZero);
        let lsn = if is_zero { 0 } else { self.log().end().1 };
        for (page, body) in pages.iter().zip(bodies) {
            self.pager.new_page(*page)?.put_unlogged(BODY, body, lsn)?;
            if !self.is(Wrong::LoadKeepsImages) {
                self.imaged[*page as usize].store(0, Ordering::Relaxed);
            }
        }
        Ok(())
    }

    fn keep(&self, pages: &[u64]) -> Outcome {
        self.pager.flush_pages(pages)?;
        self.pager.sync()?;
        Ok(())
    }

    /// Puts bodies into temporary pages from the last to the first, and reads them in their order.
    fn sort(&self, first: u64, bodies: &[Body]) -> Outcome<Vec<Body>> {
        let pages = first..first + bodies.len() as u64;
        for (page, body) in pages.clone().rev().zip(bodies.iter().rev()) {
            let mut page = match self.is(Wrong::TemporaryRead) {
                true => self.pager.write(page)?,
                false => self.pager.new_page(page)?,
            };
            page.put(BODY, body, self.log().end().1)?;
        }
        pages
            .map(|page| Ok(self.pager.read(page)?[BODY..].to_vec()))
            .collect()
    }

    /// Changes ranges of the body that a table has at a place.
    pub fn change(&self, table: u8, place: usize, ranges: &Ranges, step: Step) -> Outcome<u64> {
        let pages = self.pages_of(table)?;
        let page = *pages
            .get(place)
            .ok_or_else(|| Failure::Wrong(format!("table {table} is too short")))?;
        let in_page = ranges.iter().map(|(at, bytes)| (BODY + at, bytes.clone()));
        let lsn = self.write(Puts::from([(page, in_page.collect())]), &[], step)?;
        self.set_index(page, word(&ranges[0].1, 0))?;
        Ok(lsn)
    }

    /// Drops a table. Its pages may be used again once the record that frees them is durable.
    pub fn drop_table(&self, table: u8, step: Step) -> Outcome<u64> {
        let mut pages = self.pages_of(table)?;
        let lsn = self.write(Puts::from([(0, Store::entries(&pages, 0))]), &[], step)?;
        if !self.is(Wrong::DiscardedEarly) {
            self.make_durable(lsn)?;
        }
        for page in &pages {
            self.set_index(*page, 0)?;
        }
        pages.sort_unstable();
        for row in pages.chunk_by(|one, next| one + 1 == *next) {
            match row {
                [page] => drop(self.pager.discard(*page)?),
                _ => drop(self.pager.discard_from(row[0], row.len() as u64)?),
            }
        }
        pages.retain(|page| !self.shape.temporary.contains(page));
        self.free.lock().unwrap().append(&mut pages);
        Ok(lsn)
    }

    // ---- Checkpoints

    /// Writes out what is older than what the checkpoint before noted, so that redo begins there.
    pub fn checkpoint(&self) -> Outcome {
        let mut noted = self.noted.lock().unwrap();
        let (end, last) = {
            let _alone = self.gate.write().unwrap();
            let (end, last) = self.log().end();
            if !self.is(Wrong::ImagesLeftOut) {
                self.since.store(end, Ordering::Relaxed);
            }
            (end, last)
        };
        let (older, before) = (noted.end, noted.last);
        (noted.end, noted.last) = (end, last);
        self.make_durable(before)?;
        let is_short = self.is(Wrong::FlushedTooFew);
        self.write_out(if is_short { before } else { older })?;
        let least = match self.is(Wrong::PagesNotSynced) {
            true => self.pager.redo_from(),
            false => self.pager.sync()?,
        };
        if let Some(least) = least.filter(|least| *least < older && !is_short) {
            return Err(Failure::Wrong(format!(
                "redo from {least}, and what is older than {older} went out"
            )));
        }
        noted.head.redo = older;
        let files = self.pager.io();
        noted.head.write(&files.pages, &self.shape)?;
        Ok(files.sync()?)
    }

    /// Writes out the pages with an unsaved write under a record before this one.
    fn write_out(&self, lsn: u64) -> Outcome {
        match self.shape.way {
            0 => self.pager.flush_before(lsn)?,
            1 => drop(self.pager.checkpoint()?),
            _ => {
                let mut old = self.pager.unsaved()?;
                old.retain(|it| it.first_lsn < lsn);
                old.sort_unstable_by_key(|it| it.first_lsn);
                let old: Vec<u64> = old.into_iter().map(|it| it.page).collect();
                let flush = |pages: &[u64]| self.pager.flush_pages(pages);
                thread::scope(|scope| {
                    let shares = old.chunks(old.len().div_ceil(self.shape.threads as usize).max(1));
                    let flushes: Vec<_> = shares.map(|it| scope.spawn(move || flush(it))).collect();
                    flushes
                        .into_iter()
                        .try_for_each(|it| it.join().expect("a flush panicked"))
                })?;
            }
        }
        Ok(())
    }
}

/// How long one waits within what it does wrong, so that others come between.
const PAUSE: Duration = Duration::from_millis(2);
/// So many temporary pages each worker has, and so many pages a table at most.
pub const MOST: u64 = 8;
