//! `Store`: the page file and the log under one pager; opening, redo and checkpoints.
use crate::device::Device;
use crate::log::Log;
use crate::node::{self, BODY, CONTENT, LSN, SUM, word};
use crate::record::Change;
use crate::space::Space;
use crate::tree::ROOT;
use crate::{Error, Result, bad};
use hojzmated::{Cleaner, LogFault, PageIo, Pager, PagerConfig, PagerError, ReadFault, Stats};
use std::collections::{BTreeMap, BTreeSet};
use std::hash::{BuildHasher, RandomState};
use std::io;
use std::mem;
use std::sync::{Arc, Mutex, RwLock};
use std::time::Duration;

/// The page file and the log, as the pager uses them.
pub struct Files {
    pages: Box<dyn Device>,
    log: Log,
}

impl PageIo for Files {
    fn read_page(&self, page: u64, image: &mut [u8]) -> Result<(), ReadFault> {
        self.pages.read_exact_at(image, page * image.len() as u64)?;
        let (lsn, end) = (word(image, LSN), self.log.durable());
        let why = if image[SUM..CONTENT] != node::sum_of(page, image) {
            "the checksum is wrong, and the log has no image of it".into()
        } else if lsn >= end {
            format!("its LSN is {lsn}, and the log ends at {end}")
        } else {
            return Ok(());
        };
        Err(io::Error::new(io::ErrorKind::InvalidData, why).into())
    }

    // RULES, log before page: the page LSN is stamped into the image as it goes out.
    fn write_page(&self, page: u64, image: &mut [u8], lsn: u64) -> io::Result<()> {
        node::stamp(page, image, lsn);
        self.pages.write_all_at(image, page * image.len() as u64)
    }

    fn make_log_durable(&self, lsn: u64) -> Result<(), LogFault> {
        Ok(self.log.make_durable(lsn)?)
    }

    fn sync(&self) -> io::Result<()> {
        self.pages.sync()
    }
}

/// A B+tree of u64 keys and values of up to 256 bytes, in pages under a log.
pub struct Store {
    pub(crate) pager: Arc<Pager<Files>>,
    /// Who commits has it shared from before its record to its last put. A checkpoint has it alone for
    /// as long as it notes where the next record begins.
    pub(crate) gate: RwLock<()>,
    pub(crate) space: Mutex<Space>,
    checkpoint: Mutex<()>,
}

impl Store {
    /// Makes a store on two empty devices. The sizes are the number of pages, their bytes, and those
    /// of the log.
    pub fn create(pages: &dyn Device, log: &dyn Device, sizes: [u64; 3]) -> Result<()> {
        let [count, page_size, log_size] = sizes;
        let is_page = page_size.is_power_of_two() && (1024..=32_768).contains(&page_size);
        let is_log = log_size % 2 == 0 && (1 << 15..=1 << 33).contains(&log_size);
        if !is_page || !is_log || !(3..=1 << 26).contains(&count) {
            return Err(Error::NoRoom("a store of such a size cannot be"));
        }
        // RULES, new pages: the page file is made whole at first.
        pages.fill(count * page_size)?;
        let store: u64 = RandomState::new().hash_one(page_size);
        for (page, body) in [(0, &store.to_le_bytes()[..]), (ROOT, &[0])] {
            let mut image = vec![0; page_size as usize];
            image[CONTENT..BODY].copy_from_slice(&node::head(0, body));
            image[BODY..][..body.len()].copy_from_slice(body);
            node::stamp(page, &mut image, 0);
            pages.write_all_at(&image, page * page_size)?;
        }
        pages.sync()?;
        Log::create(log, [store, count, page_size, log_size])
    }

    /// Opens a store: what the log has is redone, wherever the last run ended. The last argument
    /// gives the pager's settings from the number of pages and the page size. Tells whether the log
    /// ended within a record: that was never acknowledged, and is gone.
    ///
    /// Nothing here keeps a second process out: `main.rs` locks the files before it opens a store.
    ///
    /// A commit pins all pages that it changes. So have more frames than that, and better the pages
    /// that are used again and again.
    pub fn open(
        pages: Box<dyn Device>,
        log: Box<dyn Device>,
        settings: impl FnOnce(u64, usize) -> PagerConfig,
    ) -> Result<(Store, bool)> {
        let (log, is_torn) = Log::open(log)?;
        let [store, count, page_size, _] = log.fixed;
        let (size, wanted) = (pages.size()?, count * page_size);
        if size != wanted {
            return bad(format!("the page file has {size} bytes, and not {wanted}"));
        }
        // Page 0 tells whose pages these are, and never changes.
        let mut head = [0; BODY + 8];
        pages.read_exact_at(&mut head, 0)?;
        if word(&head, BODY) != store {
            return bad("the log is that of another store");
        }
        // RULES, the clock and the periods: the pager ticks at each fix, and `PagerConfig::new`
        // reckons the period from the frames.
        let config = settings(count, page_size as usize);
        let pager = Pager::new(&config, Files { pages, log })?;
        // RULES, log before page: after a start the mark is raised to the last durable record.
        pager.mark(pager.io().log.end() - 1);
        redo(&pager)?;
        pager.checkpoint()?;
        pager.io().log.turn_over()?;
        let store = Store {
            space: Mutex::new(Space::new(&pager)?),
            pager: Arc::new(pager),
            gate: RwLock::default(),
            checkpoint: Mutex::default(),
        };
        Ok((store, is_torn))
    }

    pub(crate) fn log(&self) -> &Log {
        &self.pager.io().log
    }

    /// What the pager counts, which tells how well the frames serve.
    pub fn stats(&self) -> Stats {
        self.pager.stats()
    }

    /// Starts a thread that writes out pages which have to make way next, until what this gives is
    /// dropped: so fewer threads wait for a write, or for the log.
    pub fn start_cleaner(&self, most: usize, rest: Duration) -> Result<Cleaner> {
        Ok(self.pager.start_cleaner(most, rest)?)
    }

    /// Whether the store has not stopped. It stops where a device failed so that only redo can tell
    /// what was kept: open it anew.
    pub fn is_running(&self) -> bool {
        self.log().is_running().is_ok()
    }

    /// Returns once the transaction with this LSN, and those before it, are kept.
    pub fn make_durable(&self, lsn: u64) -> Result<()> {
        self.log().make_durable(lsn)?;
        // RULES, log before page: the mark is raised after the sync, and never before.
        self.pager.mark(self.log().durable() - 1);
        Ok(())
    }

    /// Ends the pool where a sync failed: nobody knows what the device has then.
    pub(crate) fn stop_unless_synced<T>(&self, done: Result<T, PagerError>) -> Result<T> {
        Ok(match done {
            failed @ Err(PagerError::Sync { .. }) => self.log().stop_unless(failed)?,
            done => done?,
        })
    }

    /// Writes out what is dirty and cuts the log. Others go on meanwhile.
    pub fn checkpoint(&self) -> Result<()> {
        self.checkpoint_if(|_| true)
    }

    /// The same, if records still go into the half that begins here: that has no room for one.
    pub(crate) fn make_room(&self, start: u64) -> Result<()> {
        self.checkpoint_if(|now| now == start)
    }

    fn checkpoint_if(&self, is_wanted: impl Fn(u64) -> bool) -> Result<()> {
        let _one = self.checkpoint.lock().unwrap();
        if !is_wanted(self.log().start()) {
            return Ok(());
        }
        // RULES, a checkpoint: 1, the log's end, while no thread is between a record and its puts.
        // That is where the new half begins, which is so the redo point that is written down.
        let start = {
            let _alone = self.gate.write().unwrap();
            self.log().turn_over()?
        };
        // 2, and by the pager 3, 4 and 5. A failed sync ends the pool.
        self.make_durable(start - 1)?;
        let redo = self.stop_unless_synced(self.pager.checkpoint())?;
        // 6 and 7: from the lesser of 1 and 4 on the log is kept.
        self.log().cut(redo.map_or(start, |lsn| lsn.min(start)));
        self.reclaim();
        Ok(())
    }
}

/// Makes the changes that the log has, through the pager. A page begins with its whole body there, and
/// is not read before: it may be torn. All of them go out anew: after a sync that failed, a page may be in
/// the memory of the system alone.
fn redo(pager: &Pager<Files>) -> Result<()> {
    let (mut begun, mut bodies) = (BTreeSet::new(), BTreeMap::new());
    pager.io().log.redo(|lsn, mut record| {
        while !record.is_empty() {
            let Some((page, change)) = Change::take(&mut record) else {
                return bad(format!("the log's record {lsn} is no list of changes"));
            };
            if !begun.insert(page) && !bodies.contains_key(&page) {
                bodies.insert(page, node::body(&pager.read(page)?).to_vec());
            }
            if change.make(bodies.entry(page).or_default()).is_none() {
                return bad(format!("the log's record {lsn} is not of page {page}"));
            }
        }
        for (page, body) in mem::take(&mut bodies) {
            // RULES, new pages: one that is not read is written to at once.
            let parts = [(CONTENT, &node::head(0, &body)[..]), (BODY, &body)];
            pager.new_page(page)?.put_each(&parts, lsn)?;
        }
        Ok(())
    })
}
