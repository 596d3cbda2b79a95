//! Which pages are free: those that the tree does not have. A start finds them by a walk over the inner
//! nodes, and then they are kept in memory.
use crate::store::Files;
use crate::tree::{ROOT, misplaced, pages_below};
use crate::{Error, Result, Store, node};
use hojzmated::Pager;
use std::collections::VecDeque;

/// The free pages.
#[derive(Default)]
pub struct Space {
    free: Vec<u64>,
    /// Those that were freed by the record with this LSN, which may not be durable.
    freed: VecDeque<(u64, u64)>,
}

impl Space {
    /// Finds the free pages, while nobody uses the tree.
    pub fn new(pager: &Pager<Files>) -> Result<Space> {
        let mut is_free = vec![true; pager.config().pages as usize];
        let below = pages_below(pager, node::body(&pager.read(ROOT)?))?;
        for page in [0, ROOT].into_iter().chain(below) {
            match is_free.get_mut(page as usize) {
                Some(it) => *it = false,
                None => return misplaced(page),
            }
        }
        // The last one is taken first.
        let free = (0..pager.config().pages).rev();
        Ok(Space {
            free: free.filter(|page| is_free[*page as usize]).collect(),
            ..Space::default()
        })
    }

    /// All pages that are free, or are so once a record is durable.
    pub fn pages(&self) -> impl Iterator<Item = u64> {
        let freed = self.freed.iter().map(|it| it.1);
        self.free.iter().copied().chain(freed)
    }
}

impl Store {
    /// Takes a free page.
    pub(crate) fn take_page(&self) -> Result<u64> {
        loop {
            let mut space = self.space.lock().unwrap();
            if let Some(page) = space.free.pop() {
                return Ok(page);
            }
            let Some((lsn, _)) = space.freed.back().copied() else {
                return Err(Error::NoRoom("the page file has no page left"));
            };
            drop(space);
            self.make_durable(lsn)?;
            self.reclaim();
        }
    }

    /// Gives pages back that were taken, and that no record says to be used.
    pub(crate) fn give_back(&self, taken: &mut Vec<u64>) {
        if !taken.is_empty() {
            self.space.lock().unwrap().free.append(taken);
        }
    }

    /// Notes pages that are free once the record with this LSN is durable.
    pub(crate) fn free_by(&self, lsn: u64, freed: &mut Vec<u64>) {
        if !freed.is_empty() {
            let freed = freed.drain(..).map(|page| (lsn, page));
            self.space.lock().unwrap().freed.extend(freed);
        }
    }

    /// Drops what the freed pages have, once that is durable: before, a crash would bring them back. A
    /// page that cannot be dropped now is so later.
    pub(crate) fn reclaim(&self) {
        let mut space = self.space.lock().unwrap();
        while let Some(&(lsn, page)) = space.freed.front() {
            if lsn >= self.log().durable() || self.pager.discard(page).is_err() {
                break;
            }
            space.freed.pop_front();
            space.free.push(page);
        }
    }
}
