//! `Mini`, a mini transaction: changes of several pages that are logged as one record.
//!
//! It latches what it changes, changes copies of the bodies, appends the record, puts the bodies into
//! the pages under the record's LSN, and lets go. Many threads do so side by side. From the first look
//! at where the half of the log begins to the last put, each has the *gate* shared: a checkpoint, which
//! has it alone, notes the log's end while no record waits for its puts.
//!
//! At first the nodes above the leaves are latched shared, and let go as the walk goes on. Where a leaf
//! has to be split or taken out, all is let go, nothing is changed, and a second mini transaction has the
//! exclusive latches of the leaves' parents too; and so on upwards.
use crate::node::{self, BODY, CONTENT, Node, SINCE, word};
use crate::record::Change;
use crate::transaction::Entry;
use crate::tree::{Place, ROOT};
use crate::{Error, Result, Store};
use hojzmated::{PageMut, PageRef, PagerError};
use std::cell::Cell;
use std::cmp::Reverse;
use std::sync::RwLockReadGuard;
use std::{mem, thread};

/// Why a mini transaction ended. Nothing was changed.
pub enum Stop {
    /// A node above those that are latched has to change too.
    Above,
    /// The half of the log that begins here has no room.
    Full(u64),
    Failed(Error),
}

impl<E: Into<Error>> From<E> for Stop {
    fn from(error: E) -> Stop {
        Stop::Failed(error.into())
    }
}

/// A page under its exclusive latch.
struct Latched<'a> {
    page: PageMut<'a>,
    place: Place,
    /// The node above, if that is latched too.
    above: Option<usize>,
    /// What it will have, if that is something else.
    body: Option<Vec<u8>>,
}

/// A node on the way: under a shared latch, or which one it is of those that are [`Latched`].
enum Held<'a> {
    Shared(PageRef<'a>),
    Alone(usize),
}

/// Memory for mini transactions, which is used again and again.
#[derive(Default)]
struct Memory {
    pages: Vec<Latched<'static>>,
    bodies: Vec<Vec<u8>>,
    record: Vec<u8>,
    taken: Vec<u64>,
    freed: Vec<u64>,
}

thread_local! {
    /// The memory of this thread for its next mini transaction.
    static KEPT: Cell<Memory> = Cell::default();
}

/// A mini transaction. If it is dropped before it is published nothing was changed.
pub struct Mini<'a> {
    store: &'a Store,
    memory: Memory,
    /// Nodes up to this level are latched exclusively.
    height: u8,
    pages: Vec<Latched<'a>>,
    /// What was latched last, of which the next one is behind.
    last: Option<(u64, Reverse<u8>)>,
    gate: Option<RwLockReadGuard<'a, ()>>,
    /// Where the half of the log begins.
    start: u64,
    lsn: Option<u64>,
}

impl<'a> Mini<'a> {
    pub fn new(store: &'a Store, height: u8) -> Mini<'a> {
        let mut memory = KEPT.take();
        Mini {
            store,
            height,
            pages: mem::take(&mut memory.pages),
            memory,
            last: None,
            gate: None,
            start: 0,
            lsn: None,
        }
    }

    /// Latches the leaves of these keys, which rise.
    pub fn latch(&mut self, keys: &[Entry]) -> Result<()> {
        let root = self.store.pager.read(ROOT)?;
        let mut place = Place::of_root(&root)?;
        let held = if place.level > self.height {
            Held::Shared(root)
        } else {
            // A shared latch does not become an exclusive one, and the root may grow meanwhile.
            drop(root);
            let page = self.store.pager.write(ROOT)?;
            place = Place::of_root(page.bytes())?;
            Held::Alone(self.add(page, place, None))
        };
        self.last = Some((0, Reverse(place.level)));
        self.walk(&held, place, keys)
    }

    /// Latches the leaves of some keys below a node, from left to right.
    fn walk(&mut self, node: &Held<'a>, place: Place, mut keys: &[Entry]) -> Result<()> {
        while let Some(first) = keys.first().filter(|_| place.level > 0) {
            let (image, above) = match node {
                Held::Shared(page) => (&page[..], None),
                Held::Alone(at) => (self.pages[*at].page.bytes(), Some(*at)),
            };
            let child = place.child(image, first.key)?;
            let held = self.hold(child, above)?;
            let count = keys.partition_point(|it| child.has(it.key)).max(1);
            self.walk(&held, child, &keys[..count])?;
            keys = &keys[count..];
        }
        Ok(())
    }

    /// Latches a node.
    fn hold(&mut self, place: Place, above: Option<usize>) -> Result<Held<'a>> {
        let (last, pager) = (Some((place.low, Reverse(place.level))), &self.store.pager);
        debug_assert!(self.last < last, "latches are taken as by a walk");
        self.last = last;
        if place.level > self.height {
            let page = pager.read(place.page)?;
            place.check(&page)?;
            return Ok(Held::Shared(page));
        }
        let page = pager.write(place.page)?;
        place.check(page.bytes())?;
        Ok(Held::Alone(self.add(page, place, above)))
    }

    fn add(&mut self, page: PageMut<'a>, place: Place, above: Option<usize>) -> usize {
        self.pages.push(Latched {
            page,
            place,
            above,
            body: None,
        });
        self.pages.len() - 1
    }

    /// The body that a page will have.
    fn body(&self, at: usize) -> &[u8] {
        let it = &self.pages[at];
        it.body.as_deref().unwrap_or(node::body(it.page.bytes()))
    }

    /// Which page is the leaf of a key.
    fn leaf(&self, key: u64) -> usize {
        let mut pages = self.pages.iter();
        let found = pages.position(|it| it.place.level == 0 && it.place.has(key));
        found.expect("the leaf was latched")
    }

    /// The value of a key whose leaf is latched.
    pub fn get(&self, key: u64) -> Option<&[u8]> {
        Node(self.body(self.leaf(key))).get(key)
    }

    /// Passes the gate: from here on there may be changes.
    pub fn pass_gate(&mut self) {
        self.gate = Some(self.store.gate.read().unwrap());
        self.start = self.store.log().start();
    }

    /// Makes a change of the body that a page will have, and notes it for the log.
    fn change(&mut self, at: usize, change: Change) {
        let (it, memory) = (&mut self.pages[at], &mut self.memory);
        let body = it.body.get_or_insert_with(|| {
            let (bytes, mut copy) = (it.page.bytes(), memory.bodies.pop().unwrap_or_default());
            copy.clear();
            copy.extend_from_slice(node::body(bytes));
            // A page whose write-out was torn is mended from the log: so the first change of a page
            // in a half of the log comes behind the whole body.
            if word(bytes, SINCE) != self.start && !matches!(change, Change::Body(_)) {
                Change::Body(&copy).add(it.place.page, &mut memory.record);
            }
            copy
        });
        change.add(it.place.page, &mut memory.record);
        change.make(body).expect("the page is a node");
    }

    /// The body of the root, if that was latched first.
    pub fn root(&self) -> &[u8] {
        self.body(0)
    }

    /// Gives the root another body, by which some pages are free.
    pub fn replace_root(&mut self, body: &[u8], freed: &[u64]) {
        self.memory.freed.extend_from_slice(freed);
        self.change(0, Change::Body(body));
    }

    /// Puts a value in the place of a key's.
    pub fn put(&mut self, key: u64, value: &[u8]) -> Result<(), Stop> {
        self.set(self.leaf(key), key, value)
    }

    /// Takes a key out.
    pub fn delete(&mut self, key: u64) {
        self.change(self.leaf(key), Change::Delete(key));
    }

    fn set(&mut self, at: usize, key: u64, value: &[u8]) -> Result<(), Stop> {
        self.change(at, Change::Set(key, value));
        let room = self.store.pager.config().page_size - BODY;
        match self.body(at).len() <= room {
            true => Ok(()),
            false => self.split(at),
        }
    }

    /// Splits a node. Its upper half comes into a new one, and that into the node above. Both halves
    /// of the root go into new nodes below it.
    fn split(&mut self, at: usize) -> Result<(), Stop> {
        let at = match self.pages[at].place.page {
            ROOT => self.lower_root(at)?,
            _ => at,
        };
        let Latched { place, above, .. } = self.pages[at];
        let above = above.ok_or(Stop::Above)?;
        let (low, mut body) = (Node(self.body(at)).middle(), self.empty_body());
        node::add_upper(self.body(at), low, &mut body);
        let upper = self.new_node(Place { low, ..place }, above, body)?;
        self.change(at, Change::Cut(low));
        self.pages[at].place.high = Some(low);
        self.move_below(at, upper);
        let page = self.pages[upper].place.page.to_le_bytes();
        self.set(above, low, &page)
    }

    /// Moves what the root has into a new node below it. Gives which one that is.
    fn lower_root(&mut self, root: usize) -> Result<usize, Stop> {
        let (place, mut body) = (self.pages[root].place, self.empty_body());
        body.extend_from_slice(self.body(root));
        let lower = self.new_node(place, root, body)?;
        self.move_below(root, lower);
        let page = self.pages[lower].place.page.to_le_bytes();
        self.change(root, Change::Body(&[place.level + 1]));
        self.change(root, Change::Set(0, &page));
        self.pages[root].place.level += 1;
        Ok(lower)
    }

    /// Has the latched children of a node that belong below another one be there.
    fn move_below(&mut self, from: usize, to: usize) {
        let low = self.pages[to].place.low;
        for (at, it) in self.pages.iter_mut().enumerate() {
            if it.above == Some(from) && it.place.low >= low && at != to {
                it.above = Some(to);
            }
        }
    }

    fn empty_body(&mut self) -> Vec<u8> {
        let mut body = self.memory.bodies.pop().unwrap_or_default();
        body.clear();
        body
    }

    /// Takes a free page for a node with this body. It is not read.
    fn new_node(&mut self, like: Place, above: usize, body: Vec<u8>) -> Result<usize, Stop> {
        let page = self.store.take_page()?;
        self.memory.taken.push(page);
        let latched = self.store.pager.new_page(page)?;
        let at = self.add(latched, Place { page, ..like }, Some(above));
        Change::Body(&body).add(page, &mut self.memory.record);
        self.pages[at].body = Some(body);
        Ok(at)
    }

    /// Takes out each node that is empty, and then those above that are empty by that. An empty root is
    /// a leaf.
    pub fn prune(&mut self) -> Result<(), Stop> {
        let levels = self.pages.iter().map(|it| it.place.level);
        for level in 0..=levels.max().unwrap_or(0) {
            for at in 0..self.pages.len() {
                let Latched { place, above, .. } = self.pages[at];
                if place.level != level || self.body(at).len() > 1 {
                    continue;
                }
                if place.page != ROOT {
                    self.remove_child(above.ok_or(Stop::Above)?, place.low);
                    self.memory.freed.push(place.page);
                } else if level > 0 {
                    self.change(at, Change::Body(&[0]));
                }
            }
        }
        Ok(())
    }

    /// Takes the child out that has a key. The next one has its keys from then on, or the one before.
    fn remove_child(&mut self, at: usize, key: u64) {
        let node = Node(self.body(at));
        let (first, _, next) = node.child(key).expect("it came from there");
        let heir = next.and_then(|next| node.child(next));
        self.change(at, Change::Delete(next.unwrap_or(first)));
        if let Some((_, page, _)) = heir {
            self.change(at, Change::Set(first, &page.to_le_bytes()));
        }
    }

    /// Logs what changes as one record, and then makes the changes. Gives the LSN up to which the log
    /// has them.
    pub fn publish(&mut self) -> Result<u64, Stop> {
        let log = self.store.log();
        if self.memory.record.is_empty() {
            return Ok(log.end() - 1);
        }
        // RULES, log before page: first the record, then the pages with its LSN. No checkpoint begins
        // between them: this has the gate.
        let Some(lsn) = log.append(&self.memory.record)? else {
            return Err(Stop::Full(self.start));
        };
        self.lsn = Some(lsn);
        for it in &mut self.pages {
            if let Some(body) = &it.body {
                let head = node::head(self.start, body);
                let put = it.page.put_each(&[(CONTENT, &head), (BODY, body)], lsn);
                log.stop_unless(put).map_err(PagerError::from)?;
            }
        }
        Ok(lsn)
    }
}

impl Drop for Mini<'_> {
    fn drop(&mut self) {
        if thread::panicking() && self.gate.is_some() {
            let failed = Err::<(), _>("a commit panicked");
            let _ = self.store.log().stop_unless(failed);
        }
        let (mut memory, mut pages) = (mem::take(&mut self.memory), mem::take(&mut self.pages));
        memory
            .bodies
            .extend(pages.iter_mut().filter_map(|it| it.body.take()));
        pages.clear();
        // No page is left, and so none of the lifetime: the memory stays.
        memory.pages = pages.into_iter().map(|_| unreachable!()).collect();
        match self.lsn {
            Some(lsn) => self.store.free_by(lsn, &mut memory.freed),
            None => self.store.give_back(&mut memory.taken),
        }
        memory.taken.clear();
        memory.freed.clear();
        memory.record.clear();
        // Once the thread's own objects are gone, the memory is, too.
        let _ = KEPT.try_with(|kept| kept.set(memory));
    }
}
