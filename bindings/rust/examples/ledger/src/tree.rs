//! Look-ups in the B+tree, by coupled latches.
//!
//! Who goes through the tree latches pages in one order: a node before its children, and what is left
//! before what is right, as a walk through all of it meets them. So no two threads wait for each other. A
//! node is let go once the latch of its child is there: nobody comes between, and so a child that was
//! split or freed is never looked at by an old number.
use crate::node::{self, Node};
use crate::store::Files;
use crate::{Result, Store, bad};
use hojzmated::{PageRef, Pager};

/// The page of the root, always.
pub const ROOT: u64 = 1;

/// A node's place in the tree: its page, its level, its first key and that of the next node.
#[derive(Clone, Copy)]
pub struct Place {
    pub page: u64,
    pub level: u8,
    pub low: u64,
    pub high: Option<u64>,
}

impl Place {
    /// The place of the root, which has this image.
    pub fn of_root(image: &[u8]) -> Result<Place> {
        let (page, low, high) = (ROOT, 0, None);
        match Node(node::body(image)).level() {
            Some(level) => Ok(Place {
                page,
                level,
                low,
                high,
            }),
            None => misplaced(page),
        }
    }

    /// The place of the child that has a key, by the node's image.
    pub fn child(self, image: &[u8], key: u64) -> Result<Place> {
        let Some((first, page, next)) = Node(node::body(image)).child(key) else {
            return misplaced(self.page);
        };
        Ok(Place {
            page,
            level: self.level - 1,
            low: first.max(self.low),
            high: next.or(self.high),
        })
    }

    /// Looks whether the node with this image has the level of the place.
    pub fn check(self, image: &[u8]) -> Result<()> {
        match Node(node::body(image)).level() {
            Some(level) if level == self.level => Ok(()),
            _ => misplaced(self.page),
        }
    }

    /// Whether the node has the key, if any has.
    pub fn has(self, key: u64) -> bool {
        self.low <= key && self.high.is_none_or(|high| key < high)
    }
}

pub fn misplaced<T>(page: u64) -> Result<T> {
    bad(format!("page {page} is not where it belongs in the tree"))
}

/// Lists the pages below the root, which nobody passes meanwhile, once nobody is at any of them.
pub fn pages_below(pager: &Pager<Files>, root: &[u8]) -> Result<Vec<u64>> {
    let (mut pages, mut begin) = (Vec::new(), 0);
    pages.extend(Node(root).children().map(|it| it.1));
    for level in (0..root[0]).rev() {
        let end = pages.len();
        for at in begin..end {
            // Who is at a leaf has it in a frame.
            if level > 0 || pager.is_resident(pages[at]) {
                let page = pager.write(pages[at])?;
                let node = Node(node::body(page.bytes()));
                pages.extend(node.children().map(|it| it.1));
            }
        }
        begin = end;
    }
    Ok(pages)
}

impl Store {
    /// The leaf of a key, under its shared latch, and where the keys of the next leaf begin.
    fn leaf(&self, key: u64) -> Result<(PageRef<'_>, Option<u64>)> {
        let mut page = self.pager.read(ROOT)?;
        let mut place = Place::of_root(&page)?;
        while place.level > 0 {
            place = place.child(&page, key)?;
            let below = self.pager.read(place.page)?;
            place.check(&below)?;
            page = below;
        }
        Ok((page, place.high))
    }

    /// Looks at the value of a key in its page, without a copy. It may be of a transaction that is not
    /// kept yet. The page is latched meanwhile: the function does not use the store.
    pub fn look<T>(&self, key: u64, look: impl FnOnce(Option<&[u8]>) -> T) -> Result<T> {
        let (leaf, _) = self.leaf(key)?;
        Ok(look(Node(node::body(&leaf)).get(key)))
    }

    /// The value of a key, as [`look`](Store::look) finds it.
    pub fn get(&self, key: u64) -> Result<Option<Vec<u8>>> {
        self.look(key, |value| value.map(<[u8]>::to_vec))
    }

    /// The entries from a key on, so many at most. What a leaf has is of one moment, and other
    /// leaves may change meanwhile.
    pub fn scan(&self, from: u64, most: usize) -> Result<Vec<(u64, Vec<u8>)>> {
        let (mut found, mut from) = (Vec::new(), Some(from));
        while let Some(key) = from.filter(|_| found.len() < most) {
            let (leaf, next) = self.leaf(key)?;
            let entries = Node(node::body(&leaf)).entries().filter(|it| it.0 >= key);
            let owned = entries.map(|(key, value)| (key, value.to_vec()));
            found.extend(owned.take(most - found.len()));
            from = next;
        }
        Ok(found)
    }
}
