//! A page as a list of keys with values, in order, with nothing between them.
//!
//! A page begins with its page LSN and its checksum, which are stamped as it goes out. Then come the
//! length of its body, and since when the log has all of that. The body of a node begins with its
//! level, 0 for a leaf. In an inner node a value is the page of a child, which has the keys from the
//! entry's key on. The first key there is 0, as the first child has all keys below the second's.
use crate::sum::crc32c;
use std::ops::Range;
use std::{array, iter};

pub const LSN: usize = 0;
pub const SUM: usize = 8;
/// Where what is not stamped begins: the length first.
pub const CONTENT: usize = 12;
pub const SINCE: usize = 16;
pub const BODY: usize = 24;

/// An entry begins with its key and the length of its value.
const HEAD: usize = 10;
/// An entry of an inner node.
const CHILD: usize = HEAD + 8;

pub fn word(bytes: &[u8], at: usize) -> u64 {
    u64::from_le_bytes(array::from_fn(|byte| bytes[at + byte]))
}

pub fn half(bytes: &[u8], at: usize) -> usize {
    usize::from(u16::from_le_bytes([bytes[at], bytes[at + 1]]))
}

/// The body of a page, which has none where it was never written to.
pub fn body(page: &[u8]) -> &[u8] {
    &page[BODY..][..half(page, CONTENT)]
}

/// What a page has before its body, from [`CONTENT`] on.
pub fn head(since: u64, body: &[u8]) -> [u8; BODY - CONTENT] {
    let mut head = [0; BODY - CONTENT];
    head[..4].copy_from_slice(&(body.len() as u32).to_le_bytes());
    head[4..].copy_from_slice(&since.to_le_bytes());
    head
}

/// The checksum of a page, which is another one in another's place.
pub fn sum_of(page: u64, image: &[u8]) -> [u8; 4] {
    crc32c(&[&page.to_le_bytes(), &image[..SUM], &image[CONTENT..]]).to_le_bytes()
}

pub fn stamp(page: u64, image: &mut [u8], lsn: u64) {
    image[LSN..SUM].copy_from_slice(&lsn.to_le_bytes());
    let sum = sum_of(page, image);
    image[SUM..CONTENT].copy_from_slice(&sum);
}

/// The body of a node, which is looked at.
#[derive(Clone, Copy)]
pub struct Node<'a>(pub &'a [u8]);

impl<'a> Node<'a> {
    /// 0 for a leaf. A page without a body is none.
    pub fn level(self) -> Option<u8> {
        self.0.first().copied()
    }

    pub fn entries(self) -> impl Iterator<Item = (u64, &'a [u8])> {
        let mut rest = self.0.get(1..).unwrap_or_default();
        iter::from_fn(move || {
            let (head, behind) = rest.split_at_checked(HEAD)?;
            let (value, behind) = behind.split_at_checked(half(head, 8))?;
            rest = behind;
            Some((word(head, 0), value))
        })
    }

    /// Where the entry of a key is, or where it would begin.
    fn place(self, key: u64) -> Range<usize> {
        let mut place = 1..1;
        for (other, value) in self.entries().take_while(|it| it.0 <= key) {
            let end = place.end + HEAD + value.len();
            place = if other == key { place.end } else { end }..end;
        }
        place
    }

    pub fn get(self, key: u64) -> Option<&'a [u8]> {
        let place = self.place(key);
        self.0.get(place.start + HEAD..place.end)
    }

    /// The entries of an inner node, which are of one size. A leaf has none of them.
    fn of_children(self) -> &'a [[u8; CHILD]] {
        match self
            .0
            .split_first()
            .map(|(level, rest)| (level, rest.as_chunks()))
        {
            Some((1.., (entries, []))) => entries,
            _ => &[],
        }
    }

    /// The children, each with its first key.
    pub fn children(self) -> impl Iterator<Item = (u64, u64)> {
        let entries = self.of_children().iter();
        entries.map(|it| (word(it, 0), word(it, HEAD)))
    }

    /// The first key of the child that has a key, its page, and the first key of the next child.
    pub fn child(self, key: u64) -> Option<(u64, u64, Option<u64>)> {
        let entries = self.of_children();
        let next = entries.partition_point(|it| word(it, 0) <= key);
        let own = entries.get(next.checked_sub(1)?)?;
        let first_of_next = entries.get(next).map(|it| word(it, 0));
        Some((word(own, 0), word(own, HEAD), first_of_next))
    }

    /// The first key of the upper half, by bytes. Each half is smaller than a page, as an entry has 266
    /// bytes at most and a page 1,024 or more.
    pub fn middle(self) -> u64 {
        let mut end = 1;
        let mut entries = self.entries();
        let is_beyond = |(_, value): &(u64, &[u8])| {
            end += HEAD + value.len();
            end > self.0.len() / 2
        };
        entries.find(is_beyond).map_or(0, |it| it.0)
    }
}

/// Puts a value in the place of a key's.
pub fn set(body: &mut Vec<u8>, key: u64, value: &[u8]) {
    let (place, size) = (Node(body).place(key), body.len());
    let end = place.start + HEAD + value.len();
    body.resize(size.max(size + end - place.end), 0);
    body.copy_within(place.end..size, end);
    body.truncate(size + end - place.end);
    let entry = &mut body[place.start..end];
    entry[..8].copy_from_slice(&key.to_le_bytes());
    entry[8..HEAD].copy_from_slice(&(value.len() as u16).to_le_bytes());
    entry[HEAD..].copy_from_slice(value);
}

/// How many bytes an entry has with this value.
pub fn size_of(value: &[u8]) -> usize {
    HEAD + value.len()
}

/// Adds an entry behind all others.
pub fn push(body: &mut Vec<u8>, key: u64, value: &[u8]) {
    body.extend_from_slice(&key.to_le_bytes());
    body.extend_from_slice(&(value.len() as u16).to_le_bytes());
    body.extend_from_slice(value);
}

/// Takes a key out.
pub fn delete(body: &mut Vec<u8>, key: u64) {
    body.drain(Node(body).place(key));
}

/// Drops the entries from a key on.
pub fn cut(body: &mut Vec<u8>, key: u64) {
    body.truncate(Node(body).place(key).start);
}

/// Adds the entries from a key on to the body of a node of the same level.
pub fn add_upper(body: &[u8], key: u64, upper: &mut Vec<u8>) {
    upper.push(body[0]);
    upper.extend_from_slice(&body[Node(body).place(key).start..]);
    if body[0] > 0 {
        upper[1..9].fill(0);
    }
}
