//! What a record of the log says: changes of pages, one after the other. A commit and redo make them by
//! the same functions.
use crate::node::{self, half, word};

/// A change of a page's body.
#[derive(Clone, Copy)]
pub enum Change<'a> {
    /// It is this, whatever it was: redo needs no older one.
    Body(&'a [u8]),
    /// The key has this value.
    Set(u64, &'a [u8]),
    /// The key goes.
    Delete(u64),
    /// The keys from this one on go.
    Cut(u64),
}

/// A change begins with the number of the page, its kind, a key, and how many bytes follow.
const HEAD: usize = 19;

impl<'a> Change<'a> {
    /// Adds the change to a record.
    pub fn add(self, page: u64, record: &mut Vec<u8>) {
        let (kind, key, bytes) = match self {
            Change::Body(body) => (0, 0, body),
            Change::Set(key, value) => (1, key, value),
            Change::Delete(key) => (2, key, &[][..]),
            Change::Cut(key) => (3, key, &[][..]),
        };
        record.extend_from_slice(&page.to_le_bytes());
        record.push(kind);
        record.extend_from_slice(&key.to_le_bytes());
        record.extend_from_slice(&(bytes.len() as u16).to_le_bytes());
        record.extend_from_slice(bytes);
    }

    /// Takes the first change from a record, with its page. None where it is none.
    pub fn take(record: &mut &'a [u8]) -> Option<(u64, Change<'a>)> {
        let (head, rest) = record.split_at_checked(HEAD)?;
        let (bytes, rest) = rest.split_at_checked(half(head, HEAD - 2))?;
        *record = rest;
        let key = word(head, 9);
        let change = match head[8] {
            0 => Change::Body(bytes),
            1 => Change::Set(key, bytes),
            2 => Change::Delete(key),
            3 => Change::Cut(key),
            _ => return None,
        };
        Some((word(head, 0), change))
    }

    /// Makes the change. None where the body is not that of a node.
    pub fn make(self, body: &mut Vec<u8>) -> Option<()> {
        let is_node = !body.is_empty();
        match self {
            Change::Body(new) => {
                body.clear();
                body.extend_from_slice(new);
            }
            Change::Set(key, value) if is_node => node::set(body, key, value),
            Change::Delete(key) if is_node => node::delete(body, key),
            Change::Cut(key) if is_node => node::cut(body, key),
            _ => return None,
        }
        Some(())
    }
}
