//! A load of many rows, and the drop of all: pages without records, and pages that nobody wants.
use crate::mini::{Mini, Stop};
use crate::node::{self, BODY, CONTENT};
use crate::tree::pages_below;
use crate::{Error, Result, Store};
use std::mem;

/// Nodes that are filled one after the other, from the leaves up.
struct Load<'a> {
    store: &'a Store,
    /// What is put has the LSN of the newest record.
    lsn: u64,
    /// Of each level the node that is filled, and its first key.
    open: Vec<(Vec<u8>, u64)>,
    /// The pages that were filled, until a record says that they are used.
    pages: Vec<u64>,
}

impl Load<'_> {
    /// Adds an entry to the node of a level. One that is full enough goes into a page, and that into the
    /// node above.
    fn add(&mut self, level: usize, key: u64, value: &[u8]) -> Result<()> {
        if self.open.len() == level {
            self.open.push((vec![level as u8], key));
        }
        // Some room is left, so that not each of the next commits splits a node.
        let most = (self.store.pager.config().page_size - BODY) / 8 * 7;
        if self.open[level].0.len() + node::size_of(value) > most {
            let next = (vec![level as u8], key);
            let (full, first) = mem::replace(&mut self.open[level], next);
            let page = self.fill(&full)?;
            self.add(level + 1, first, &page.to_le_bytes())?;
        }
        let body = &mut self.open[level].0;
        let is_first_child = level > 0 && body.len() == 1;
        node::push(body, if is_first_child { 0 } else { key }, value);
        Ok(())
    }

    /// Puts a body into a free page, without a record. RULES, unlogged.
    fn fill(&mut self, body: &[u8]) -> Result<u64> {
        let number = self.store.take_page()?;
        self.pages.push(number);
        let mut page = self.store.pager.new_page(number)?;
        page.put_unlogged(CONTENT, &node::head(0, body), self.lsn)?;
        page.put_unlogged(BODY, body, self.lsn)?;
        Ok(number)
    }

    /// Fills what is open, but for the node that is to be the root. Gives the body of that.
    fn end(&mut self) -> Result<Vec<u8>> {
        for level in 0.. {
            let Some((body, first)) = self.open.get_mut(level).map(mem::take) else {
                break;
            };
            if level + 1 == self.open.len() {
                return Ok(body);
            }
            let page = self.fill(&body)?;
            self.add(level + 1, first, &page.to_le_bytes())?;
        }
        Ok(vec![0])
    }
}

impl Drop for Load<'_> {
    fn drop(&mut self) {
        self.store.give_back(&mut self.pages);
    }
}

impl Store {
    /// Puts many rows into an empty store, in the order of their keys. Once it returns they are kept.
    /// Their pages are filled without records, and written out before the one record that makes them
    /// the tree: where that is lost, so are all rows.
    ///
    /// # Errors
    /// [`Error::NoRoom`] where the store is not empty, a key is not above the one before, or the pages
    /// or the log are too few. Nothing was changed then.
    pub fn load<V: AsRef<[u8]>>(&self, rows: impl IntoIterator<Item = (u64, V)>) -> Result<()> {
        let mut load = Load {
            store: self,
            lsn: self.log().end() - 1,
            open: Vec::new(),
            pages: Vec::new(),
        };
        let mut last = None;
        for (key, value) in rows {
            if last >= Some(key) {
                return Err(Error::NoRoom("the rows are not in the order of their keys"));
            }
            load.add(0, key, value.as_ref())?;
            last = Some(key);
        }
        let root = load.end()?;
        self.pager.flush_pages(&load.pages)?;
        self.stop_unless_synced(self.pager.sync())?;
        // Redo makes the changes that the log has of a page, also of its life before it was freed. So
        // it has to begin behind them.
        let end = self.log().end();
        while self.log().marked() < end {
            self.checkpoint()?;
        }
        self.replace(&root, |root| match root {
            [0] => Ok(Vec::new()),
            _ => Err(Error::NoRoom("the store is not empty")),
        })?;
        load.pages.clear();
        Ok(())
    }

    /// Drops all rows. Once it returns that is kept, and the pages are free: what they have is never
    /// written out.
    ///
    /// # Errors
    /// As those of a commit.
    pub fn clear(&self) -> Result<()> {
        self.replace(&[0], |root| pages_below(&self.pager, root))?;
        self.reclaim();
        Ok(())
    }

    /// Gives the root another body, while nobody passes it, and has that stay. What looks at the root
    /// before tells which pages are free by it.
    fn replace(&self, body: &[u8], freed: impl Fn(&[u8]) -> Result<Vec<u64>>) -> Result<()> {
        loop {
            let mut mini = Mini::new(self, u8::MAX);
            mini.latch(&[])?;
            let freed = freed(mini.root())?;
            // Not before: who is waited for may have to pass the gate, too.
            mini.pass_gate();
            mini.replace_root(body, &freed);
            let published = mini.publish();
            drop(mini);
            match published {
                Ok(lsn) => return self.make_durable(lsn),
                Err(Stop::Failed(error)) => return Err(error),
                Err(_) => self.checkpoint()?,
            }
        }
    }
}
