//! `Store::verify`: looks whether the tree is whole, and all other pages are free.
use crate::node::{self, Node};
use crate::tree::{Place, ROOT, misplaced};
use crate::{Result, Store, bad};

impl Store {
    /// Looks at each page of the tree, and gives their numbers in one line. Keys are in order, and in the
    /// leaf where they are looked for. Each page is at one place of the tree, or is free. Nobody commits
    /// meanwhile.
    pub fn verify(&self) -> Result<String> {
        let mut nodes = vec![Place::of_root(&self.pager.read(ROOT)?)?];
        let mut pages = vec![0];
        loop {
            let (mut keys, mut below) = (0, Vec::new());
            for place in &nodes {
                keys += self.look_at(*place, &mut below)?;
                pages.push(place.page);
            }
            if below.is_empty() {
                let (leaves, inner) = (nodes.len(), pages.len() - 1 - nodes.len());
                let space = self.space.lock().unwrap();
                pages.extend(space.pages());
                pages.sort_unstable();
                if !pages.into_iter().eq(0..self.pager.config().pages) {
                    return bad("a page is lost, or in two places");
                }
                let free = space.pages().count();
                return Ok(format!(
                    "{keys} keys in {leaves} leaves under {inner} nodes, {free} free pages"
                ));
            }
            nodes = below;
        }
    }

    /// Looks at a node, adds its children, and gives how many entries it has.
    fn look_at(&self, place: Place, below: &mut Vec<Place>) -> Result<usize> {
        let image = self.pager.read(place.page)?;
        place.check(&image)?;
        let node = Node(node::body(&image));
        let keys: Vec<u64> = node.entries().map(|it| it.0).collect();
        // The first key of an inner node is 0.
        let is_within = keys
            .iter()
            .skip(usize::from(place.level > 0))
            .all(|key| place.has(*key));
        let is_empty = keys.is_empty() && place.page != ROOT;
        if is_empty || !is_within || !keys.is_sorted_by(|one, next| one < next) {
            return misplaced(place.page);
        }
        for key in keys.iter().filter(|_| place.level > 0) {
            below.push(place.child(&image, *key)?);
        }
        Ok(keys.len())
    }
}
