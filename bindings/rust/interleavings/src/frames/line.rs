//! The line of calls that wait for a frame.
use super::NONE;

pub(super) const MOST: usize = 3;

#[derive(Clone, Copy, PartialEq, Eq, Hash, PartialOrd, Ord, Debug)]
pub(super) struct Group {
    pub(super) count: u8,
    /// The page that all of them want. None where they want several.
    pub(super) page: u8,
}

const EMPTY: Group = Group {
    count: 0,
    page: NONE,
};

/// Tickets stand for themselves but for a multiple of the number of groups.
#[derive(Clone, Copy, PartialEq, Eq, Hash, PartialOrd, Ord)]
pub(super) struct Line {
    pub(super) first: u8,
    /// So many tickets are in line.
    pub(super) len: u8,
    pub(super) groups: [Group; MOST],
}

impl Default for Line {
    fn default() -> Line {
        Line {
            first: 0,
            len: 0,
            groups: [EMPTY; MOST],
        }
    }
}

impl Line {
    pub(super) fn is_empty(&self) -> bool {
        self.len == 0
    }

    pub(super) fn count(&self) -> usize {
        self.groups.iter().map(|it| usize::from(it.count)).sum()
    }

    /// The first ticket, if a call has it.
    pub(super) fn turn(&self) -> u8 {
        if self.is_empty() { NONE } else { self.first }
    }

    pub(super) fn join_behind(&mut self, page: u8, groups: u8) -> u8 {
        let place = self.len.min(groups - 1);
        self.len = place + 1;
        let ticket = (self.first + place) % groups;
        let group = &mut self.groups[ticket as usize];
        group.page = if group.count == 0 { page } else { NONE };
        group.count += 1;
        ticket
    }

    pub(super) fn join_first(&mut self, page: u8, groups: u8) -> u8 {
        if self.is_empty() {
            return self.join_behind(page, groups);
        }
        let group = &mut self.groups[self.first as usize];
        group.count += 1;
        group.page = NONE;
        self.first
    }

    pub(super) fn leave(&mut self, ticket: u8, groups: u8, moves: bool) {
        self.groups[ticket as usize].count -= 1;
        while moves && self.len > 0 && self.groups[self.first as usize].count == 0 {
            self.groups[self.first as usize] = EMPTY;
            self.first = (self.first + 1) % groups;
            self.len -= 1;
        }
    }

    pub(super) fn fault(&self) -> Option<&'static str> {
        let is_headless = !self.is_empty() && self.groups[self.first as usize].count == 0;
        is_headless.then_some("calls are in line, and none of them is first")
    }

    /// With the ticket that is first as 0.
    pub(super) fn turned(&self, groups: u8) -> Line {
        let mut turned = Line { first: 0, ..*self };
        for place in 0..groups {
            turned.groups[place as usize] = self.groups[((self.first + place) % groups) as usize];
        }
        turned
    }
}

impl std::fmt::Debug for Line {
    fn fmt(&self, f: &mut std::fmt::Formatter<'_>) -> std::fmt::Result {
        for place in 0..self.len {
            let ticket = (self.first + place) % MOST as u8;
            let group = self.groups[ticket as usize];
            write!(f, "[{}: {} for {}]", ticket, group.count, group.page as i8)?;
        }
        Ok(())
    }
}
