//! States that differ by the names of threads, frames and pages alone are one.
use super::{Awaited, Frame, NONE, State, Thread};

const MOST_PAGES: usize = 4;

/// New names of frames and pages, and by how much tickets are turned.
struct Names<const FRAMES: usize> {
    frames: [u8; FRAMES],
    pages: [u8; MOST_PAGES],
    first: u8,
    groups: u8,
}

impl<const FRAMES: usize> Names<FRAMES> {
    fn new<const THREADS: usize>(
        order: &[u8; FRAMES],
        state: &State<THREADS, FRAMES>,
        groups: u8,
    ) -> Names<FRAMES> {
        let mut frames = [0; FRAMES];
        for (name, frame) in (0..).zip(order) {
            frames[*frame as usize] = name;
        }
        Names {
            frames,
            pages: [NONE; MOST_PAGES],
            first: state.line.first,
            groups,
        }
    }

    /// Names the pages that are in frames, and then the others. Returns how many are.
    fn name_residents(&mut self, residents: [u8; FRAMES], pages: u8) -> u8 {
        let mut count = 0;
        for page in residents.into_iter().filter(|it| *it != NONE) {
            self.pages[page as usize] = count;
            count += 1;
        }
        let rest = self.pages[..pages as usize]
            .iter_mut()
            .filter(|it| **it == NONE);
        for (name, page) in (count..).zip(rest) {
            *page = name;
        }
        count
    }

    /// The next names of the pages that are in no frame.
    fn advance(&mut self, residents: u8, pages: u8) -> bool {
        let mut rest = [NONE; MOST_PAGES];
        let mut count = 0;
        let others = |it: &&u8| **it >= residents && **it != NONE;
        for name in self.pages[..pages as usize].iter().filter(others) {
            rest[count] = *name;
            count += 1;
        }
        let has_more = advance(&mut rest[..count]);
        let mut next = rest.into_iter();
        for name in self.pages[..pages as usize]
            .iter_mut()
            .filter(|it| **it >= residents)
        {
            *name = next.next().unwrap_or(NONE);
        }
        has_more
    }

    fn page(&self, page: u8) -> u8 {
        if page == NONE {
            NONE
        } else {
            self.pages[page as usize]
        }
    }

    fn frame(&self, frame: u8) -> u8 {
        if frame == NONE {
            NONE
        } else {
            self.frames[frame as usize]
        }
    }

    fn set(&self, frames: u8) -> u8 {
        let frames = (0..FRAMES as u8).filter(|it| frames & (1 << it) != 0);
        frames.map(|it| 1 << self.frame(it)).sum()
    }

    fn ticket(&self, ticket: u8) -> u8 {
        if ticket == NONE {
            NONE
        } else {
            (ticket + self.groups - self.first) % self.groups
        }
    }

    fn thread(&self, thread: &Thread) -> Thread {
        Thread {
            page: self.page(thread.page),
            frame: self.frame(thread.frame),
            had: self.frame(thread.had),
            loads: self.frame(thread.loads),
            ticket: self.ticket(thread.ticket),
            aside: self.set(thread.aside),
            seen: self.set(thread.seen),
            ..*thread
        }
    }

    fn state<const THREADS: usize>(
        &self,
        state: &State<THREADS, FRAMES>,
    ) -> State<THREADS, FRAMES> {
        let mut named = *state;
        for (number, frame) in state.frames.iter().enumerate() {
            let awaited = Awaited {
                page: self.page(frame.awaited.page),
                ..frame.awaited
            };
            named.frames[self.frames[number] as usize] = Frame {
                page: self.page(frame.page),
                awaited,
                ..*frame
            };
        }
        named.line = state.line.turned(self.groups);
        for group in &mut named.line.groups {
            group.page = self.page(group.page);
        }
        for (to, thread) in named.threads.iter_mut().zip(&state.threads) {
            *to = self.thread(thread);
        }
        named.threads.sort_unstable();
        named
    }
}

/// The least of the states that differ from one by names alone, of those whose frames are in order and whose
/// pages are named in the order in which they are in frames.
pub(super) fn least<const THREADS: usize, const FRAMES: usize>(
    pages: u8,
    groups: u8,
    state: &State<THREADS, FRAMES>,
) -> State<THREADS, FRAMES> {
    let mut least = None;
    let mut order: [u8; FRAMES] = std::array::from_fn(|it| it as u8);
    loop {
        let in_order = order.map(|it| &state.frames[it as usize]);
        if in_order.is_sorted_by_key(|it| (it.word, it.page == NONE, it.work, it.is_unsaved)) {
            let mut names = Names::new(&order, state, groups);
            let resident = names.name_residents(in_order.map(|it| it.page), pages);
            loop {
                let named = names.state(state);
                least = Some(least.map_or(named, |it: State<_, _>| it.min(named)));
                if !names.advance(resident, pages) {
                    break;
                }
            }
        }
        if !advance(&mut order) {
            return least.unwrap_or(*state);
        }
    }
}

/// The next permutation, after the last one the first.
fn advance(names: &mut [u8]) -> bool {
    let Some(at) = (1..names.len()).rev().find(|at| names[at - 1] < names[*at]) else {
        names.reverse();
        return false;
    };
    let less = names[at - 1];
    let to = (at..names.len())
        .rev()
        .find(|it| names[*it] > less)
        .unwrap_or(at);
    names.swap(at - 1, to);
    names[at..].reverse();
    true
}
