//! What the pool below and the part do under the part's lock.
use super::{Awaited, Frame, Frames, NONE, State, Work};
use crate::word::{JOIN, PIN, Word};

/// What the pool answers who asks for a page. The number is that of a frame.
#[derive(Clone, Copy, PartialEq, Eq, Debug)]
pub(super) enum Asked {
    Here(u8),
    Load(u8),
    Write(u8),
    NeedLog(u8),
    Busy,
    NoVictim,
}

impl Awaited {
    pub(super) const NOBODY: Awaited = Awaited {
        page: NONE,
        calls: 0,
    };

    /// `Firsts::begin_wait`.
    pub(super) fn begin(&mut self, page: u8) {
        let others = if self.page == page { self.calls } else { 0 };
        *self = Awaited {
            page,
            calls: others + 1,
        };
    }

    /// `Firsts::end_wait`. The frame may be another page's by now.
    pub(super) fn end(&mut self, page: u8) {
        if self.page == page {
            self.calls = self.calls.saturating_sub(1);
        }
        if self.calls == 0 {
            *self = Awaited::NOBODY;
        }
    }

    pub(super) fn is_for(&self, page: u8) -> bool {
        self.calls > 0 && self.page == page
    }
}

impl Frame {
    pub(super) fn is_out(&self) -> bool {
        Word(self.word).is_out()
    }

    /// Whether its pass stays out.
    pub(super) fn is_kept(&self) -> bool {
        self.is_out() && Word(self.word).is_quiet()
    }

    /// `Seat::join` with a pin.
    pub(super) fn join(&mut self) -> Word {
        let before = Word(self.word);
        let join = if before.joins() == 0 { JOIN } else { 0 };
        self.word += PIN + join;
        before
    }

    /// `Part::pinned`: a pin under the lock.
    pub(super) fn pin(&mut self, stays: bool) {
        self.word = match self.is_out() {
            true => self.word + PIN,
            false => Word(self.word).with_pass(stays),
        };
    }

    /// `Part::give_back`.
    pub(super) fn give_back(&mut self) -> bool {
        let closed = Word(self.word).without_pass();
        self.word = closed.unwrap_or(self.word);
        closed.is_some()
    }

    /// `Part::end_use`.
    pub(super) fn end_use(&mut self, keeps: bool) {
        let word = Word(self.word);
        if word.is_over() {
            if keeps && word.joins() > 0 {
                self.word = word.staying();
            } else {
                self.give_back();
            }
        }
    }

    pub(super) fn free(&mut self) {
        self.page = NONE;
        self.work = Work::Nothing;
        self.is_unsaved = false;
    }
}

impl<const THREADS: usize, const FRAMES: usize> State<THREADS, FRAMES> {
    /// The frame in which a page is.
    pub(super) fn frame_of(&self, page: u8) -> Option<u8> {
        let found = self.frames.iter().position(|it| it.page == page);
        let frame = found.filter(|it| self.frames[*it].work != Work::Read)?;
        Some(frame as u8)
    }

    /// Whether a page is in no frame, and nobody reads it.
    pub(super) fn needs_frame(&self, page: u8) -> bool {
        self.frames.iter().all(|it| it.page != page)
    }

    /// Whether nobody works at the device, nor uses a page that is not set aside.
    pub(super) fn is_all_aside(&self) -> bool {
        let out = self.frames.iter().filter(|it| it.is_out()).count();
        self.frames.iter().all(|it| it.work == Work::Nothing) && out <= usize::from(self.aside)
    }

    /// Wakes those that sleep until the work on a page has ended.
    pub(super) fn wake_workers(&mut self, page: u8) {
        for it in &mut self.threads {
            it.is_woken |= it.at == super::At::Working && it.page == page;
        }
    }

    /// Wakes those in line who want a page, or are in a group that wants several.
    pub(super) fn wake_for_page(&mut self, page: u8) {
        let groups = self.line.groups;
        for it in self
            .threads
            .iter_mut()
            .filter(|it| it.at == super::At::Asleep)
        {
            let wanted = groups[it.ticket as usize].page;
            it.is_woken |= wanted == page || wanted == NONE;
        }
    }

    /// `Part::wake_turn`: the states after one of those that wait at a ticket was woken, if there is one, or
    /// all of them.
    pub(super) fn after_waking(mut self, ticket: u8, wakes_all: bool) -> Vec<Self> {
        let waits = |it: &super::Thread| {
            it.at == super::At::Asleep && !it.is_woken && it.ticket == ticket && ticket != NONE
        };
        let waiting: Vec<_> = (0..THREADS)
            .filter(|it| waits(&self.threads[*it]))
            .collect();
        if wakes_all {
            for thread in waiting {
                self.threads[thread].is_woken = true;
            }
            return vec![self];
        }
        let woken = waiting.iter().map(|thread| {
            let mut next = self;
            next.threads[*thread].is_woken = true;
            next
        });
        let woken: Vec<_> = woken.collect();
        if woken.is_empty() { vec![self] } else { woken }
    }
}

impl<const THREADS: usize, const FRAMES: usize> Frames<THREADS, FRAMES> {
    /// All answers of the pool. Which victim it is, and whether all are too young, is any answer.
    pub(super) fn asked(
        &self,
        state: &State<THREADS, FRAMES>,
        page: u8,
        may_be_young: bool,
    ) -> Vec<Asked> {
        if let Some(frame) = state.frame_of(page) {
            return vec![Asked::Here(frame)];
        }
        if !state.needs_frame(page) {
            return vec![Asked::Busy];
        }
        if let Some(free) = state.frames.iter().position(|it| it.page == NONE) {
            return vec![Asked::Load(free as u8)];
        }
        let mut asked = Vec::new();
        for (number, frame) in (0..).zip(&state.frames) {
            if frame.work != Work::Nothing || frame.is_out() {
                continue;
            }
            asked.push(match frame.is_unsaved {
                true => Asked::Write(number),
                false => Asked::Load(number),
            });
            if frame.is_unsaved && !self.logs.is_empty() {
                asked.push(Asked::NeedLog(number));
            }
        }
        if asked.is_empty() || may_be_young {
            asked.push(Asked::NoVictim);
        }
        asked
    }
}
