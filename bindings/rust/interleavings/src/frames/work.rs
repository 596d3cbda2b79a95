//! The ends of device work, flushes, and discards.
use super::steps::{Next, Steps};
use super::{At, Kind, NONE, Then, Thread, Weakness, Work};
use crate::word::{PIN, Word};

impl<const THREADS: usize, const FRAMES: usize> Steps<'_, THREADS, FRAMES> {
    pub(super) fn end_read(&mut self) {
        let (me, number) = (self.me, self.me.loads);
        for is_good in self.model.reads {
            let mut next = *self.state;
            let frame = &mut next.frames[number as usize];
            frame.work = Work::Nothing;
            if *is_good {
                frame.pin(me.kind == Kind::Ahead);
                next.wake_workers(me.page);
                if !self.is(Weakness::ReadWakesNobody) {
                    next.wake_for_page(me.page);
                }
                let mut me = me.returned(number, NONE);
                if me.kind == Kind::Ahead {
                    next.is_locked = true;
                    me = me.to(At::Keeping);
                }
                self.add("ends its read", me, next);
            } else {
                frame.free();
                next.wake_workers(me.page);
                let me = Thread {
                    then: Then::Return,
                    loads: NONE,
                    ..self.to_wake(me)
                };
                self.add("fails to read", me, next);
            }
        }
    }

    /// `Part::keep_ahead`: the pin of a page that was read ahead goes under the lock. Others may have joined.
    pub(super) fn keep_ahead(&mut self) {
        let mut next = *self.state;
        let frame = &mut next.frames[self.me.had as usize];
        frame.word = Word(frame.word).without(PIN).0;
        frame.end_use(self.model.keeps);
        next.is_locked = false;
        self.add("keeps the page", self.to_wake(Thread::default()), next);
    }

    /// `Pager::write_victim`: the frame of a page that was written out is not given away meanwhile,
    /// unless the lock has to be opened for a buffer.
    pub(super) fn end_write(&mut self) {
        let ended = self.me.at_frame(At::Coming, NONE);
        for is_good in self.model.writes {
            let mut next = *self.state;
            let frame = &mut next.frames[self.me.frame as usize];
            frame.work = Work::Nothing;
            frame.is_unsaved |= !is_good;
            let victim = frame.page;
            // A read ahead is given up then.
            let is_ahead = self.me.kind == Kind::Ahead;
            if !is_good && !is_ahead {
                self.set_aside(next);
            }
            next.wake_workers(victim);
            if !is_good {
                let me = Thread {
                    then: Then::Return,
                    ..self.to_wake(ended)
                };
                self.push("panics as it writes, or gives up", is_ahead, me, next);
                continue;
            }
            for next in self.after_waking_first(next) {
                self.ask(next, ended, true);
                self.push("opens the lock", false, ended, next);
            }
        }
    }

    /// `Pager::log_victim`.
    pub(super) fn end_log(&mut self) {
        let ended = self.me.at_frame(At::Coming, NONE);
        let frame = &self.state.frames[self.me.frame as usize];
        let is_free = frame.page != NONE && frame.work == Work::Nothing && !frame.is_out();
        for is_good in self.model.logs {
            if *is_good {
                self.ask(*self.state, ended, true);
            } else if is_free && frame.is_unsaved {
                self.set_aside(*self.state);
            } else {
                let has_fault = true;
                self.ask(*self.state, Thread { has_fault, ..ended }, true);
            }
        }
    }

    /// `Part::set_aside`, of the page of the frame at which it works.
    fn set_aside(&mut self, mut next: Next<THREADS, FRAMES>) {
        let number = self.me.frame;
        let frame = &mut next.frames[number as usize];
        let victim = frame.page;
        frame.pin(self.model.keeps);
        next.aside += 1;
        next.wake_workers(victim);
        let me = Thread {
            aside: self.me.aside | 1 << number,
            has_fault: true,
            ..self.me.at_frame(At::Coming, NONE)
        };
        for next in self.after_waking_first(next) {
            self.add("sets the page aside", me, next);
        }
    }

    /// `Pager::take_out`. A page that is to be discarded once its write-out ends is not written out
    /// once more before.
    pub(super) fn flush(&mut self, me: Thread) {
        let mut next = *self.state;
        let unsaved = next.frame_of(me.page).filter(|it| {
            let frame = &next.frames[*it as usize];
            frame.is_unsaved
        });
        let Some(number) = unsaved else {
            return self.add("finds the page saved", Thread::default(), next);
        };
        let frame = &mut next.frames[number as usize];
        let stands_back = frame.awaited.is_for(me.page);
        if frame.work == Work::Write || stands_back {
            let me = Thread::of(Kind::Flush, me.page, At::Working);
            return self.add("sleeps for the work", me, next);
        }
        (frame.work, frame.is_unsaved) = (Work::Write, false);
        let me = Thread {
            frame: number,
            ..Thread::of(Kind::Flush, me.page, At::Flushing)
        };
        self.add("begins a flush", me, next);
    }

    pub(super) fn end_flush(&mut self) {
        for is_good in self.model.writes {
            let mut next = *self.state;
            let frame = &mut next.frames[self.me.frame as usize];
            frame.work = Work::Nothing;
            frame.is_unsaved |= !is_good;
            next.wake_workers(self.me.page);
            self.add("ends its flush", self.to_wake(Thread::default()), next);
        }
    }

    /// `Part::discard`, with the lock, from its loop's begin.
    pub(super) fn discard(&mut self, mut next: Next<THREADS, FRAMES>) {
        next.is_locked = false;
        let me = Thread::of(Kind::Discard, self.me.page, At::Working);
        let Some(number) = next.frame_of(me.page) else {
            return match next.needs_frame(me.page) {
                true => self.add("finds it away", Thread::default(), next),
                false => self.add("sleeps for the work", me, next),
            };
        };
        let frame = &mut next.frames[number as usize];
        if frame.is_out() && !frame.give_back() {
            next.waiting += 1;
            next.is_locked = true;
            return self.add("is to wait for the page", me.to(At::LookingToDiscard), next);
        }
        if frame.work != Work::Nothing {
            frame.awaited.begin(me.page);
            let me = Thread {
                frame: number,
                ..me
            };
            return self.add("sleeps for the work", me, next);
        }
        frame.free();
        self.add("discards", self.to_wake(Thread::default()), next);
    }

    /// `Part::wait_to_discard`, once the work has ended: it waits for the page a moment more, and flushes
    /// stand back for that time too.
    pub(super) fn discard_after_work(&mut self) {
        let mut next = *self.state;
        if self.me.frame == NONE {
            return self.discard(next);
        }
        next.waiting += 1;
        next.is_locked = true;
        self.add(
            "is to wait for the page",
            self.me.to(At::LookingToDiscard),
            next,
        );
    }

    pub(super) fn look_to_discard(&mut self) {
        let mut next = *self.state;
        let has_come = next.frame_of(self.me.page).is_none_or(|number| {
            let frame = &mut next.frames[number as usize];
            !frame.is_out() || frame.give_back()
        });
        if has_come {
            return self.stop_waiting(next);
        }
        next.is_locked = false;
        let me = self.me.to(At::AsleepToDiscard);
        self.add("sleeps for the page", me, next);
    }

    pub(super) fn wake_to_discard(&mut self) {
        let mut next = *self.state;
        if self.me.frame == NONE {
            next.waiting -= 1;
            self.push("is refused", false, Thread::default(), next);
        }
        self.stop_waiting(*self.state);
    }

    /// It waits for the page no more, nor do flushes stand back for it, and it tries again.
    fn stop_waiting(&mut self, mut next: Next<THREADS, FRAMES>) {
        next.waiting -= 1;
        if self.me.frame != NONE {
            let awaited = &mut next.frames[self.me.frame as usize].awaited;
            awaited.end(self.me.page);
            if !self.is(Weakness::DiscardWakesNobody) {
                next.wake_workers(self.me.page);
            }
        }
        self.discard(next);
    }
}
