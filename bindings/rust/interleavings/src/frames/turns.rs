//! How a call finds a frame for its page: `fix` and `go_on` of `fixing.rs`, and the line.
use super::pool::Asked;
use super::steps::{Next, Steps};
use super::{At, Kind, NONE, Thread, Weakness, Work};

impl<const THREADS: usize, const FRAMES: usize> Steps<'_, THREADS, FRAMES> {
    /// `Pager::fix`, or `Part::ask_in_turn` of a later round.
    pub(super) fn come(&mut self, me: Thread) {
        self.come_to(*self.state, me);
        let dropped = self
            .state
            .frame_of(me.page)
            .filter(|_| me.kind == Kind::New);
        if let Some(number) = dropped {
            let mut next = *self.state;
            let frame = &mut next.frames[number as usize];
            // `Part::drop_ahead`, of a page that was read ahead.
            if frame.is_kept() && frame.work == Work::Nothing && frame.give_back() {
                frame.free();
                self.come_to(next, me);
            }
        }
    }

    fn come_to(&mut self, state: Next<THREADS, FRAMES>, me: Thread) {
        if me.had_turn || state.line.is_empty() || !state.needs_frame(me.page) {
            return self.ask(state, me, true);
        }
        if me.kind == Kind::Ahead {
            return self.refuse(state, me, true);
        }
        for is_closed in self.model.closed {
            match (is_closed, me.kind) {
                (false, _) => self.ask(state, me, true),
                (true, Kind::Try) => self.refuse(state, me, true),
                (true, _) => self.join_line(state, me, false),
            }
        }
    }

    /// Asks the pool, and goes on with what it answers.
    pub(super) fn ask(&mut self, state: Next<THREADS, FRAMES>, me: Thread, is_first: bool) {
        for asked in self.model.asked(&state, me.page, is_first) {
            match asked {
                Asked::NoVictim | Asked::NeedLog(_) if me.kind == Kind::Ahead => {
                    self.refuse(state, me, true);
                }
                Asked::NoVictim if is_first => self.look(state, Thread { seen: 0, ..me }),
                Asked::NoVictim => self.find_no_victim(state, me),
                other => self.go_on(state, me, other),
            }
        }
    }

    /// `Part::look`: gives passes back that nobody uses, one by one, and asks again.
    fn look(&mut self, mut state: Next<THREADS, FRAMES>, me: Thread) {
        let is_left = |it: &u8| me.seen & (1 << it) == 0 && state.frames[*it as usize].is_kept();
        if (0..FRAMES as u8).any(|it| is_left(&it)) {
            state.is_locked = true;
            return self.add("looks for passes", me.to(At::Scanning), state);
        }
        state.is_locked = false;
        self.ask(state, Thread { seen: 0, ..me }, false);
    }

    /// One word of those.
    pub(super) fn scan(&mut self) {
        for number in 0..FRAMES as u8 {
            let mut next = *self.state;
            let frame = &mut next.frames[number as usize];
            if self.me.seen & (1 << number) == 0 && frame.is_kept() {
                frame.give_back();
                let seen = self.me.seen | 1 << number;
                self.look(next, Thread { seen, ..self.me });
            }
        }
    }

    /// `Pager::go_on`, once the pool has answered.
    fn go_on(&mut self, mut state: Next<THREADS, FRAMES>, mut me: Thread, asked: Asked) {
        if self.is(Weakness::SleepsInLine) && asked == Asked::Busy && me.ticket != NONE {
            let me = Thread {
                is_woken: false,
                ..me
            };
            return self.add("sleeps for the work", me.to(At::Working), state);
        }
        let takes = matches!(asked, Asked::Load(_) | Asked::Write(_));
        let is_next = me.had_turn || state.line.is_empty() || state.line.turn() == me.ticket;
        state.has_overtaken |= takes && !is_next && self.model.closed == [true];
        for state in self.leave_line(state, &mut me) {
            self.begin(state, me, asked);
        }
    }

    /// Begins what the pool asks for, and opens the lock.
    fn begin(&mut self, mut state: Next<THREADS, FRAMES>, me: Thread, asked: Asked) {
        let of_victim = Thread {
            had_turn: true,
            ..me
        };
        match asked {
            Asked::Here(number) => {
                state.frames[number as usize].pin(self.model.keeps);
                self.add("pins", me.returned(number, NONE), state);
            }
            Asked::Load(number) => {
                let frame = &mut state.frames[number as usize];
                (frame.page, frame.work, frame.is_unsaved) = (me.page, Work::Read, false);
                self.add("begins a read", me.returned(NONE, number), state);
            }
            Asked::Write(number) => {
                let frame = &mut state.frames[number as usize];
                (frame.work, frame.is_unsaved) = (Work::Write, false);
                let me = of_victim.at_frame(At::Writing, number);
                self.add("begins a write-out", me, state);
            }
            Asked::NeedLog(number) => {
                let me = of_victim.at_frame(At::Logging, number);
                self.add("makes the log durable", me, state);
            }
            Asked::Busy => {
                let me = me.at_frame(At::Working, NONE);
                self.add("sleeps for the work", me, state);
            }
            Asked::NoVictim => {}
        }
    }

    /// Leaves the line, if it is there, and wakes who is first then if it was that.
    fn leave_line(
        &self,
        mut state: Next<THREADS, FRAMES>,
        me: &mut Thread,
    ) -> Vec<Next<THREADS, FRAMES>> {
        let ticket = std::mem::replace(&mut me.ticket, NONE);
        if ticket == NONE {
            return vec![state];
        }
        // It is asleep no more.
        state.threads[self.thread].at = At::Idle;
        let was_first = state.line.turn() == ticket;
        let moves = !self.is(Weakness::StaysAtEmptyGroup);
        state.line.leave(ticket, self.model.groups, moves);
        state.waiting -= 1;
        me.had_turn |= was_first;
        if !was_first || self.is(Weakness::LeavesSilently) {
            return vec![state];
        }
        self.after_waking_first(state)
    }

    /// `Part::find_frame`, where the pool has no victim: also in line.
    fn find_no_victim(&mut self, state: Next<THREADS, FRAMES>, me: Thread) {
        if matches!(me.kind, Kind::Try | Kind::Ahead) {
            return self.refuse(state, me, true);
        }
        if me.ticket != NONE {
            return self.stay_in_line(state, me);
        }
        if me.has_fault && state.is_all_aside() {
            return self.refuse(state, me, true);
        }
        self.refuse(state, me, false);
        self.join_line(state, me, me.had_turn);
    }

    /// `Line::join`.
    fn join_line(&mut self, mut state: Next<THREADS, FRAMES>, me: Thread, is_first: bool) {
        let groups = self.model.groups;
        let ticket = match is_first {
            true => state.line.join_first(me.page, groups),
            false => state.line.join_behind(me.page, groups),
        };
        state.is_locked = true;
        let me = Thread {
            ticket,
            at: At::Joining,
            frame: NONE,
            ..me
        };
        self.add("joins the line", me, state);
    }

    /// Others see from now on that it waits. What it waits for is looked for after that.
    pub(super) fn wait_in_line(&mut self) {
        let mut next = *self.state;
        next.waiting += 1;
        next.is_locked = false;
        let me = self.me.to(At::Asleep);
        if self.is(Weakness::LooksBeforeItWaits) {
            return self.add("sleeps in line", me, next);
        }
        self.in_line(next, me);
    }

    /// `Part::wait_in_line`, each time that the call has the lock.
    pub(super) fn in_line(&mut self, state: Next<THREADS, FRAMES>, me: Thread) {
        let me = Thread {
            at: At::Asleep,
            is_woken: false,
            ..me
        };
        if state.line.turn() == me.ticket {
            self.ask(state, me, true);
        } else if !state.needs_frame(me.page) {
            self.ask(state, me, false);
        } else {
            self.stay_in_line(state, me);
        }
    }

    fn stay_in_line(&mut self, state: Next<THREADS, FRAMES>, me: Thread) {
        let is_first = state.line.turn() == me.ticket;
        if is_first && me.has_fault && state.is_all_aside() {
            return self.refuse(state, me, true);
        }
        self.refuse(state, me, false);
        let me = Thread {
            at: At::Asleep,
            is_woken: false,
            seen: 0,
            ..me
        };
        self.add("sleeps in line", me, state);
    }

    /// The call is refused: since it must be, or since its time is over.
    fn refuse(&mut self, state: Next<THREADS, FRAMES>, me: Thread, comes: bool) {
        let mut me = me;
        for state in self.leave_line(state, &mut me) {
            self.push("is refused", comes, me.returned(NONE, NONE), state);
        }
    }

    pub(super) fn ask_after_work(&mut self, me: Thread) {
        match me.kind {
            Kind::Discard => self.discard_after_work(),
            Kind::Flush => self.flush(me),
            _ if me.ticket != NONE => self.in_line(*self.state, me),
            _ if self.is(Weakness::AsksOutOfTurn) => self.ask(*self.state, me, true),
            _ => {
                // `Part::wait_for_read` tells of a read that failed meanwhile.
                if self.state.needs_frame(me.page) {
                    self.refuse(*self.state, me, false);
                }
                self.come(me);
            }
        }
    }
}
