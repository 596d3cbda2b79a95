//! What a thread does, step by step.
use super::{At, Frames, Kind, NONE, State, Then, Thread, Weakness};
use crate::explore::Step;
use crate::word::{PIN, Word};

/// The steps of one thread from a state.
pub(super) struct Steps<'a, const THREADS: usize, const FRAMES: usize> {
    pub(super) model: &'a Frames<THREADS, FRAMES>,
    pub(super) state: &'a State<THREADS, FRAMES>,
    pub(super) thread: usize,
    pub(super) me: Thread,
    steps: &'a mut Vec<Step<State<THREADS, FRAMES>>>,
}

pub(super) type Next<const THREADS: usize, const FRAMES: usize> = State<THREADS, FRAMES>;

impl<const THREADS: usize, const FRAMES: usize> Frames<THREADS, FRAMES> {
    pub(super) fn add_steps_of(
        &self,
        state: &State<THREADS, FRAMES>,
        thread: usize,
        steps: &mut Vec<Step<State<THREADS, FRAMES>>>,
    ) {
        let me = state.threads[thread];
        let mut steps = Steps {
            model: self,
            state,
            thread,
            me,
            steps,
        };
        match me.at {
            At::Idle => steps.call(),
            At::Compared => steps.join_unseen(),
            At::Stray => steps.leave("leaves", me.frame, me, Then::Come),
            At::Holding => steps.hold(),
            At::Freeing => steps.free_aside(),
            At::Left => steps.look_at_waiting(),
            At::Waking => steps.wake(),
            // These have the lock.
            At::Scanning => steps.scan(),
            At::Joining => steps.wait_in_line(),
            At::Keeping => steps.keep_ahead(),
            At::LookingToDiscard => steps.look_to_discard(),
            At::Asleep | At::Working | At::AsleepToDiscard if !me.is_woken => {
                steps.wake_for_no_reason();
            }
            _ if !state.is_locked => steps.take_lock(),
            _ => {}
        }
    }

    /// Passes of pages that nobody uses are given back for a read of another page: `Part::make_way`.
    pub(super) fn add_passes_given_back(
        &self,
        state: &State<THREADS, FRAMES>,
        steps: &mut Vec<Step<State<THREADS, FRAMES>>>,
    ) {
        let is_weak = self.weakness == Some(Weakness::EndsWhatWasUnused);
        for number in 0..FRAMES {
            let mut next = *state;
            let frame = &mut next.frames[number];
            if frame.is_ending {
                let shares = frame.word & super::SHARES;
                frame.word -= shares;
                frame.give_back();
                frame.word += shares;
                (frame.is_ending, next.is_locked) = (false, false);
            } else if state.is_locked || !frame.is_kept() || !frame.give_back() {
                continue;
            } else if is_weak {
                *frame = state.frames[number];
                (frame.is_ending, next.is_locked) = (true, true);
            }
            steps.push(Step {
                thread: THREADS,
                name: "a pass is given back",
                comes: state.is_locked,
                next,
            });
        }
    }
}

impl<const THREADS: usize, const FRAMES: usize> Steps<'_, THREADS, FRAMES> {
    pub(super) fn is(&self, weakness: Weakness) -> bool {
        self.model.weakness == Some(weakness)
    }

    pub(super) fn push(
        &mut self,
        name: &'static str,
        comes: bool,
        me: Thread,
        mut next: Next<THREADS, FRAMES>,
    ) {
        next.threads[self.thread] = me;
        self.steps.push(Step {
            thread: self.thread,
            name,
            comes,
            next,
        });
    }

    pub(super) fn add(&mut self, name: &'static str, me: Thread, next: Next<THREADS, FRAMES>) {
        self.push(name, true, me, next);
    }

    /// What a thread does that comes to the part's lock, which is free.
    fn take_lock(&mut self) {
        let me = Thread {
            is_woken: false,
            ..self.me
        };
        match me.at {
            At::Returning => self.count_aside_down(),
            At::Coming => self.come(me),
            At::Asleep => self.in_line(*self.state, me),
            At::Working => self.ask_after_work(me),
            At::Reading => self.end_read(),
            At::Writing => self.end_write(),
            At::Logging => self.end_log(),
            At::Flushing => self.end_flush(),
            At::Ending => self.end_use(),
            At::Discarding => self.discard(*self.state),
            At::AsleepToDiscard => self.wake_to_discard(),
            At::ToFlush => self.flush(me),
            _ => {}
        }
    }

    /// A call begins.
    fn call(&mut self) {
        for kind in self.model.calls {
            for page in 0..self.model.pages {
                let at = match kind {
                    Kind::Pin | Kind::Try | Kind::Ahead | Kind::New => At::Coming,
                    Kind::Discard => At::Discarding,
                    Kind::Flush => At::ToFlush,
                };
                let me = Thread::of(*kind, page, at);
                self.push("begins", false, me, *self.state);
                if !matches!(kind, Kind::Ahead | Kind::Discard | Kind::Flush) {
                    self.join(me);
                }
            }
        }
    }

    /// `Part::join`, by a seat that may be any by now, or by its own.
    fn join(&mut self, me: Thread) {
        for number in 0..FRAMES as u8 {
            let mut next = *self.state;
            let frame = &mut next.frames[number as usize];
            let is_its = frame.page == me.page;
            let is_stray = !is_its || !frame.is_out();
            if is_stray && !self.model.strays {
                continue;
            }
            if self.is(Weakness::ComparesBefore) && is_its && frame.is_out() {
                let me = me.at_frame(At::Compared, number);
                self.push("finds its page", false, me, next);
                continue;
            }
            let me = match frame.join().is_pinnable() && is_its {
                true => me.returned(number, NONE),
                false => me.at_frame(At::Stray, number),
            };
            self.push("joins", false, me, next);
        }
    }

    fn join_unseen(&mut self) {
        let mut next = *self.state;
        let frame = self.me.frame;
        next.frames[frame as usize].join();
        self.add("joins", self.me.returned(frame, NONE), next);
    }

    /// `Part::leave` of a pin: the share goes. What is left says what has to be done.
    fn leave(&mut self, name: &'static str, frame: u8, me: Thread, then: Then) {
        let mut next = *self.state;
        let word = &mut next.frames[frame as usize].word;
        let left = Word(*word).without(PIN);
        *word = left.0;
        let me = Thread {
            at: At::Left,
            frame,
            is_over: left.is_over(),
            is_unused: !left.is_used(),
            then,
            ..me
        };
        let me = match me.is_unused {
            true => me,
            false => after(me),
        };
        self.add(name, me, next);
    }

    fn hold(&mut self) {
        let me = Thread {
            had: NONE,
            ..Thread::default()
        };
        self.leave("lets go", self.me.had, me, Then::End);
        if !self.model.writes.is_empty() && !self.state.is_locked {
            let mut next = *self.state;
            next.frames[self.me.had as usize].is_unsaved = true;
            self.push("puts", false, self.me, next);
        }
    }

    /// The drop of a `SetAside`: first its count.
    fn count_aside_down(&mut self) {
        let frame = self.me.aside.trailing_zeros() as u8;
        let mut next = *self.state;
        next.aside -= 1;
        let me = Thread {
            at: At::Freeing,
            frame,
            ..self.me
        };
        self.add("counts a page as set aside no longer", me, next);
    }

    /// And then its pin.
    fn free_aside(&mut self) {
        let frame = self.me.frame;
        let me = Thread {
            aside: self.me.aside & !(1 << frame),
            ..self.me
        };
        self.leave("gives up what it set aside", frame, me, Then::Return);
    }

    /// `Part::is_left_so`, and the looks of `Part::leave_slowly`.
    fn look_at_waiting(&mut self) {
        let me = self.me;
        let is_wanted = me.is_over || self.state.waiting > 0;
        let me = match is_wanted {
            true => Thread {
                at: At::Ending,
                is_over: false,
                is_unused: false,
                ..me
            },
            false => after(me),
        };
        self.add("looks whether a thread waits", me, *self.state);
    }

    /// `Part::end_use`, and what is read under the lock for `Part::wake_for_frame`.
    fn end_use(&mut self) {
        let mut next = *self.state;
        next.frames[self.me.frame as usize].end_use(self.model.keeps);
        let me = match self.is(Weakness::LetsGoSilently) {
            true => after(self.me),
            false => self.to_wake(self.me),
        };
        self.add("ends the use", me, next);
    }

    /// Is to wake who is first now, once the lock is open.
    pub(super) fn to_wake(&self, me: Thread) -> Thread {
        Thread {
            at: At::Waking,
            frame: NONE,
            ticket: self.state.line.turn(),
            wakes_all: self.wakes_all(self.state),
            ..me
        }
    }

    /// `Part::wake_first`, with the lock.
    pub(super) fn after_waking_first(
        &self,
        state: Next<THREADS, FRAMES>,
    ) -> Vec<Next<THREADS, FRAMES>> {
        state.after_waking(state.line.turn(), self.wakes_all(&state))
    }

    fn wakes_all(&self, state: &Next<THREADS, FRAMES>) -> bool {
        state.aside > 0 && !self.is(Weakness::WakesOneOfTheFirst)
    }

    /// `Part::wake_for_frame`.
    fn wake(&mut self) {
        let mut next = *self.state;
        for it in &mut next.threads {
            it.is_woken |= it.at == At::AsleepToDiscard;
        }
        for next in next.after_waking(self.me.ticket, self.me.wakes_all) {
            self.add("wakes", after(self.me), next);
        }
    }

    fn wake_for_no_reason(&mut self) {
        let me = Thread {
            is_woken: true,
            ..self.me
        };
        self.push("wakes for no reason, or by time", false, me, *self.state);
    }
}

/// What a thread does after it let a pin go, and woke whom it had to.
fn after(me: Thread) -> Thread {
    match me.then {
        Then::End => Thread::default(),
        Then::Come => Thread {
            at: At::Coming,
            frame: NONE,
            is_over: false,
            is_unused: false,
            ticket: NONE,
            wakes_all: false,
            then: Then::End,
            ..me
        },
        Then::Return => me.returned(me.had, me.loads),
    }
}
