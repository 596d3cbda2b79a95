//! What a thread does, step by step.
use super::queue::{Change, Queue};
use super::{At, Latch, Place, Share, Sleeper, State, Then, Weakness, Wish};
use crate::explore::Step;
use crate::word::{JOIN, PIN, READER, Word};

/// So many joins that it is time for a reference.
const MANY: u64 = 32 * JOIN;

/// The steps of one thread from a state.
struct Steps<'a, const THREADS: usize> {
    model: &'a Latch<THREADS>,
    state: &'a State<THREADS>,
    thread: usize,
    steps: &'a mut Vec<Step<State<THREADS>>>,
}

impl<const THREADS: usize> Latch<THREADS> {
    pub(super) fn add_steps_of(
        &self,
        state: &State<THREADS>,
        thread: usize,
        steps: &mut Vec<Step<State<THREADS>>>,
    ) {
        let (model, at) = (self, state.threads[thread]);
        let mut steps = Steps {
            model,
            state,
            thread,
            steps,
        };
        match at {
            At::Idle => steps.call(),
            At::Stray(share, then) => steps.leave("leaves", share, then),
            At::Missed(wish) => steps.turn_to_pin(wish),
            At::Fixing(wish) => steps.fix(wish),
            At::Pinned => steps.use_pin(),
            At::Trying(wish) => steps.try_latch(wish),
            At::Queueing(wish) if !state.is_locked => steps.look(wish),
            At::Looking(wish) => steps.look(wish),
            At::Taken(wish) => steps.queue(wish),
            At::Asleep(sleeper) => steps.sleep(sleeper),
            At::LetIn(wish) => steps.add("gives its pin back", At::Holding(wish), |state| {
                state.word -= PIN;
            }),
            At::Holding(wish) => steps.leave("lets go", wish.latch, wish.after()),
            At::HandingOver(then) if !state.is_locked => steps.hand_over(then),
            At::Notifying(place, then) => steps.notify(place, then),
            At::Ending(then) => steps.end_use(then),
            At::Queueing(_) | At::HandingOver(_) => {}
        }
    }

    /// The page makes way for another: `Part::give_back`, of a pass that stays.
    pub(super) fn add_closing(
        &self,
        state: &State<THREADS>,
        steps: &mut Vec<Step<State<THREADS>>>,
    ) {
        let closed = Word(state.word).without_pass();
        let mut next = *state;
        if self.weakness == Some(Weakness::EndsWhatWasUnused) {
            if state.is_closing {
                // What it looked at has no share.
                let unused = Word(state.word & !super::SHARES);
                next.word = unused.without_pass().unwrap_or(unused.0) | state.word & super::SHARES;
            }
            next.is_closing = !state.is_closing && closed.is_some();
        } else if let Some(word) = closed {
            next.word = word;
        }
        steps.push(Step {
            thread: THREADS,
            name: "the page makes way",
            comes: state.is_closing,
            next,
        });
    }
}

impl<const THREADS: usize> State<THREADS> {
    /// A writer has got the latch: of the readers that wait each notes that, as often as is of matter.
    fn note_writer(&mut self) {
        for at in &mut self.threads {
            if let At::Asleep(it) = at {
                let has_latch = self.queue.has_let_in(it.place);
                if it.wish.latch == Share::Reader && !has_latch {
                    it.passed = (it.passed + 1).min(super::MOST_PASSED + 1);
                }
            }
        }
    }
}

impl Wish {
    /// What is left once the latch is let go.
    fn after(self) -> Then {
        match self.beside {
            true => Then::KeepPin,
            false => Then::End,
        }
    }

    fn in_place_of(self) -> u64 {
        if self.beside { 0 } else { PIN }
    }

    /// Where a thread is that got the latch beside its pin.
    fn let_in(self) -> At {
        match self.beside {
            true => At::Holding(self),
            false => At::LetIn(self),
        }
    }

    /// All wishes, or those that wait.
    fn all(beside: bool, has_tries: bool) -> impl Iterator<Item = Wish> {
        let latches = [Share::Reader, Share::Writer].into_iter();
        let wishes = latches.flat_map(move |latch| {
            [true, false].map(|waits| Wish {
                latch,
                waits,
                beside,
            })
        });
        wishes.filter(move |it| it.waits || has_tries)
    }
}

impl<const THREADS: usize> Steps<'_, THREADS> {
    fn is(&self, weakness: Weakness) -> bool {
        self.model.weakness == Some(weakness)
    }

    fn word(&self) -> Word {
        Word(self.state.word)
    }

    /// Adds a step after which the thread is there.
    fn add(&mut self, name: &'static str, at: At, change: impl FnOnce(&mut State<THREADS>)) {
        let mut next = *self.state;
        next.threads[self.thread] = at;
        change(&mut next);
        if Word(next.word).is_written() && !self.word().is_written() {
            next.note_writer();
        }
        self.steps.push(Step {
            thread: self.thread,
            name,
            comes: true,
            next,
        });
    }

    /// Adds a step of this thread alone that may never come.
    fn add_by_chance(&mut self, name: &'static str, at: At) {
        self.add(name, at, |_| {});
        if let Some(step) = self.steps.last_mut() {
            step.comes = false;
        }
    }

    /// A call begins, of any kind.
    fn call(&mut self) {
        let first = self.steps.len();
        for wish in Wish::all(false, self.model.has_all_calls) {
            self.add("finds no pass", At::Fixing(Some(wish)), |_| {});
            match wish.latch {
                Share::Reader => self.join_read(wish),
                _ => self.join_write(wish),
            }
        }
        self.add("finds no pass", At::Fixing(None), |_| {});
        self.join_pin(None);
        for step in &mut self.steps[first..] {
            step.comes = false;
        }
    }

    /// `Part::join_read`, and what `Part::join_read_slowly` makes of the word.
    fn join_read(&mut self, wish: Wish) {
        for joins in [0, MANY] {
            let before = Word(self.state.word + joins);
            let is_latch = match self.is(Weakness::JoinsBesideWriter) {
                true => before.is_pinnable(),
                false => before.is_readable_at_once() || before.is_readable(),
            };
            let at = if is_latch {
                At::Holding(wish.once_had())
            } else if before.is_pinnable() {
                At::Missed(wish)
            } else {
                At::Stray(Share::Reader, Then::Fix(Some(wish)))
            };
            self.add("joins to read", at, |state| state.word += READER);
        }
        let at = At::Stray(Share::Reader, Then::End);
        self.add("joins another page to read", at, |state| {
            state.word += READER;
        });
    }

    /// `Part::join_write`: by one compare-and-swap, which fails where the word has changed.
    fn join_write(&mut self, wish: Wish) {
        if let Some(word) = self.word().with_writer_at_once() {
            let word = Word(word).without_joins();
            let at = At::Holding(wish.once_had());
            self.add("joins to write", at, |state| state.word = word);
            let at = At::Stray(Share::Writer, Then::End);
            self.add("joins another page to write", at, |state| state.word = word);
        }
        self.join_pin(Some(wish));
    }

    /// `Part::join`.
    fn join_pin(&mut self, wish: Option<Wish>) {
        let at = match self.word().is_pinnable() {
            true => wish.map_or(At::Pinned, At::Trying),
            false => At::Stray(Share::Pin, Then::Fix(wish)),
        };
        self.add("joins to pin", at, |state| state.word += PIN);
        let at = At::Stray(Share::Pin, Then::End);
        self.add("joins another page to pin", at, |state| state.word += PIN);
    }

    /// `Part::leave`: the share goes, and what is left says what has to be done.
    fn leave(&mut self, name: &'static str, share: Share, then: Then) {
        let left = self.word().without(share.bits());
        let is_stray = matches!(self.state.threads[self.thread], At::Stray(Share::Reader, _));
        let calls = !(is_stray && self.is(Weakness::StrayCallsNobody));
        let at = if left.is_quiet() {
            then.at()
        } else if left.is_awaited() && calls {
            At::HandingOver(then)
        } else if left.is_over() {
            At::Ending(then)
        } else {
            then.at()
        };
        self.add(name, at, |state| state.word = left.0);
    }

    fn turn_to_pin(&mut self, wish: Wish) {
        let now = self.word().turned_to_pin();
        let at = match now.is_awaited() && !self.is(Weakness::MissedCallsNobody) {
            true => At::HandingOver(Then::Try(wish)),
            false => At::Trying(wish),
        };
        self.add("turns to a pin", at, |state| state.word = now.0);
    }

    /// `Pager::fix` of a page in its frame, or after its read: `join_under`, or `pinned`.
    fn fix(&mut self, wish: Option<Wish>) {
        if self.state.is_closing {
            // The part's lock is not free.
            return;
        }
        let word = self.word();
        let at = wish.map_or(At::Pinned, At::Trying);
        if !word.is_out() {
            for stays in self.model.stays {
                self.add("begins a pass", at, |state| {
                    state.word = word.with_pass(*stays);
                });
            }
        } else if word.is_pinnable() {
            self.add("pins", at, |state| state.word += PIN);
        } else {
            let at = At::Stray(Share::Pin, Then::End);
            self.add("is refused: too many pins", at, |state| state.word += PIN);
        }
    }

    /// A pin is dropped, or a latch is asked for beside it.
    fn use_pin(&mut self) {
        self.leave("lets its pin go", Share::Pin, Then::End);
        if !self.model.has_all_calls {
            return;
        }
        for wish in Wish::all(true, true) {
            self.add_by_chance("asks for a latch", At::Trying(wish));
        }
    }

    /// `Seat::try_latch`, in place of a pin or beside it.
    fn try_latch(&mut self, wish: Wish) {
        let had = self
            .word()
            .with_latch(wish.latch.bits(), wish.in_place_of());
        match had {
            Some(word) => self.add("takes the latch", At::Holding(wish.once_had()), |state| {
                state.word = word;
            }),
            None if wish.waits => self.add("finds it taken", At::Queueing(wish), |_| {}),
            None => self.add("gives up", wish.given_up(), |_| {}),
        }
    }

    /// The first half of `Seat::latch_or_queue`.
    fn look(&mut self, wish: Wish) {
        match self.word().with_latch(wish.latch.bits(), 0) {
            Some(word) => self.add("takes the latch", wish.let_in(), |state| {
                (state.word, state.is_locked) = (word, false);
            }),
            None => self.add("finds it taken", At::Taken(wish), |state| {
                state.is_locked = true;
            }),
        }
    }

    /// The second half, and what `Queues::wait` does until the thread sleeps.
    fn queue(&mut self, wish: Wish) {
        let (word, latch) = (self.state.word, wish.latch.bits());
        let mut entered = self.state.queue.entered(word, latch);
        if self.is(Weakness::QueuesThoughFree) {
            // As it was when it looked.
            let taken = word | Share::Writer.bits();
            entered = self.state.queue.entered(taken, latch);
            if let Some(change) = &mut entered {
                change.word = word | (change.word ^ taken);
            }
        }
        match entered {
            Some(Change { queue, word, place }) => {
                let Some(place) = place else {
                    unreachable!("who enters the queue sleeps at a place");
                };
                let sleeper = Sleeper {
                    wish,
                    place,
                    is_woken: false,
                    passed: 0,
                };
                self.add("queues", At::Asleep(sleeper), |state| {
                    (state.word, state.queue, state.is_locked) = (word, queue, false);
                });
            }
            None if Word(word).has_room() => self.add("finds it free", At::Looking(wish), |_| {}),
            None => self.add("is refused: too many", wish.given_up(), |state| {
                state.is_locked = false;
            }),
        }
    }

    /// The loop of `Queues::wait`, once woken.
    fn sleep(&mut self, sleeper: Sleeper) {
        if !sleeper.is_woken {
            let is_woken = true;
            let at = At::Asleep(Sleeper {
                is_woken,
                ..sleeper
            });
            return self.add_by_chance("wakes for no reason", at);
        }
        if self.state.is_locked {
            return;
        }
        let (mut queue, mut word) = (self.state.queue, self.state.word);
        if let Place::Writer(ticket) = sleeper.place {
            let looks = queue.looked(word, ticket);
            let is_in = looks.queue.has_let_in(sleeper.place);
            if looks.queue != queue && !is_in && self.is(Weakness::WriterUnqueues) {
                word = Word(looks.word).with_readers(0, true).unwrap_or(looks.word);
            } else {
                word = looks.word;
            }
            queue = looks.queue;
        }
        let is_woken = false;
        let (name, at) = match queue.has_let_in(sleeper.place) {
            true => ("is let in", sleeper.wish.let_in()),
            false => (
                "sleeps again",
                At::Asleep(Sleeper {
                    is_woken,
                    ..sleeper
                }),
            ),
        };
        self.add(name, at, |state| (state.word, state.queue) = (word, queue));
    }

    /// `Queues::hand_over`, but for the notification at its end. Whether a writer has been the first for long
    /// enough is any answer.
    fn hand_over(&mut self, then: Then) {
        let queue = self.state.queue;
        let [due, early] = [true, false].map(|is_due| queue.handed_over(self.state.word, is_due));
        self.hands_over(due, then);
        if early != due {
            self.hands_over(early, then);
        } else if queue.first == 0 && queue.second > 0 && self.is(Weakness::OpensBesideReaders) {
            let second = queue.second;
            let mut opened = Queue { second: 0, ..queue }.handed_over(self.state.word, false);
            opened.queue.second = second;
            self.hands_over(opened, then);
        }
    }

    fn hands_over(&mut self, change: Change, then: Then) {
        let (queue, Change { place, .. }) = (self.state.queue, change);
        let mut word = change.word;
        let name = match place {
            Some(Place::Readers(_)) => "hands over to readers",
            Some(place) if change.queue.has_let_in(place) => "hands over to a writer",
            Some(_) => "opens the word for a writer",
            None if queue.is_empty() => "finds nobody",
            None => "finds the latch taken, or the writer awake",
        };
        let lets_readers_in = matches!(place, Some(Place::Readers(_)));
        if lets_readers_in && queue.first > 0 && self.is(Weakness::ForgetsSecond) {
            word -= u64::from(queue.second) * READER;
        }
        let sleeps_on = name == "hands over to a writer" && self.is(Weakness::WriterSleepsOn);
        let at = match place.filter(|_| !sleeps_on) {
            Some(place) => At::Notifying(place, then),
            None => then.at(),
        };
        self.add(name, at, |state| {
            (state.word, state.queue) = (word, change.queue)
        });
    }

    fn notify(&mut self, place: Place, then: Then) {
        self.add("notifies", then.at(), |state| {
            for at in &mut state.threads {
                if let At::Asleep(sleeper) = at {
                    sleeper.is_woken |= sleeper.place == place;
                }
            }
        });
    }

    /// `Part::end_use`. Where others joined the pass stays.
    fn end_use(&mut self, then: Then) {
        if self.state.is_closing {
            return;
        }
        let word = self.word();
        if !word.is_over() {
            return self.add("finds the page used", then.at(), |_| {});
        }
        if self.model.stays.contains(&true) {
            self.add("has the pass stay", then.at(), |state| {
                state.word = word.staying();
            });
        }
        if let Some(word) = word.without_pass() {
            self.add("ends the pass", then.at(), |state| state.word = word);
        }
    }
}

impl Wish {
    /// It is had: whether it would have waited is of no matter any more.
    fn once_had(self) -> Wish {
        Wish {
            waits: true,
            ..self
        }
    }

    /// Where a thread is that did not get it: its pin goes, or is kept.
    fn given_up(self) -> At {
        match self.beside {
            true => At::Pinned,
            false => At::Stray(Share::Pin, Then::End),
        }
    }
}
