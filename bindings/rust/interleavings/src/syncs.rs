//! The syncs of the device, which all share that came before one began: `syncs.rs` of the pager.
use crate::explore::{Model, Step};
use crate::numbers::Numbers;
use std::fmt;

/// What is tried: threads call `Syncs::sync` without end.
#[derive(Clone, Copy)]
pub struct Syncs<const THREADS: usize> {
    pub weakness: Option<Weakness>,
}

/// What is wrong with a protocol, which is to be found.
#[derive(Clone, Copy, PartialEq, Eq, Debug)]
pub enum Weakness {
    /// A sync that is under way serves who comes.
    TakesTheRunning,
    /// The end of a sync wakes one of those that wait.
    WakesOne,
    /// Those that wait are woken before the sync has ended.
    WakesTooSoon,
    /// A sync that failed does not end.
    KeepsItsTurn,
}

impl fmt::Debug for Call {
    fn fmt(&self, f: &mut fmt::Formatter<'_>) -> fmt::Result {
        f.write_str(match (self.is_served, self.is_later) {
            (true, _) => "served",
            (_, true) => "being served",
            _ => "not served",
        })
    }
}

impl<const THREADS: usize> fmt::Debug for State<THREADS> {
    fn fmt(&self, f: &mut fmt::Formatter<'_>) -> fmt::Result {
        write!(f, "begun {}, done {}", self.begun, self.done)?;
        let flags = [("taken", self.is_taken), ("has failed", self.has_failed)];
        for (name, _) in flags.iter().filter(|it| it.1) {
            write!(f, ", {name}")?;
        }
        write!(f, " {:?}", self.threads)
    }
}

/// Where a thread is.
#[derive(Clone, Copy, PartialEq, Eq, Hash, PartialOrd, Ord, Debug)]
enum At {
    Idle,
    /// It comes to the lock.
    Coming,
    /// It sleeps until a sync ends, or was woken.
    Asleep {
        wanted: u8,
        is_woken: bool,
    },
    Syncing,
    /// It comes to the lock, to end its sync.
    Ending {
        went_well: bool,
    },
    /// Its sync has ended, and it is to wake those that wait.
    Waking {
        went_well: bool,
    },
    /// It was told that all was synced.
    Synced,
    Refused,
}

/// What is so of a call since it first had the lock, whatever its thread knows.
#[derive(Clone, Copy, PartialEq, Eq, Hash, PartialOrd, Ord, Default)]
struct Call {
    /// The sync that is under way began after that.
    is_later: bool,
    /// Such a sync went well.
    is_served: bool,
}

#[derive(Clone, Copy, PartialEq, Eq, Hash, PartialOrd, Ord)]
pub struct State<const THREADS: usize> {
    begun: u8,
    done: u8,
    is_taken: bool,
    has_failed: bool,
    threads: [(At, Call); THREADS],
}

impl<const THREADS: usize> Model for Syncs<THREADS> {
    type State = State<THREADS>;

    fn first(&self) -> Self::State {
        State {
            begun: 0,
            done: 0,
            is_taken: false,
            has_failed: false,
            threads: [(At::Idle, Call::default()); THREADS],
        }
    }

    fn add_steps(&self, state: &Self::State, steps: &mut Vec<Step<Self::State>>) {
        for thread in 0..THREADS {
            let (name, comes) = match state.threads[thread].0 {
                At::Idle => ("calls", false),
                At::Asleep { is_woken, .. } => ("wakes", is_woken),
                At::Coming => ("takes the lock", true),
                At::Syncing => ("has synced, or not", true),
                At::Ending { .. } => ("ends its sync", true),
                At::Waking { .. } => ("wakes those that wait", true),
                At::Synced | At::Refused => ("returns", true),
            };
            for next in self.next_of(state, thread) {
                steps.push(Step {
                    thread,
                    name,
                    comes,
                    next,
                });
            }
        }
    }

    fn named_anew(&self, mut state: Self::State) -> Self::State {
        let mut numbers = Numbers::default();
        numbers.add(state.begun);
        numbers.add(state.begun + 1);
        numbers.add(state.done);
        for (at, _) in &state.threads {
            if let At::Asleep { wanted, .. } = at {
                numbers.add(*wanted);
            }
        }
        for (at, _) in &mut state.threads {
            if let At::Asleep { wanted, .. } = at {
                *wanted = numbers.rank(*wanted);
            }
        }
        (state.begun, state.done) = (numbers.rank(state.begun), numbers.rank(state.done));
        state.threads.sort_unstable();
        state
    }

    fn fault(&self, state: &Self::State) -> Option<String> {
        let told = |is: At| state.threads.iter().filter(move |it| it.0 == is);
        if told(At::Synced).any(|it| !it.1.is_served) {
            return Some("a call is told of a sync that began before it".into());
        }
        if told(At::Syncing).count() > 1 {
            return Some("two threads sync at the same time".into());
        }
        let sleeps = |it: &(At, Call)| {
            matches!(
                it.0,
                At::Asleep {
                    is_woken: false,
                    ..
                }
            )
        };
        let wakes = |it: &(At, Call)| matches!(it.0, At::Waking { .. });
        let is_forgotten = state.threads.iter().any(|it| sleeps(it) && it.1.is_served);
        if is_forgotten && !state.threads.iter().any(wakes) {
            return Some("a call sleeps on whose sync has ended".into());
        }
        None
    }

    fn is_at_rest(&self, state: &Self::State) -> bool {
        state.threads.iter().all(|it| it.0 == At::Idle)
    }
}

impl At {
    fn told(went_well: bool) -> At {
        if went_well { At::Synced } else { At::Refused }
    }
}

impl<const THREADS: usize> State<THREADS> {
    /// The same, with a thread there.
    fn with(mut self, thread: usize, at: At) -> State<THREADS> {
        self.threads[thread].0 = at;
        self
    }

    /// `Syncs::sync`, each time that a call has the lock.
    fn look(mut self, thread: usize, wanted: u8) -> State<THREADS> {
        let is_woken = false;
        let at = match self.done >= wanted {
            false if self.is_taken => At::Asleep { wanted, is_woken },
            _ if self.has_failed => At::Refused,
            true => At::Synced,
            false => At::Syncing,
        };
        self.threads[thread].0 = at;
        if at == At::Syncing {
            self.is_taken = true;
            self.begun += 1;
            for (at, call) in &mut self.threads {
                call.is_later = !matches!(at, At::Idle | At::Coming);
            }
        }
        self
    }

    /// The drop of `Syncing`, until it opens the lock.
    fn end(&mut self, went_well: bool, keeps_turn: bool) {
        self.is_taken = keeps_turn;
        self.has_failed |= !went_well;
        if went_well {
            self.done = self.begun;
        }
        for (_, call) in &mut self.threads {
            call.is_served |= went_well && call.is_later;
            call.is_later = false;
        }
    }

    /// Its notification: the states after all of those that sleep were woken, or one.
    fn woken(self, wakes_one: bool) -> Vec<State<THREADS>> {
        let sleeps = |it: &usize| matches!(self.threads[*it].0, At::Asleep { .. });
        let asleep: Vec<usize> = (0..THREADS).filter(sleeps).collect();
        let wake = |mut state: State<THREADS>, threads: &[usize]| {
            for thread in threads {
                if let At::Asleep { is_woken, .. } = &mut state.threads[*thread].0 {
                    *is_woken = true;
                }
            }
            state
        };
        match wakes_one && !asleep.is_empty() {
            true => asleep.chunks(1).map(|it| wake(self, it)).collect(),
            false => vec![wake(self, &asleep)],
        }
    }
}

impl<const THREADS: usize> Syncs<THREADS> {
    fn is(&self, weakness: Weakness) -> bool {
        self.weakness == Some(weakness)
    }

    /// The states after a step of a thread. What it does under the lock is one step.
    fn next_of(&self, state: &State<THREADS>, thread: usize) -> Vec<State<THREADS>> {
        let mut next = *state;
        let wakes_first = self.is(Weakness::WakesTooSoon);
        let (at, call) = &mut next.threads[thread];
        match *at {
            At::Idle => (*at, *call) = (At::Coming, Call::default()),
            At::Coming => {
                let later = u8::from(!self.is(Weakness::TakesTheRunning));
                return vec![next.look(thread, state.begun + later)];
            }
            At::Asleep { wanted, is_woken } if is_woken => return vec![next.look(thread, wanted)],
            At::Asleep { wanted, .. } => {
                let is_woken = true;
                *at = At::Asleep { wanted, is_woken };
            }
            At::Syncing => {
                let ends = [true, false].map(|went_well| match wakes_first {
                    true => At::Waking { went_well },
                    false => At::Ending { went_well },
                });
                return ends.map(|it| state.with(thread, it)).into();
            }
            At::Ending { went_well } => {
                let then = At::Waking { went_well };
                *at = if wakes_first {
                    At::told(went_well)
                } else {
                    then
                };
                next.end(went_well, !went_well && self.is(Weakness::KeepsItsTurn));
            }
            At::Waking { went_well } => {
                let then = At::Ending { went_well };
                *at = if wakes_first {
                    then
                } else {
                    At::told(went_well)
                };
                return next.woken(self.is(Weakness::WakesOne));
            }
            At::Synced | At::Refused => (*at, *call) = (At::Idle, Call::default()),
        }
        vec![next]
    }
}
