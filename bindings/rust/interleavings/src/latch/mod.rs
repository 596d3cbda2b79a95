//! The latch of one page: the word of its seat, who waits for the latch, and who lets it go.
//!
//! The threads are alike, and each makes any calls without end. Each step is one access to the word, by the
//! functions of `word.rs` and `waiters.rs` that the pager runs; or one notification. What a thread does with the
//! mutex of the queues is one step where it touches the word once: nobody else can see a part of that.
mod queue;
mod steps;

use crate::explore::{Model, Step};
use crate::word::{PIN, READER, WRITER, Word};
use queue::Queue;
use std::fmt;

/// The bits of a word that count shares.
const SHARES: u64 = 2 * WRITER - 1;

/// So many pins of a page, and there is room for one more.
pub const MOST_PINS: u64 = WRITER / PIN / 2;

/// So many writers get the latch while a reader waits, besides one that had it before.
const MOST_PASSED: u8 = 1;

#[derive(Clone, Copy)]
pub struct Latch<const THREADS: usize> {
    /// Whether threads try latches too, and take them beside a pin.
    pub has_all_calls: bool,
    /// What may be so of a pass that begins: it stays out when nobody uses the page.
    pub stays: &'static [bool],
    /// So many pins of the page were forgotten.
    pub forgotten: u64,
    pub weakness: Option<Weakness>,
}

/// What is wrong with a protocol, which is to be found.
#[derive(Clone, Copy, PartialEq, Eq, Debug)]
pub enum Weakness {
    /// Who took the seat for that of another page, and leaves, does not call those that wait.
    StrayCallsNobody,
    /// Nor does a reader whose share was no latch and becomes a pin.
    MissedCallsNobody,
    /// A thread queues though the latch came free after it had looked.
    QueuesThoughFree,
    /// The readers that came last are let in without shares of their own.
    ForgetsSecond,
    /// A writer gets the latch, and nobody wakes it.
    WriterSleepsOn,
    /// A writer that finds the latch taken again leaves the word open, and not queued.
    WriterUnqueues,
    /// A reader takes its share for a latch without a look at WRITER.
    JoinsBesideWriter,
    /// The pass ends since nobody used the page a moment ago.
    EndsWhatWasUnused,
    /// The word is opened for the writer that is next also where readers wait.
    OpensBesideReaders,
}

#[derive(Clone, Copy, PartialEq, Eq, Hash, PartialOrd, Ord, Debug)]
enum Share {
    Reader,
    Pin,
    Writer,
}

/// A latch that a thread asks for.
#[derive(Clone, Copy, PartialEq, Eq, Hash, PartialOrd, Ord)]
struct Wish {
    latch: Share,
    /// Else it gives up where the latch is not free.
    waits: bool,
    /// It is had beside a pin that stays, and not in place of one.
    beside: bool,
}

/// Where a thread is: what it has just done, and what it has in the word by that.
#[derive(Clone, Copy, PartialEq, Eq, Hash, PartialOrd, Ord, Debug)]
enum At {
    Idle,
    /// It has a share of a seat that it cannot use, and is to take it back.
    Stray(Share, Then),
    /// It has a READER of the page, which was no latch.
    Missed(Wish),
    /// It comes to the part's lock, since the pass was not out.
    Fixing(Option<Wish>),
    /// It has a pin, and no latch.
    Pinned,
    Trying(Wish),
    /// It comes to the mutex of the queues.
    Queueing(Wish),
    /// It has that mutex, and is to look whether the latch is free.
    Looking(Wish),
    /// It has that mutex, and found the latch taken.
    Taken(Wish),
    /// It sleeps in the queue, or was woken there.
    Asleep(Sleeper),
    /// It has the latch, and still the pin instead of which it has it.
    LetIn(Wish),
    Holding(Wish),
    /// It is to call `Queues::hand_over`.
    HandingOver(Then),
    /// It is to notify those of a place.
    Notifying(Place, Then),
    /// It comes to the part's lock, to end the pass.
    Ending(Then),
}

#[derive(Clone, Copy, PartialEq, Eq, Hash, PartialOrd, Ord, Debug)]
struct Sleeper {
    wish: Wish,
    place: Place,
    is_woken: bool,
    /// How often a writer has got the latch since it came to wait to read.
    passed: u8,
}

/// What a thread does next.
#[derive(Clone, Copy, PartialEq, Eq, Hash, PartialOrd, Ord, Debug)]
enum Then {
    End,
    KeepPin,
    Fix(Option<Wish>),
    Try(Wish),
}

/// Where threads sleep: the readers of a turn, or the writer with a ticket. Those of `latch.rs` may be one, by
/// which a thread wakes for no reason.
#[derive(Clone, Copy, PartialEq, Eq, Hash, PartialOrd, Ord, Debug)]
enum Place {
    Readers(u8),
    Writer(u8),
}

#[derive(Clone, Copy, PartialEq, Eq, Hash)]
pub struct State<const THREADS: usize> {
    /// The word, but for its joins: any word may have so many that it is time for a reference.
    word: u64,
    /// A thread has the mutex of the queues.
    is_locked: bool,
    /// A page makes way whose word was unused a moment ago: with `EndsWhatWasUnused` alone.
    is_closing: bool,
    queue: Queue,
    threads: [At; THREADS],
}

impl Share {
    fn bits(self) -> u64 {
        match self {
            Share::Reader => READER,
            Share::Pin => PIN,
            Share::Writer => WRITER,
        }
    }
}

impl Then {
    fn at(self) -> At {
        match self {
            Then::End => At::Idle,
            Then::KeepPin => At::Pinned,
            Then::Fix(wish) => At::Fixing(wish),
            Then::Try(wish) => At::Trying(wish),
        }
    }
}

impl At {
    /// The latch that it has, also where it does not know that so far.
    fn latch(self, queue: &Queue) -> Option<Share> {
        match self {
            At::Asleep(it) => queue.has_let_in(it.place).then_some(it.wish.latch),
            At::LetIn(wish) | At::Holding(wish) => Some(wish.latch),
            At::Stray(Share::Writer, _) => Some(Share::Writer),
            _ => None,
        }
    }

    /// Whether it has a pin.
    fn has_pin(self) -> bool {
        match self {
            At::Pinned | At::Trying(_) | At::Queueing(_) | At::Looking(_) | At::Taken(_) => true,
            At::Asleep(..) | At::LetIn(_) | At::Stray(Share::Pin, _) => true,
            At::Holding(wish) => wish.beside,
            At::HandingOver(then) | At::Notifying(_, then) | At::Ending(then) => {
                then.at().has_pin()
            }
            At::Idle | At::Stray(..) | At::Missed(_) | At::Fixing(_) => false,
        }
    }

    /// What it has in the word.
    fn shares(self, queue: &Queue) -> u64 {
        let of_latch = match self {
            At::Missed(_) | At::Stray(Share::Reader, _) => READER,
            _ => self.latch(queue).map_or(0, Share::bits),
        };
        of_latch + if self.has_pin() { PIN } else { 0 }
    }

    /// Whether it is a guard of the page, as far as its thread knows.
    fn is_guard(self) -> bool {
        self.has_pin() && !matches!(self, At::Stray(..)) || matches!(self, At::Holding(_))
    }

    /// Whether it waits to read, and longer than for the writer that it found and one more.
    fn is_passed_over(self) -> bool {
        matches!(self, At::Asleep(it) if it.passed > MOST_PASSED)
    }

    fn place(&mut self) -> Option<&mut Place> {
        match self {
            At::Asleep(Sleeper { place, .. }) | At::Notifying(place, _) => Some(place),
            _ => None,
        }
    }
}

impl<const THREADS: usize> Model for Latch<THREADS> {
    type State = State<THREADS>;

    fn first(&self) -> Self::State {
        let pass = Word(self.forgotten * PIN).with_pass(true) - PIN;
        State {
            word: if self.forgotten > 0 { pass } else { 0 },
            is_locked: false,
            is_closing: false,
            queue: Queue::default(),
            threads: [At::Idle; THREADS],
        }
    }

    fn add_steps(&self, state: &Self::State, steps: &mut Vec<Step<Self::State>>) {
        for thread in 0..THREADS {
            self.add_steps_of(state, thread, steps);
        }
        self.add_closing(state, steps);
    }

    fn named_anew(&self, mut state: Self::State) -> Self::State {
        queue::renumber(&mut state.queue, &mut state.threads);
        state.threads.sort_unstable();
        state
    }

    fn fault(&self, state: &Self::State) -> Option<String> {
        let threads = state.threads.iter().map(|at| at.shares(&state.queue));
        if (state.word & SHARES) != self.forgotten * PIN + threads.sum::<u64>() {
            return Some("the word has other shares than the threads".into());
        }
        let latches = state.threads.iter().filter_map(|at| at.latch(&state.queue));
        let (writers, readers): (Vec<_>, Vec<_>) = latches.partition(|it| *it == Share::Writer);
        if writers.len() > 1 || (writers.len() == 1 && !readers.is_empty()) {
            return Some("two threads have the latch, of which one is to be alone".into());
        }
        if state.threads.iter().any(|at| at.is_passed_over()) {
            return Some("two writers got the latch while a reader waited for it".into());
        }
        let has_guard = state.threads.iter().any(|at| at.is_guard());
        if has_guard && !Word(state.word).is_out() {
            return Some("a page has a guard, and its pass is not out".into());
        }
        self.fault_at_rest(state)
    }

    fn is_at_rest(&self, state: &Self::State) -> bool {
        state.threads.iter().all(|at| *at == At::Idle)
    }
}

impl<const THREADS: usize> Latch<THREADS> {
    /// Once no call is under way nothing of one is left.
    fn fault_at_rest(&self, state: &State<THREADS>) -> Option<String> {
        let unused = Word(self.forgotten * PIN);
        let stays = unused.with_pass(true) - PIN;
        let is_clean = state.word == unused.0 || state.word == stays;
        (self.is_at_rest(state) && (!is_clean || !state.queue.is_empty()))
            .then(|| "no call is under way, and something of one is left".into())
    }
}

impl fmt::Debug for Wish {
    fn fmt(&self, f: &mut fmt::Formatter<'_>) -> fmt::Result {
        let tries = if self.waits { "" } else { "try_" };
        let name = match self.latch {
            Share::Writer => "write",
            _ => "read",
        };
        let beside = if self.beside { " beside a pin" } else { "" };
        write!(f, "{tries}{name}{beside}")
    }
}

impl<const THREADS: usize> fmt::Debug for State<THREADS> {
    fn fmt(&self, f: &mut fmt::Formatter<'_>) -> fmt::Result {
        let word = Word(self.word);
        let (readers, pins) = (self.word % PIN, self.word % WRITER / PIN);
        write!(f, "readers {readers}, pins {pins}")?;
        let flags = [
            ("writer", word.is_written()),
            ("QUEUED", word.is_queued()),
            ("CLOSED", word.opened() != self.word),
            ("OUT", word.is_out()),
            ("STAYS", word.staying() == self.word),
            ("mutex taken", self.is_locked),
            ("is closing", self.is_closing),
        ];
        for (name, _) in flags.iter().filter(|it| it.1) {
            write!(f, ", {name}")?;
        }
        if !self.queue.is_empty() {
            write!(f, ", {:?}", self.queue)?;
        }
        write!(f, " {:?}", self.threads)
    }
}

impl Word {
    /// Whether threads wait for the latch.
    fn is_queued(self) -> bool {
        Word(self.0 & !SHARES).is_awaited()
    }
}
