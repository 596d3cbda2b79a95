//! The frames of a part: which page is in which frame, who pins it, and who waits for a frame.
mod line;
mod names;
mod pool;
mod steps;
mod turns;
mod work;

use crate::explore::{Model, Step};
use crate::word::{PIN, WRITER, Word};
use line::Line;
use std::fmt;

/// The bits of a word that count shares.
const SHARES: u64 = 2 * WRITER - 1;
/// No frame, page or ticket.
const NONE: u8 = u8::MAX;

/// What is tried: the threads make such calls without end, and so may what they do at the device end.
#[derive(Clone, Copy)]
pub struct Frames<const THREADS: usize, const FRAMES: usize> {
    pub pages: u8,
    /// The most groups of the line.
    pub groups: u8,
    /// Whether passes of pages that nobody uses stay out.
    pub keeps: bool,
    pub calls: &'static [Kind],
    /// Whether a seat may be another page's by the time that it is joined.
    pub strays: bool,
    /// How device work may end.
    pub reads: &'static [bool],
    pub writes: &'static [bool],
    /// Whether a log record may have to be made durable first, and how that may end.
    pub logs: &'static [bool],
    /// What may be so of a line in which a call is: it is closed for those that come.
    pub closed: &'static [bool],
    pub weakness: Option<Weakness>,
}

/// What is wrong with a protocol, which is to be found.
#[derive(Clone, Copy, PartialEq, Eq, Debug)]
pub enum Weakness {
    /// The page of a seat is compared before the share is taken, and not after.
    ComparesBefore,
    /// The pass ends since nobody used the page a moment ago.
    EndsWhatWasUnused,
    /// Who waits looks at the words before others see that it waits.
    LooksBeforeItWaits,
    /// Who leaves the line wakes nobody.
    LeavesSilently,
    /// The end of a read does not wake those in line that want its page.
    ReadWakesNobody,
    /// A call sleeps for the read of its page while it is in line.
    SleepsInLine,
    /// The first ticket stays where its group is empty.
    StaysAtEmptyGroup,
    /// Who lets a page go does not wake.
    LetsGoSilently,
    /// One alone of those who are first is woken, also while pages are set aside.
    WakesOneOfTheFirst,
    /// Who slept until its page was read asks again without a look at the line.
    AsksOutOfTurn,
    /// A discard that has waited for a write-out does not wake the flushes that stood back for it.
    DiscardWakesNobody,
}

#[derive(Clone, Copy, PartialEq, Eq, Hash, PartialOrd, Ord, Debug, Default)]
pub enum Kind {
    /// `Pager::pin`.
    #[default]
    Pin,
    /// `try_pin`.
    Try,
    /// A page that is read before a thread asks for it.
    Ahead,
    /// `new_page`: a page that was read ahead, and not used since, leaves its frame for it.
    New,
    Discard,
    Flush,
}

#[derive(Clone, Copy, PartialEq, Eq, Hash, PartialOrd, Ord, Debug, Default)]
enum Work {
    #[default]
    Nothing,
    Read,
    Write,
}

/// The page that is to be discarded once its write-out has ended, and how many calls wait for that.
#[derive(Clone, Copy, PartialEq, Eq, Hash, PartialOrd, Ord)]
struct Awaited {
    page: u8,
    calls: u8,
}

#[derive(Clone, Copy, PartialEq, Eq, Hash, PartialOrd, Ord)]
struct Frame {
    /// The word of the seat, with one join for any number of them.
    word: u64,
    /// The page that is there, or is being read.
    page: u8,
    work: Work,
    /// It was put to since its image was taken.
    is_unsaved: bool,
    awaited: Awaited,
    /// A thread found it unused and is to end its pass: with `EndsWhatWasUnused` alone.
    is_ending: bool,
}

/// Where a thread is.
#[derive(Clone, Copy, PartialEq, Eq, Hash, PartialOrd, Ord, Debug, Default)]
enum At {
    #[default]
    Idle,
    /// It found its page at the seat of `frame`: with `ComparesBefore` alone.
    Compared,
    /// It has a pin of a seat that it cannot use.
    Stray,
    /// It comes to the part's lock.
    Coming,
    /// It has the lock, and gives passes back whose pages nobody uses, but for those of `seen`.
    Scanning,
    /// It has the lock, is in line, and is not seen to wait yet.
    Joining,
    /// It sleeps in line.
    Asleep,
    /// It sleeps until the work on its page has ended.
    Working,
    Reading,
    /// It has the lock, and the pin of a page that it has read ahead.
    Keeping,
    Writing,
    Logging,
    /// It comes to the lock, to set a page aside no longer. With the last one it goes on.
    Returning,
    /// The page of `frame` counts no longer as set aside, and its pin is to go.
    Freeing,
    /// It has its page's pin, in the frame `had`.
    Holding,
    /// It let the pin of `frame` go.
    Left,
    /// It comes to the lock to end the pass of `frame`.
    Ending,
    /// It is to notify who waits at `ticket`, and those that wait for a page.
    Waking,
    Discarding,
    /// It has the lock, and is seen to wait for its page.
    LookingToDiscard,
    AsleepToDiscard,
    /// It comes to the lock, to write its page out.
    ToFlush,
    Flushing,
}

/// What a thread does next.
#[derive(Clone, Copy, PartialEq, Eq, Hash, PartialOrd, Ord, Debug, Default)]
enum Then {
    #[default]
    End,
    Come,
    Return,
}

/// What a thread knows. What is of no matter where it is has its default.
#[derive(Clone, Copy, PartialEq, Eq, Hash, PartialOrd, Ord)]
struct Thread {
    at: At,
    kind: Kind,
    page: u8,
    /// It has been first in line in this call.
    had_turn: bool,
    /// A victim could not be written out in this call.
    has_fault: bool,
    /// The frames that it set aside, and those that it has looked at, as bits.
    aside: u8,
    seen: u8,
    /// Where it has its page.
    had: u8,
    /// The frame for its page, which it is to read there.
    loads: u8,
    /// Where it works, or has or had a pin.
    frame: u8,
    /// Its place in line, or that where it is to wake who waits.
    ticket: u8,
    /// It is to wake all that wait there.
    wakes_all: bool,
    is_woken: bool,
    /// What it left: a pass that is over, a page that nobody uses.
    is_over: bool,
    is_unused: bool,
    then: Then,
}

#[derive(Clone, Copy, PartialEq, Eq, Hash, PartialOrd, Ord, Debug)]
pub struct State<const THREADS: usize, const FRAMES: usize> {
    frames: [Frame; FRAMES],
    is_locked: bool,
    waiting: u8,
    /// The number of pages that calls have set aside.
    aside: u8,
    line: Line,
    /// A call got a frame before one that waited for its turn.
    has_overtaken: bool,
    threads: [Thread; THREADS],
}

impl Default for Thread {
    fn default() -> Thread {
        Thread {
            at: At::Idle,
            kind: Kind::Pin,
            page: NONE,
            had_turn: false,
            has_fault: false,
            aside: 0,
            seen: 0,
            had: NONE,
            loads: NONE,
            frame: NONE,
            ticket: NONE,
            wakes_all: false,
            is_woken: false,
            is_over: false,
            is_unused: false,
            then: Then::End,
        }
    }
}

impl Thread {
    fn of(kind: Kind, page: u8, at: At) -> Thread {
        Thread {
            kind,
            page,
            at,
            ..Thread::default()
        }
    }

    /// The same, elsewhere.
    fn to(self, at: At) -> Thread {
        Thread { at, ..self }
    }

    fn at_frame(self, at: At, frame: u8) -> Thread {
        Thread { at, frame, ..self }
    }

    /// Whether it is in line.
    fn is_in_line(&self) -> bool {
        self.ticket != NONE
            && matches!(
                self.at,
                At::Scanning | At::Joining | At::Asleep | At::Working
            )
    }

    /// The number of pins that it has of a frame's page, real ones and others.
    fn pins_of(&self, frame: u8) -> u64 {
        let has_stray = self.at == At::Stray && self.frame == frame;
        let is_aside = self.aside & (1 << frame) != 0;
        u64::from(has_stray) + u64::from(is_aside) + u64::from(self.had == frame)
    }

    /// At the end of its call, with its page or without, or of what it does under the lock: what it set
    /// aside goes first.
    fn returned(self, had: u8, loads: u8) -> Thread {
        let me = Thread {
            kind: self.kind,
            page: self.page,
            had,
            loads,
            ..Thread::default()
        };
        let at = match (self.aside, had, loads) {
            (0, NONE, NONE) => return Thread::default(),
            (0, NONE, _) => At::Reading,
            (0, _, _) => At::Holding,
            (aside, _, _) => {
                return Thread {
                    at: At::Returning,
                    aside,
                    ..me
                };
            }
        };
        Thread { at, ..me }
    }
}

impl<const THREADS: usize, const FRAMES: usize> Model for Frames<THREADS, FRAMES> {
    type State = State<THREADS, FRAMES>;

    fn first(&self) -> Self::State {
        let free = Frame {
            word: 0,
            page: NONE,
            work: Work::Nothing,
            is_unsaved: false,
            awaited: Awaited::NOBODY,
            is_ending: false,
        };
        State {
            frames: [free; FRAMES],
            is_locked: false,
            waiting: 0,
            aside: 0,
            line: Line::default(),
            has_overtaken: false,
            threads: [Thread::default(); THREADS],
        }
    }

    fn add_steps(&self, state: &Self::State, steps: &mut Vec<Step<Self::State>>) {
        for thread in 0..THREADS {
            self.add_steps_of(state, thread, steps);
        }
        self.add_passes_given_back(state, steps);
    }

    fn named_anew(&self, state: Self::State) -> Self::State {
        names::least(self.pages, self.groups, &state)
    }

    fn fault(&self, state: &Self::State) -> Option<String> {
        let faults = [
            state.fault_of_pins(),
            state.fault_of_guards(),
            state.fault_of_line(),
            state.fault_of_turn(),
            state
                .has_overtaken
                .then_some("a call got a frame before one that waits"),
            self.fault_at_rest(state),
        ];
        faults.into_iter().flatten().next().map(String::from)
    }

    fn is_at_rest(&self, state: &Self::State) -> bool {
        state.threads.iter().all(|it| it.at == At::Idle)
    }
}

impl<const THREADS: usize, const FRAMES: usize> State<THREADS, FRAMES> {
    fn fault_of_pins(&self) -> Option<&'static str> {
        let is_wrong = (0..FRAMES as u8).any(|frame| {
            let pins: u64 = self.threads.iter().map(|it| it.pins_of(frame)).sum();
            self.frames[frame as usize].word & SHARES != pins * PIN
        });
        is_wrong.then_some("a word has other shares than the threads")
    }

    fn fault_of_guards(&self) -> Option<&'static str> {
        let guards = self.threads.iter().filter(|it| it.had != NONE);
        for guard in guards {
            let frame = self.frames[guard.had as usize];
            if frame.page != guard.page {
                return Some("a guard of a page is in another page's frame");
            }
            if !Word(frame.word).is_out() || frame.work == Work::Read {
                return Some("a page has a guard, and its pass is not out");
            }
        }
        None
    }

    fn fault_of_line(&self) -> Option<&'static str> {
        let in_line = self.threads.iter().filter(|it| it.is_in_line()).count();
        if in_line != self.line.count() {
            return Some("the line has other calls than the threads");
        }
        let asleep = self
            .threads
            .iter()
            .filter(|it| it.at == At::AsleepToDiscard);
        let looking = self
            .threads
            .iter()
            .filter(|it| it.at == At::LookingToDiscard);
        let waiting = in_line + asleep.count() + looking.count();
        if !self.is_locked && waiting != usize::from(self.waiting) {
            return Some("other threads wait than are seen to wait");
        }
        self.line.fault()
    }

    /// Where a frame can be had, and calls are in line, one of the first group is awake or about to be woken.
    fn fault_of_turn(&self) -> Option<&'static str> {
        let can_be_had = self
            .frames
            .iter()
            .any(|it| it.page == NONE || it.work == Work::Nothing && !Word(it.word).is_used());
        if self.line.is_empty() || self.is_locked {
            return None;
        }
        let waits = |it: &Thread| it.at == At::Asleep && !it.is_woken;
        let mut asleep = self.threads.iter().filter(|it| waits(it));
        if asleep.any(|it| self.frame_of(it.page).is_some()) {
            return Some("a call sleeps in line whose page is in a frame");
        }
        let is_awake = |it: &Thread| match it.at {
            At::Left | At::Ending | At::Waking => true,
            At::Asleep => it.is_woken && it.ticket == self.line.first,
            _ => false,
        };
        if can_be_had {
            let is_passed = !self.threads.iter().any(is_awake);
            return is_passed.then_some("a frame can be had, and who is first sleeps");
        }
        // Who has a fault looks for itself, or lets what it set aside go.
        let goes_on = |it: &Thread| match it.at {
            At::Left | At::Ending | At::Waking | At::Returning | At::Freeing => true,
            At::Coming => it.has_fault,
            _ => false,
        };
        let has_victim = self
            .frames
            .iter()
            .any(|it| it.page == NONE || it.work == Work::Nothing && !it.is_out());
        let is_in_vain =
            |it: &Thread| waits(it) && it.has_fault && self.is_all_aside() && !has_victim;
        let is_forgotten = self.threads.iter().any(is_in_vain) && !self.threads.iter().any(goes_on);
        is_forgotten.then_some("a call that is to be refused sleeps on")
    }
}

impl<const THREADS: usize, const FRAMES: usize> Frames<THREADS, FRAMES> {
    fn fault_at_rest(&self, state: &State<THREADS, FRAMES>) -> Option<&'static str> {
        let may_stay = self.keeps || self.calls.contains(&Kind::Ahead);
        let is_left = |frame: &Frame| {
            let stays = Word(0).with_pass(true) - PIN;
            let word = Word(frame.word).without_joins();
            word != 0 && !(may_stay && word == stays) || frame.work != Work::Nothing
        };
        let is_wrong =
            state.frames.iter().any(is_left) || state.is_locked || state.waiting + state.aside > 0;
        (self.is_at_rest(state) && is_wrong)
            .then_some("no call is under way, and something of one is left")
    }
}

/// Tells what is not as it is by default.
impl fmt::Debug for Thread {
    fn fmt(&self, f: &mut fmt::Formatter<'_>) -> fmt::Result {
        write!(f, "{:?}", self.at)?;
        if self.page != NONE {
            write!(f, "({:?} {})", self.kind, self.page)?;
        }
        let numbers = [
            ("frame", self.frame),
            ("had", self.had),
            ("loads", self.loads),
            ("ticket", self.ticket),
        ];
        for (name, number) in numbers.iter().filter(|it| it.1 != NONE) {
            write!(f, " {name} {number}")?;
        }
        let sets = [("aside", self.aside), ("seen", self.seen)];
        for (name, set) in sets.iter().filter(|it| it.1 != 0) {
            write!(f, " {name} {set:b}")?;
        }
        let flags = [
            ("had its turn", self.had_turn),
            ("has a fault", self.has_fault),
            ("woken", self.is_woken),
            ("over", self.is_over),
            ("unused", self.is_unused),
        ];
        for (name, _) in flags.iter().filter(|it| it.1) {
            write!(f, ", {name}")?;
        }
        if self.then != Then::End {
            write!(f, ", then {:?}", self.then)?;
        }
        Ok(())
    }
}

impl fmt::Debug for Frame {
    fn fmt(&self, f: &mut fmt::Formatter<'_>) -> fmt::Result {
        if self.page != NONE {
            write!(f, "page {}, ", self.page)?;
        }
        if self.work != Work::Nothing {
            write!(f, "{:?}, ", self.work)?;
        }
        let pins = (self.word & SHARES) / PIN;
        let flags = [
            ("out", self.is_out()),
            ("stays", self.is_kept()),
            ("unsaved", self.is_unsaved),
            ("awaited", self.awaited.calls > 0),
            ("ending", self.is_ending),
        ];
        for (name, _) in flags.iter().filter(|it| it.1) {
            write!(f, "{name}, ")?;
        }
        write!(f, "{pins} pins")
    }
}
