//! The runs: which models are tried, how large, and what is to come of each.
use crate::explore::{Explored, Model, explore};
use crate::frames::{self, Frames, Kind};
use crate::latch::{self, Latch};
use crate::syncs::{self, Syncs};
use std::time::Instant;

/// More states than this are too many for a run.
const MOST: usize = 40_000_000;

#[derive(Clone, Copy, PartialEq, Eq)]
pub enum Size {
    /// What the gate has time for.
    Gate,
    Full,
}

pub struct Run {
    pub name: String,
    /// Whether the protocol is a weakened one, in which a fault has to be found.
    is_weak: bool,
    explore: Box<dyn FnOnce() -> Explored + Send>,
}

impl Run {
    fn of<M: Model + Send + 'static>(name: &str, model: M) -> Run {
        Run {
            name: name.to_string(),
            is_weak: false,
            explore: Box::new(move || explore(&model, MOST)),
        }
    }

    fn weak<M: Model + Send + 'static>(name: &str, model: M) -> Run {
        Run {
            is_weak: true,
            ..Run::of(name, model)
        }
    }

    /// Makes the run, and says what came of it: with the steps to what was found, if `tells_all` is so or
    /// it was not to be found. Returns whether it passed.
    pub fn tell(self, tells_all: bool) -> bool {
        let began = Instant::now();
        let explored = (self.explore)();
        let (found, way) = match explored.fault {
            Some(fault) => (fault.what, fault.way),
            None if explored.is_whole => ("nothing wrong".to_string(), Vec::new()),
            None => ("too many states".to_string(), Vec::new()),
        };
        let has_passed = match self.is_weak {
            true => !way.is_empty(),
            false => way.is_empty() && explored.is_whole,
        };
        let word = if has_passed { "passed" } else { "failed" };
        let (name, states, seconds) = (self.name, explored.states, began.elapsed().as_secs());
        let mut lines = format!("{word}: {name}: {found} ({states} states, {seconds} s)");
        if tells_all || !has_passed {
            for line in way {
                lines += "\n    ";
                lines += &line;
            }
        }
        println!("{lines}");
        has_passed
    }
}

/// All runs of a size, the longest first.
pub fn all(size: Size) -> Vec<Run> {
    let mut runs = Vec::new();
    if size == Size::Full {
        runs.extend(large_runs());
    }
    runs.extend(latches());
    runs.extend(frames());
    runs.extend(syncs());
    runs.extend(weakened_latches());
    runs.extend(weakened_frames());
    runs
}

/// One, the other, or either.
const GOOD: &[bool] = &[true];
const BAD: &[bool] = &[false];
const ANY: &[bool] = &[true, false];
const NONE: &[bool] = &[];

const LATCH: Latch<3> = Latch {
    has_all_calls: true,
    stays: ANY,
    forgotten: 0,
    weakness: None,
};

fn latches() -> Vec<Run> {
    let four = Latch::<4> {
        has_all_calls: true,
        stays: ANY,
        forgotten: 0,
        weakness: None,
    };
    let mut runs = vec![Run::of("latch: four threads", four)];
    for left in 0..3 {
        let crowded = Latch::<3> {
            forgotten: latch::MOST_PINS - left,
            ..LATCH
        };
        let name = format!("latch: three threads, room for {left} pins");
        runs.push(Run::of(&name, crowded));
    }
    runs
}

fn weakened_latches() -> impl Iterator<Item = Run> {
    use latch::Weakness as Weak;
    let weaknesses = [
        Weak::StrayCallsNobody,
        Weak::MissedCallsNobody,
        Weak::QueuesThoughFree,
        Weak::ForgetsSecond,
        Weak::WriterSleepsOn,
        Weak::WriterUnqueues,
        Weak::JoinsBesideWriter,
        Weak::EndsWhatWasUnused,
        Weak::OpensBesideReaders,
    ];
    weaknesses.into_iter().map(|it| {
        let weakness = Some(it);
        Run::weak(
            &format!("latch, weakened: {it:?}"),
            Latch { weakness, ..LATCH },
        )
    })
}

fn syncs() -> Vec<Run> {
    use syncs::Weakness as Weak;
    let five = Syncs::<5> { weakness: None };
    let mut runs = vec![Run::of("syncs: five threads", five)];
    let weaknesses = [
        Weak::TakesTheRunning,
        Weak::WakesOne,
        Weak::WakesTooSoon,
        Weak::KeepsItsTurn,
    ];
    runs.extend(weaknesses.map(|it| {
        let weakness = Some(it);
        let name = format!("syncs, weakened: {it:?}");
        Run::weak(&name, Syncs::<4> { weakness })
    }));
    runs
}

/// Threads that pin pages, of which there is one more than frames. Nothing is put, and nothing fails.
const fn usual<const THREADS: usize, const FRAMES: usize>() -> Frames<THREADS, FRAMES> {
    Frames {
        pages: FRAMES as u8 + 1,
        groups: 2,
        keeps: true,
        calls: &[Kind::Pin],
        strays: true,
        reads: GOOD,
        writes: NONE,
        logs: NONE,
        closed: ANY,
        weakness: None,
    }
}

const ONE: Frames<3, 1> = usual();
const TWO: Frames<3, 2> = usual();
const ALL: &[Kind] = &[
    Kind::Pin,
    Kind::Try,
    Kind::Ahead,
    Kind::New,
    Kind::Discard,
    Kind::Flush,
];
const FLUSHES: &[Kind] = &[Kind::Pin, Kind::Flush];
const DISCARDS: &[Kind] = &[Kind::Pin, Kind::Discard];
const FLUSHES_AND_DISCARDS: &[Kind] = &[Kind::Pin, Kind::Flush, Kind::Discard];

#[rustfmt::skip]
fn frames() -> Vec<Run> {
    let two_threads = Frames::<2, 2> { calls: ALL, reads: ANY, writes: ANY, logs: ANY, ..usual() };
    let aheads = Frames { calls: &[Kind::New, Kind::Ahead, Kind::Flush], writes: ANY, ..ONE };
    let discards = Frames { calls: FLUSHES_AND_DISCARDS, writes: ANY, ..ONE };
    let tries = Frames { calls: &[Kind::Pin, Kind::Try, Kind::Discard], reads: ANY, ..ONE };
    let faults = Frames { calls: FLUSHES, writes: BAD, logs: ANY, ..ONE };
    let closed = Frames { closed: GOOD, ..TWO };
    let four = Frames::<4, 2> { strays: false, closed: GOOD, ..usual() };
    let keeps_none = Frames { keeps: false, writes: BAD, ..TWO };
    vec![
        Run::of("frames: 3 threads, 2 frames, no pass stays, writes always fail", keeps_none),
        Run::of("frames: 2 threads, 2 frames, all calls, any faults", two_threads),
        Run::of("frames: 3 threads, 1 frame, new pages, flushes, reads ahead", aheads),
        Run::of("frames: 3 threads, 1 frame, flushes and discards", discards),
        Run::of("frames: 4 threads, 2 frames, a closed line, no strays", four),
        Run::of("frames: 3 threads, 2 frames, a closed line", closed),
        Run::of("frames: 3 threads, 1 frame, tries and discards", tries),
        Run::of("frames: 3 threads, 1 frame, writes always fail", faults),
    ]
}

fn weakened<const FRAMES: usize>(of: Frames<3, FRAMES>, weakness: frames::Weakness) -> Run {
    let name = format!("frames, weakened: {weakness:?}");
    let weakness = Some(weakness);
    Run::weak(&name, Frames { weakness, ..of })
}

#[rustfmt::skip]
fn weakened_frames() -> Vec<Run> {
    use frames::Weakness as Weak;
    let discards = Frames { calls: FLUSHES_AND_DISCARDS, writes: GOOD, ..ONE };
    let faults = Frames { calls: FLUSHES, writes: BAD, ..ONE };
    let closed = Frames { closed: GOOD, reads: ANY, ..ONE };
    let two = Frames { closed: GOOD, writes: BAD, ..TWO };
    vec![
        weakened(ONE, Weak::ComparesBefore),
        weakened(ONE, Weak::EndsWhatWasUnused),
        weakened(ONE, Weak::LooksBeforeItWaits),
        weakened(ONE, Weak::ReadWakesNobody),
        weakened(ONE, Weak::SleepsInLine),
        weakened(ONE, Weak::StaysAtEmptyGroup),
        weakened(ONE, Weak::LetsGoSilently),
        weakened(two, Weak::LeavesSilently),
        weakened(faults, Weak::WakesOneOfTheFirst),
        weakened(closed, Weak::AsksOutOfTurn),
        weakened(discards, Weak::DiscardWakesNobody),
    ]
}

#[rustfmt::skip]
fn large_runs() -> Vec<Run> {
    let five = Latch::<5> { has_all_calls: false, stays: ANY, forgotten: 0, weakness: None };
    let six = Latch::<6> { has_all_calls: false, stays: GOOD, forgotten: 0, weakness: None };
    let any = Frames { writes: ANY, ..TWO };
    let bad = Frames { writes: BAD, logs: BAD, groups: 3, strays: false, ..TWO };
    let all = Frames { calls: ALL, reads: ANY, writes: ANY, ..ONE };
    let discards = Frames { calls: DISCARDS, ..TWO };
    let four = Frames::<4, 1> { pages: 3, reads: ANY, ..usual() };
    let groups = Frames::<4, 1> { groups: 3, ..usual() };
    let two = Frames::<4, 2> { groups: 3, strays: false, ..usual() };
    let three = Frames::<4, 3> { closed: GOOD, strays: false, ..usual() };
    vec![
        Run::of("latch: six threads, no tries, none beside a pin, passes that stay", six),
        Run::of("latch: five threads, no tries, none beside a pin", five),
        Run::of("frames: 3 threads, 2 frames, writes may fail", any),
        Run::of("frames: 3 threads, 2 frames, writes and the log always fail, no strays", bad),
        Run::of("frames: 4 threads, 1 frame, 3 pages, reads may fail", four),
        Run::of("frames: 4 threads, 1 frame, 3 groups", groups),
        Run::of("frames: 4 threads, 2 frames, 3 groups, no strays", two),
        Run::of("frames: 4 threads, 3 frames, a closed line, no strays", three),
        Run::of("frames: 3 threads, 1 frame, all calls", all),
        Run::of("frames: 3 threads, 2 frames, discards", discards),
    ]
}
