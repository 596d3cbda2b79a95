//! Rows of calls with what each gives, reckoned by hand: those of `crates/scenarios` that a caller
//! of the library can see. What they tell of stamps, of the clock and of the trail is left out.
mod calls;

use calls::{Do, Gives, Run, pool};
use hojzmated::Error;
use hojzmated::core::{Config, Pool, Saved};

const NEEDS_LOG_5: Gives = Gives::Refused(Error::NeedLog { lsn: 5 });

/// Makes the calls over a pool with two stamps and room enough.
fn usual(frames: usize, rows: &[(Do, Gives)]) {
    Run::of(pool(2, 1000, frames, 100)).follow(rows);
}

// ---- Reads

#[test]
fn failed_read_records_nothing() {
    let rows = [
        (Do::Fix(0, 4), Gives::Load(4, 0, None)),
        (Do::ReadFails, Gives::Done),
        (Do::Fix(0, 5), Gives::Load(5, 1, None)),
        (Do::ReadEnd(0), Gives::Pass(0, 5, 0)),
        (Do::Unfix(0), Gives::Done),
        (Do::Tick(1), Gives::Done),
        (Do::Fix(0, 4), Gives::Load(4, 2, Some(5))),
        (Do::ReadEnd(0), Gives::Pass(0, 4, 1)),
        (Do::Unfix(1), Gives::Done),
    ];
    usual(1, &rows);
}

// Two clients fix a page, the second while it is read for the first.
#[test]
fn loading_page_is_busy() {
    let rows = [
        (Do::Fix(0, 7), Gives::Load(7, 0, None)),
        (Do::Fix(1, 7), Gives::Refused(Error::Busy)),
        (Do::ReadEnd(0), Gives::Pass(0, 7, 0)),
        (Do::Fix(1, 7), Gives::Pass(1, 7, 1)),
        (Do::Read(1), Gives::Page(Some(0))),
        (Do::Unfix(0), Gives::Done),
        (Do::Unfix(1), Gives::Done),
    ];
    usual(2, &rows);
}

// Page 1 makes way for page 2, and is purged one tick past the retained period of ten.
#[test]
fn purge_past_the_retained_period() {
    let rows = [
        (Do::Fix(0, 1), Gives::Load(1, 0, None)),
        (Do::ReadEnd(0), Gives::Pass(0, 1, 0)),
        (Do::Unfix(0), Gives::Done),
        (Do::Tick(9), Gives::Done),
        (Do::Fix(0, 2), Gives::Load(2, 1, Some(1))),
        (Do::ReadEnd(0), Gives::Pass(0, 2, 1)),
        (Do::Unfix(1), Gives::Done),
        (Do::Tick(1), Gives::Done),
        (Do::Purge, Gives::Number(0)),
        (Do::Tick(1), Gives::Done),
        (Do::Purge, Gives::Number(1)),
    ];
    Run::of(pool(2, 10, 1, 100)).follow(&rows);
}

// Pages 1, 2 and 3 are referenced at the times 1, 2 and 3. While page 1 is pinned, page 2 makes
// way, and afterwards page 1.
#[test]
fn pinned_page_stays_at_k_one() {
    let rows = [
        (Do::Fix(0, 1), Gives::Load(1, 0, None)),
        (Do::ReadEnd(0), Gives::Pass(0, 1, 0)),
        (Do::Tick(1), Gives::Done),
        (Do::Fix(0, 2), Gives::Load(2, 1, None)),
        (Do::ReadEnd(0), Gives::Pass(0, 2, 1)),
        (Do::Unfix(1), Gives::Done),
        (Do::Tick(1), Gives::Done),
        (Do::Fix(0, 3), Gives::Load(3, 2, None)),
        (Do::ReadEnd(0), Gives::Pass(0, 3, 2)),
        (Do::Unfix(2), Gives::Done),
        (Do::Tick(1), Gives::Done),
        (Do::Fix(0, 4), Gives::Load(4, 3, Some(2))),
        (Do::ReadEnd(0), Gives::Pass(0, 4, 3)),
        (Do::Unfix(3), Gives::Done),
        (Do::Tick(1), Gives::Done),
        (Do::Read(0), Gives::Page(Some(0))),
        (Do::Unfix(0), Gives::Done),
        (Do::Fix(0, 5), Gives::Load(5, 4, Some(1))),
        (Do::ReadEnd(0), Gives::Pass(0, 5, 4)),
        (Do::Unfix(4), Gives::Done),
    ];
    Run::of(pool(1, 1000, 3, 100)).follow(&rows);
}

// As after a read that failed, the frame is free, and the page has no references and is not pinned.
#[test]
fn wrong_page_records_nothing() {
    let rows = [
        (Do::Fix(0, 4), Gives::Load(4, 0, None)),
        (Do::ReadFindsAnother, Gives::Done),
        (Do::Flush(0, 4), Gives::Absent),
        (Do::Fix(0, 5), Gives::Load(5, 1, None)),
        (Do::ReadEnd(0), Gives::Pass(0, 5, 0)),
        (Do::Unfix(0), Gives::Done),
    ];
    usual(1, &rows);
}

// ---- Write-outs

// Page 1 is written while it is written out, and has to be written out once more before it makes
// way.
#[test]
fn write_during_a_write_out() {
    let rows = [
        (Do::Fix(0, 1), Gives::Load(1, 0, None)),
        (Do::ReadEnd(0), Gives::Pass(0, 1, 0)),
        (Do::Write(0, 1, 1), Gives::Done),
        (Do::Mark(1), Gives::Done),
        (Do::Flush(1, 1), Gives::Out(1, 1, Some(1), 1)),
        (Do::Write(0, 2, 1), Gives::Done),
        (Do::WriteEnd, Gives::Ended(Saved::StillDirty)),
        (Do::Unfix(0), Gives::Done),
        (Do::Tick(1), Gives::Done),
        (Do::Fix(0, 2), Gives::Out(1, 2, Some(2), 1)),
        (Do::WriteEnd, Gives::Ended(Saved::Clean)),
        (Do::Fix(0, 2), Gives::Load(2, 3, Some(1))),
        (Do::ReadEnd(0), Gives::Pass(0, 2, 1)),
        (Do::Unfix(1), Gives::Done),
    ];
    usual(1, &rows);
}

// The page keeps what was written to it, and is flushed anew, since the write-out that failed saved
// nothing.
#[test]
fn flush_after_a_failed_write_out() {
    let rows = [
        (Do::Fix(0, 1), Gives::Load(1, 0, None)),
        (Do::ReadEnd(0), Gives::Pass(0, 1, 0)),
        (Do::Write(0, 9, 1), Gives::Done),
        (Do::Unfix(0), Gives::Done),
        (Do::Tick(1), Gives::Done),
        (Do::Mark(1), Gives::Done),
        (Do::Fix(0, 2), Gives::Out(1, 1, Some(9), 1)),
        (Do::WriteFails, Gives::Done),
        (Do::Fix(0, 1), Gives::Pass(0, 1, 1)),
        (Do::Read(1), Gives::Page(Some(9))),
        (Do::Flush(0, 1), Gives::Out(1, 2, Some(9), 1)),
        (Do::WriteEnd, Gives::Ended(Saved::Clean)),
        (Do::Unfix(1), Gives::Done),
    ];
    usual(1, &rows);
}

#[test]
fn unsaved_victim_waits() {
    let rows = [
        (Do::Fix(0, 1), Gives::Load(1, 0, None)),
        (Do::ReadEnd(0), Gives::Pass(0, 1, 0)),
        (Do::Write(0, 1, 0), Gives::Done),
        (Do::Unfix(0), Gives::Done),
        (Do::Tick(1), Gives::Done),
        (Do::Fix(0, 2), Gives::Out(1, 1, Some(1), 0)),
        (Do::WriteEnd, Gives::Ended(Saved::Clean)),
    ];
    usual(1, &rows);
}

#[test]
fn flush_waits_for_the_log() {
    let needs_log = Gives::Refused(Error::NeedLog { lsn: 3 });
    let rows = [
        (Do::Fix(0, 1), Gives::Load(1, 0, None)),
        (Do::ReadEnd(0), Gives::Pass(0, 1, 0)),
        (Do::Flush(0, 1), Gives::Clean),
        (Do::Write(0, 5, 3), Gives::Done),
        (Do::Flush(0, 1), needs_log),
        (Do::Mark(3), Gives::Done),
        (Do::Flush(0, 1), Gives::Out(1, 1, Some(5), 3)),
        (Do::Flush(0, 1), Gives::Refused(Error::Busy)),
        (Do::WriteEnd, Gives::Ended(Saved::Clean)),
        (Do::Flush(0, 1), Gives::Clean),
        (Do::Flush(0, 2), Gives::Absent),
        (Do::Unfix(0), Gives::Done),
    ];
    usual(1, &rows);
}

// A mark of less than before changes nothing.
#[test]
fn mark_never_falls() {
    let needs_log = Gives::Refused(Error::NeedLog { lsn: 7 });
    let rows = [
        (Do::Fix(0, 1), Gives::Load(1, 0, None)),
        (Do::ReadEnd(0), Gives::Pass(0, 1, 0)),
        (Do::Write(0, 255, 7), Gives::Done),
        (Do::Unfix(0), Gives::Done),
        (Do::Mark(5), Gives::Done),
        (Do::Tick(1), Gives::Done),
        (Do::Fix(0, 2), needs_log),
        (Do::Mark(7), Gives::Done),
        (Do::Mark(6), Gives::Done),
        (Do::Fix(0, 2), Gives::Out(1, 1, Some(255), 7)),
        (Do::WriteEnd, Gives::Ended(Saved::Clean)),
    ];
    Run::of(pool(1, 1000, 1, 100)).follow(&rows);
}

// ---- A reckoned trail

// Of two frames, with two stamps. The first twelve rows bring in pages 1 and 2, and write page 1: at
// time 7 page 1 has one reference, and page 2 has two. Then page 1 has to leave. It is written out
// first, once the log is durable to LSN 5. Page 3 can't be read, and page 1 is read again, into the
// free frame. At time 8 page 1 leaves once more, since its second reference is of time 1, and that of
// page 2 is of time 4.
#[test]
fn reckoned_trail() {
    let rows = [
        (Do::Fix(0, 1), Gives::Load(1, 0, None)),
        (Do::ReadEnd(1), Gives::Pass(0, 1, 0)),
        (Do::Write(0, 7, 5), Gives::Done),
        (Do::Read(0), Gives::Page(Some(7))),
        (Do::Fix(1, 2), Gives::Load(2, 1, None)),
        (Do::ReadEnd(2), Gives::Pass(1, 2, 1)),
        (Do::Tick(3), Gives::Done),
        (Do::Fix(1, 2), Gives::Pass(1, 2, 2)),
        (Do::Unfix(1), Gives::Done),
        (Do::Unfix(2), Gives::Done),
        (Do::Unfix(0), Gives::Done),
        (Do::Tick(3), Gives::Done),
        (Do::Fix(0, 3), NEEDS_LOG_5),
        (Do::Mark(5), Gives::Done),
        (Do::Fix(0, 3), Gives::Out(1, 2, Some(7), 5)),
        (Do::Fix(1, 2), Gives::Pass(1, 2, 3)),
        (Do::WriteEnd, Gives::Ended(Saved::Clean)),
        (Do::Fix(0, 3), Gives::Load(3, 3, Some(1))),
        (Do::ReadFails, Gives::Done),
        (Do::Fix(0, 1), Gives::Load(1, 4, None)),
        (Do::ReadEnd(7), Gives::Pass(0, 1, 4)),
        (Do::Flush(1, 1), Gives::Clean),
        (Do::Unfix(3), Gives::Done),
        (Do::Purge, Gives::Number(0)),
        (Do::Unfix(4), Gives::Done),
        (Do::Tick(1), Gives::Done),
        (Do::Fix(0, 4), Gives::Load(4, 5, Some(1))),
        (Do::ReadEnd(4), Gives::Pass(0, 4, 5)),
        (Do::Unfix(5), Gives::Done),
    ];
    usual(2, &rows);
}

// ---- Strangers

const BRINGS: [(Do, Gives); 2] = [
    (Do::Fix(0, 1), Gives::Load(1, 0, None)),
    (Do::ReadEnd(0), Gives::Pass(0, 1, 0)),
];

// The pass comes back, and is good for its own pool.
#[test]
fn pass_of_another_pool() {
    let mut own = Run::of(pool(2, 1000, 1, 100));
    let mut other = Run::of(pool(2, 1000, 1, 100));
    own.follow(&BRINGS);
    other.passes.push(own.passes[0].take());
    let refused = [
        (Do::Read(0), Gives::Refused(Error::UnknownPass)),
        (Do::Write(0, 1, 1), Gives::Refused(Error::UnknownPass)),
    ];
    other.follow(&refused);
    own.passes[0] = other.passes[0].take();
    own.follow(&[(Do::Unfix(0), Gives::Done)]);
    own.follow(&[(Do::Fix(0, 1), Gives::Pass(0, 1, 1))]);
    other.passes[0] = own.passes[1].take();
    other.follow(&[(Do::Unfix(0), Gives::PassBack(0, 1, 1))]);
}

// The ticket comes back, and is good for its own pool.
#[test]
fn ticket_of_another_pool() {
    let mut own = Run::of(pool(2, 1000, 1, 100));
    let mut other = Run::of(pool(2, 1000, 1, 100));
    own.follow(&[(Do::Fix(0, 1), Gives::Load(1, 0, None))]);
    other.read = own.read.take();
    other.follow(&[(Do::ReadEnd(6), Gives::TicketBack(1, 0))]);
    own.read = other.read.take();
    own.follow(&[
        (Do::ReadEnd(0), Gives::Pass(0, 1, 0)),
        (Do::Unfix(0), Gives::Done),
    ]);
}

// The oldest pass and the newest stay out, while those between them go back.
#[test]
fn passes_from_the_middle() {
    let mut run = Run::of(pool(2, 1000, 1, 100));
    run.follow(&BRINGS);
    run.follow(&[(Do::Fix(0, 1), Gives::Pass(0, 1, 1))]);
    for before in 1..39 {
        run.follow(&[
            (Do::Fix(0, 1), Gives::Pass(0, 1, before + 1)),
            (Do::Unfix(before as usize), Gives::Done),
        ]);
    }
    run.follow(&[(Do::Unfix(39), Gives::Done), (Do::Unfix(0), Gives::Done)]);
}

// ---- Limits

#[test]
fn keeps_the_limits_of_a_pool() {
    for (frames, clients, room, refused) in [
        (1, 1, 1, None),
        (65_536, 64, 1, None),
        (0, 1, 1, Some(2)),
        (65_537, 1, 1, Some(2)),
        (1, 0, 1, Some(2)),
        (1, 65, 1, Some(2)),
        (1, 1, 0, Some(2)),
        (1, 1, 2_305_843_009_213_693_952, None),
        (1, 1, 2_305_843_009_213_693_953, Some(2)),
    ] {
        let config = Config::new(1, 16, frames)
            .with_clients(clients)
            .with_room(room)
            .with_k(1)
            .with_retained(0);
        let found = Pool::new(&config).err().map(Error::number);
        assert_eq!(found, refused, "{config:?}");
    }
}

#[test]
fn full_trail() {
    let refused = Gives::Refused(Error::TrailFull);
    Run::of(pool(2, 1000, 1, 2)).follow(&[(Do::Fix(0, 1), refused)]);
    let rows = [
        (Do::Fix(0, 1), Gives::Load(1, 0, None)),
        (Do::ReadEnd(0), Gives::Pass(0, 1, 0)),
        (Do::Unfix(0), Gives::Done),
        (Do::Fix(0, 1), refused),
    ];
    Run::of(pool(2, 1000, 1, 3)).follow(&rows);
}

#[test]
fn clock_at_its_end() {
    let rows = [
        (Do::Tick(0), Gives::Done),
        (Do::Tick(4_611_686_018_427_387_903), Gives::Done),
        (Do::Tick(1), Gives::Refused(Error::ClockFull)),
        (Do::Tick(0), Gives::Done),
    ];
    usual(1, &rows);
}
