//! What each call says where it cannot be done, and that nothing is lost by it.
use crate::device::{Asked, Device, Fate, PAGES, SIZE, config, pager, put, with_an_unsaved_page};
use hojzmated::{Error, Pager, PagerConfig, PagerError, ReadFault};
use std::error::Error as _;
use std::io::{self, ErrorKind};
use std::panic::{AssertUnwindSafe, catch_unwind};
use std::sync::Arc;
use std::time::{Duration, Instant};

type Call = fn(&Pager<Device>) -> Result<(), PagerError>;

/// What a call came to, by what it was refused for.
fn refusal<T>(told: Result<T, PagerError>) -> Option<Error> {
    told.err().map(|error| error.refusal())
}

#[test]
fn page_that_the_file_has_not() {
    let pager = pager(1);
    for page in [PAGES, u64::MAX] {
        let told = [
            refusal(pager.read(page)),
            refusal(pager.try_read(page)),
            refusal(pager.write(page)),
            refusal(pager.try_write(page)),
            refusal(pager.pin(page)),
            refusal(pager.try_pin(page)),
            refusal(pager.new_page(page)),
            refusal(pager.flush(page)),
        ];
        assert_eq!(told, [Some(Error::NoSuchPage { page }); 8]);
        assert!(!pager.is_resident(page));
    }
    assert_eq!(pager.io().asked(), []);
}

#[test]
fn bytes_that_the_page_has_not() {
    let pager = pager(1);
    let mut page = pager.write(1).unwrap();
    page.put(0, &[7; SIZE], 1).unwrap();
    for (offset, len) in [(1, SIZE), (SIZE, 1), (usize::MAX, 1), (0, SIZE + 1)] {
        let told = page.put(offset, &vec![8; len], 2);
        assert_eq!(told, Err(Error::OutOfPage { offset, len }));
        assert_eq!(page.bytes(), [7; SIZE]);
    }
    drop(page);
    pager.flush(1).unwrap();
    assert_eq!(pager.io().asked().last(), Some(&Asked::Write(1, 7, 1)));
}

// As an error of the system it has the kind of the device's own fault, or that of a refusal, and is within.
#[test]
fn errors_of_the_system() {
    let pager = pager(1);
    pager.io().ends_as(|asked| match asked {
        Asked::Read(_) => Err(ReadFault::Device(ErrorKind::TimedOut.into())),
        _ => Ok(()),
    });
    let error = io::Error::from(pager.read(1).map(drop).unwrap_err());
    assert_eq!(error.kind(), ErrorKind::TimedOut);
    assert_eq!(error.to_string(), "page 1 could not be read");
    let source = error.source().and_then(|it| it.downcast_ref());
    assert_eq!(source.map(io::Error::kind), Some(ErrorKind::TimedOut));
    let within = error.downcast::<PagerError>().unwrap();
    assert!(matches!(within, PagerError::Read { page: 1, .. }));
    // By `?`.
    let ends = || -> io::Result<()> {
        pager.write(PAGES)?.put(0, &[1], 1)?;
        Ok(())
    };
    assert_eq!(ends().unwrap_err().kind(), ErrorKind::InvalidInput);
    for (error, kind) in [
        (PagerError::WrongPage { page: 1 }, ErrorKind::InvalidData),
        (PagerError::Spoilt { page: 1 }, ErrorKind::InvalidData),
        (PagerError::SyncFailedBefore, ErrorKind::Other),
        (Error::OutOfMemory.into(), ErrorKind::OutOfMemory),
        (Error::NoVictim.into(), ErrorKind::ResourceBusy),
        (Error::Deadlock.into(), ErrorKind::Deadlock),
        (bad("k").into(), ErrorKind::InvalidInput),
        (Error::ClockFull.into(), ErrorKind::Other),
    ] {
        assert_eq!(io::Error::from(error).kind(), kind);
    }
    assert_eq!(io::Error::from(Error::Busy).kind(), ErrorKind::ResourceBusy);
}

// A page that is had alone is looked at as one that is shared.
#[test]
fn bytes_of_a_page_alone() {
    fn sum(bytes: impl AsRef<[u8]>) -> u64 {
        bytes.as_ref().iter().map(|it| u64::from(*it)).sum()
    }
    let pager = Arc::new(pager(1));
    let mut page = pager.write(1).unwrap();
    page.put(2, &[3, 4], 0).unwrap();
    assert_eq!((page.len(), &page[1..5]), (SIZE, &[0, 3, 4, 0][..]));
    assert_eq!(sum(page), 7);
    let mut page = pager.write_owned(1).unwrap();
    page.put(0, &[1], 0).unwrap();
    assert_eq!((page.len(), &page[..4]), (SIZE, &[1, 0, 3, 4][..]));
    assert_eq!(sum(page), 8);
}

// By whichever call. Once a guard is dropped another one is had, and once all are the page is as any.
#[test]
fn too_many_guards_of_a_page() {
    let pager = with_an_unsaved_page(1);
    let mut pins: Vec<_> = (0..1 << 19).map(|_| pager.pin(1).unwrap()).collect();
    for _ in 0..3 {
        let told = [
            refusal(pager.pin(1)),
            refusal(pager.try_pin(1)),
            refusal(pager.read(1)),
            refusal(pager.try_read(1)),
            refusal(pager.new_page(1)),
        ];
        assert_eq!(told, [Some(Error::TooManyGuards); 5]);
    }
    assert!(pins[0].try_read().is_none() && pins[0].try_write().is_none());
    drop(pins.pop());
    // There is room for a pin, and beside it none for a latch.
    let last = pager.pin(1).unwrap();
    assert!(catch_unwind(AssertUnwindSafe(|| last.read().len())).is_err());
    drop((last, pins));
    assert_eq!(pager.read(1).unwrap()[0], 9);
    assert_eq!(pager.stats().pinned, 0);
}

fn bad(field: &'static str) -> Error {
    Error::BadSetting { field }
}

fn told_of(config: &PagerConfig) -> Result<(), Error> {
    Pager::new(config, Device::default()).map(drop)
}

#[test]
fn numbers_of_parts() {
    for (parts, told) in [
        (0, Err(bad("parts"))),
        (1, Ok(())),
        (64, Ok(())),
        (65, Err(bad("parts"))),
        (usize::MAX, Err(bad("parts"))),
    ] {
        let good = PagerConfig::new(100, SIZE, 100);
        assert_eq!(told_of(&good.with_parts(parts)), told, "{parts}");
    }
    // No more than frames, or pages.
    for (pages, frames, field) in [(2, 3, "parts"), (3, 2, "parts"), (100, 0, "frames")] {
        let good = PagerConfig::new(pages, SIZE, frames);
        let told = told_of(&good.with_parts(3));
        assert_eq!(told, Err(bad(field)), "{pages} pages, {frames} frames");
    }
}

#[test]
fn settings_out_of_their_limits() {
    type Change = fn(&mut PagerConfig);
    let changes: [(&str, Change); 7] = [
        ("frames", |it| it.frames = 0),
        ("frames", |it| it.frames = 65_537),
        ("frames", |it| it.frames = usize::MAX),
        ("k", |it| it.k = 0),
        ("k", |it| it.k = 17),
        ("correlated", |it| it.correlated = (1 << 62) + 1),
        ("retained", |it| it.retained = (1 << 62) + 1),
    ];
    for (field, change) in changes {
        let mut config = config(100);
        change(&mut config);
        assert_eq!(told_of(&config), Err(bad(field)), "{config:?}");
        assert_eq!(bad(field).number(), 2);
    }
}

#[test]
fn geometry_out_of_its_limits() {
    for (pages, page_size, field) in [
        (0, 16, "pages"),
        (100, 0, "page_size"),
        (100, 24, "page_size"),
        (100, 65_552, "page_size"),
        (u64::MAX, 16, "pages"),
    ] {
        for parts in [1, 2] {
            let config = PagerConfig::new(100, 16, 100).with_parts(parts);
            let config = config.with_pages(pages).with_page_size(page_size);
            // Two parts are more than no pages.
            let field = match (pages, parts) {
                (0, 2) => "parts",
                _ => field,
            };
            assert_eq!(told_of(&config), Err(bad(field)), "{config:?}");
        }
        assert_eq!(bad(field).number(), 1);
    }
    let config = PagerConfig::new((1 << 21) + 1, 16, 2).with_parts(2);
    assert_eq!(told_of(&config), Err(bad("pages")));
}

// At once, or after the time that the engine gave. The page that is pinned can be used.
#[test]
fn pinned_frames() {
    let pin_wait = Duration::from_millis(60);
    let config = config(1).with_pin_wait(pin_wait);
    let pager = Pager::new(&config, Device::default()).unwrap();
    let page = pager.read(1).unwrap();
    let began = Instant::now();
    assert_eq!(refusal(pager.try_read(2)), Some(Error::NoVictim));
    assert_eq!(refusal(pager.try_write(2)), Some(Error::NoVictim));
    assert_eq!(refusal(pager.try_pin(2)), Some(Error::NoVictim));
    assert!(began.elapsed() < pin_wait);
    assert_eq!(pager.stats().waits, 0);
    for told in [
        refusal(pager.read(2)),
        refusal(pager.write(2)),
        refusal(pager.pin(2)),
        refusal(pager.new_page(2)),
    ] {
        assert_eq!(told, Some(Error::NoVictim));
    }
    assert!(began.elapsed() >= pin_wait * 4);
    assert!(pager.stats().waits >= 4);
    assert_eq!(pager.try_read(1).unwrap().map(|it| it.page()), Some(1));
    drop(page);
    assert_eq!(pager.try_read(2).unwrap().map(|it| it.page()), Some(2));
    assert_eq!(pager.io().asked(), [1, 2].map(Asked::Read));
}

#[test]
fn failed_read() {
    let pager = pager(1);
    pager.io().is_next(Fate::Fails);
    let error = pager.read(1).map(drop).unwrap_err();
    assert!(matches!(error, PagerError::Read { page: 1, .. }));
    assert_eq!(error.source().unwrap().to_string(), "no such luck");
    assert!(!pager.is_resident(1));
    pager.io().is_next(Fate::FindsAnother);
    let error = pager.write(1).map(drop).unwrap_err();
    assert!(matches!(error, PagerError::WrongPage { page: 1 }));
    assert_eq!(pager.read(2).unwrap().page(), 2);
    assert_eq!(pager.read(1).unwrap().page(), 1);
    assert_eq!(pager.io().asked(), [1, 1, 2, 1].map(Asked::Read));
    let stats = pager.stats();
    assert_eq!(
        (stats.totals.faults, stats.totals.failed, stats.pinned),
        (2, 2, 0)
    );
}

// By a page that has to make way, and by a flush, a checkpoint and a clean.
#[test]
fn failed_write_out() {
    let pager = with_an_unsaved_page(1);
    pager.mark(5);
    let calls: [Call; 4] = [
        |it| it.read(2).map(drop),
        |it| it.flush(1),
        |it| it.checkpoint().map(drop),
        |it| it.clean(1).map(drop),
    ];
    for call in calls {
        pager.io().is_next(Fate::Fails);
        let error = call(&pager).unwrap_err();
        assert!(matches!(error, PagerError::Write { page: 1, .. }));
        assert_eq!(pager.io().asked(), [Asked::Write(1, 9, 5)]);
        assert_eq!((pager.stats().unsaved, pager.redo_from()), (1, Some(5)));
        assert_eq!(pager.read(1).unwrap()[0], 9);
    }
    pager.flush(1).unwrap();
    assert_eq!(pager.io().asked(), [Asked::Write(1, 9, 5)]);
    assert_eq!(pager.stats().totals.failed, 4);
}

#[test]
fn log_that_ends_early() {
    let pager = with_an_unsaved_page(1);
    let calls: [Call; 3] = [
        |it| it.read(2).map(drop),
        |it| it.new_page(2).map(drop),
        |it| it.flush(1),
    ];
    for call in calls {
        pager.io().is_next(Fate::IsNotYet);
        let error = call(&pager).unwrap_err();
        assert!(matches!(error, PagerError::LogNotYet { lsn: 5 }));
        assert_eq!(pager.io().asked(), [Asked::Log(5)]);
        assert_eq!(pager.read(1).unwrap()[0], 9);
    }
    // A checkpoint asks for all pages at once, and no more for a page that needs all of that.
    pager.io().is_next(Fate::IsNotYet);
    let error = pager.checkpoint().unwrap_err();
    assert!(matches!(error, PagerError::LogNotYet { lsn: 5 }));
    assert_eq!(pager.io().asked(), [Asked::Log(5)]);
    assert_eq!(pager.checkpoint().unwrap(), None);
    let asked = [Asked::Log(5), Asked::Write(1, 9, 5), Asked::Sync];
    assert_eq!(pager.io().asked(), asked);
}

// A checkpoint that could not go on left what was before written out.
#[test]
fn checkpoint_that_breaks_off() {
    let pager = with_an_unsaved_page(3);
    put(&pager, 4, 40, 4);
    put(&pager, 2, 20, 6);
    pager.mark(9);
    pager.io().asked();
    let fails = |asked| asked == Asked::Write(2, 20, 6);
    pager.io().within(move |asked| {
        if fails(asked) {
            std::panic::resume_unwind(Box::new(Asked::Sync));
        }
    });
    let caught = std::panic::catch_unwind(std::panic::AssertUnwindSafe(|| pager.checkpoint()));
    assert!(caught.is_err());
    assert_eq!(
        pager.io().asked(),
        [Asked::Write(1, 9, 5), Asked::Write(2, 20, 6)]
    );
    assert_eq!((pager.stats().unsaved, pager.redo_from()), (2, Some(4)));
}

#[test]
fn failed_sync() {
    let pager = with_an_unsaved_page(1);
    pager.mark(5);
    pager.flush(1).unwrap();
    pager.io().asked();
    pager.io().is_next(Fate::Fails);
    let error = pager.checkpoint().unwrap_err();
    assert!(matches!(error, PagerError::Sync { .. }));
    assert_eq!(error.refusal(), Error::WriteFailed);
    assert_eq!(error.source().unwrap().to_string(), "no such luck");
    assert_eq!(
        error.to_string(),
        "the device could not keep what was written"
    );
    // It is remembered: what was written out before is not kept by a later sync that goes well.
    for _ in 0..2 {
        let error = pager.checkpoint().unwrap_err();
        assert!(matches!(error, PagerError::SyncFailedBefore));
        assert_eq!(error.refusal(), Error::WriteFailed);
        assert!(error.source().is_none());
        assert_eq!(
            error.to_string(),
            "the device could not keep what was written before"
        );
    }
    assert_eq!(pager.io().asked(), [Asked::Sync]);
}
