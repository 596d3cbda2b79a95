//! A log that failed stays failed: a sync that goes well afterwards does not keep what an earlier one has lost.
use crate::device::{
    Asked, Device, Fate, Gate, SIZE, config, fault, not_yet, pager, put, with_an_unsaved_page,
};
use hojzmated::{Error, LogFault, PageIo, Pager, PagerError, ReadFault};
use std::sync::atomic::{AtomicU64, Ordering};
use std::sync::{Arc, Mutex};
use std::{io, thread};

type Call<F = Device> = fn(&Pager<F>) -> Result<(), PagerError>;

const FLUSHES: [Call; 3] = [
    |it| it.flush(1),
    |it| it.flush_pages(&[1]),
    |it| it.flush_before(100),
];
/// They need the log, whatever is unsaved.
const SYNCS: [Call; 2] = [|it| it.checkpoint().map(drop), |it| it.sync().map(drop)];

fn is_lost(told: &Result<(), PagerError>) -> bool {
    matches!(told, Err(PagerError::LogLost))
}

/// The first sync of the log fails, and all later ones go well: a system tells a fault once.
#[derive(Default)]
struct FailsOnce {
    syncs: AtomicU64,
    written: Mutex<Vec<u64>>,
}

impl FailsOnce {
    fn sync_log(&self) -> io::Result<()> {
        match self.syncs.fetch_add(1, Ordering::Relaxed) {
            0 => Err(io::Error::from_raw_os_error(5)),
            _ => Ok(()),
        }
    }
}

impl PageIo for FailsOnce {
    fn read_page(&self, _page: u64, image: &mut [u8]) -> Result<(), ReadFault> {
        image.fill(0);
        Ok(())
    }

    fn write_page(&self, page: u64, _image: &mut [u8], _lsn: u64) -> io::Result<()> {
        self.written.lock().unwrap().push(page);
        Ok(())
    }

    fn make_log_durable(&self, _lsn: u64) -> Result<(), LogFault> {
        Ok(self.sync_log()?)
    }

    fn sync(&self) -> io::Result<()> {
        Ok(())
    }
}

// The log does nothing but sync. No page goes out under its record, which the first sync lost, and no checkpoint says
// that all is well.
#[test]
fn log_that_only_syncs() {
    let pager = Pager::new(&config(4), FailsOnce::default()).unwrap();
    pager.write(7).unwrap().put(0, &[1], 1).unwrap();
    let Err(PagerError::Log { lsn: 1, source }) = pager.flush(7) else {
        panic!("the log failed");
    };
    assert_eq!(source.raw_os_error(), Some(5));
    for _ in 0..2 {
        assert!(is_lost(&pager.flush(7)));
        assert!(is_lost(&pager.checkpoint().map(drop)));
    }
    assert_eq!((pager.stats().unsaved, pager.redo_from()), (1, Some(1)));
    assert_eq!(*pager.io().written.lock().unwrap(), []);
    assert_eq!(pager.io().syncs.load(Ordering::Relaxed), 1);
}

// Whichever call finds it.
#[test]
fn each_later_call_is_refused() {
    let finds: [Call; 4] = [
        |it| it.read(2).map(drop),
        |it| it.new_page(2).map(drop),
        |it| it.flush(1),
        |it| it.checkpoint().map(drop),
    ];
    for find in finds {
        let pager = with_an_unsaved_page(1);
        pager.io().is_next(Fate::Fails);
        let told = find(&pager).unwrap_err();
        assert!(matches!(told, PagerError::Log { lsn: 5, .. }));
        assert_eq!(told.refusal(), Error::LogLost);
        for call in finds.into_iter().chain(FLUSHES).chain(SYNCS) {
            assert!(is_lost(&call(&pager)));
        }
        assert_eq!(pager.io().asked(), [Asked::Log(5)]);
        assert_eq!(pager.read(1).unwrap()[0], 9);
        assert_eq!((pager.stats().unsaved, pager.stats().pinned), (1, 0));
    }
}

// The engine syncs its log once more by itself, which goes well, and marks it.
#[test]
fn mark_afterwards_is_not_taken() {
    let pager = with_an_unsaved_page(1);
    pager.io().is_next(Fate::Fails);
    assert!(pager.flush(1).is_err());
    pager.mark(5);
    assert_eq!(pager.clean(1).unwrap(), 0);
    for call in FLUSHES {
        assert!(is_lost(&call(&pager)));
    }
    assert!(is_lost(&pager.read(2).map(drop)));
    assert_eq!(pager.io().asked(), [Asked::Log(5)]);
    assert_eq!(pager.io().pages.lock().unwrap()[1], [0; SIZE]);
}

// Pages are read in the frames of others, and those go out whose records were durable before.
#[test]
fn other_pages_are_used() {
    let pager = pager(3);
    put(&pager, 1, 1, 9);
    put(&pager, 2, 2, 4);
    pager.mark(4);
    pager.io().is_next(Fate::Fails);
    assert!(pager.flush(1).is_err());
    pager.io().asked();
    pager.flush(2).unwrap();
    assert_eq!(pager.io().asked(), [Asked::Write(2, 2, 4)]);
    for page in 3..16 {
        assert_eq!(pager.read(page).unwrap().page(), page);
    }
    // A page without a record needs no log.
    put(&pager, 3, 3, 0);
    pager.flush(3).unwrap();
    assert_eq!(pager.clean(3).unwrap(), 0);
    let is_log = |it: &Asked| matches!(it, Asked::Log(_) | Asked::Write(1, ..));
    assert!(!pager.io().asked().iter().any(is_log));
    assert!(pager.is_resident(1));
    assert_eq!(pager.stats().unsaved, 1);
    // No page needs the log now, and yet it is not to be cut.
    pager.discard(1).unwrap();
    assert_eq!(pager.stats().unsaved, 0);
    for call in SYNCS {
        assert!(is_lost(&call(&pager)));
    }
    assert!(!pager.io().asked().contains(&Asked::Sync));
}

// For all of its pages, and not for the least LSN too, nor for each.
#[test]
fn checkpoint_asks_once() {
    let finds: [Call; 3] = [
        |it| it.checkpoint().map(drop),
        |it| it.flush_before(100),
        |it| it.flush_pages(&(0..12).collect::<Vec<_>>()),
    ];
    for find in finds {
        let pager = pager(16);
        (0..12).for_each(|page| put(&pager, page, 1, 20 - page));
        pager.mark(12);
        pager.io().asked();
        pager.io().is_next(Fate::Fails);
        let told = find(&pager).unwrap_err();
        assert!(matches!(told, PagerError::Log { lsn: 20, .. }));
        let written = (8..12).map(|page| Asked::Write(page, 1, 20 - page));
        let asked = [Asked::Log(20)].into_iter().chain(written);
        assert_eq!(pager.io().asked(), asked.collect::<Vec<_>>());
        assert!(is_lost(&find(&pager)));
        assert_eq!(pager.io().asked(), []);
    }
}

// Threads wait for the turn of one whose log fails: for less, for as much and for more. None asks again.
#[test]
fn who_waits_is_told() {
    let pager = pager(8);
    for (page, lsn) in [(1, 5), (2, 3), (3, 5), (4, 9)] {
        put(&pager, page, 1, lsn);
    }
    pager.io().asked();
    let gate = Arc::new(Gate::default());
    let at_log = Arc::clone(&gate);
    let syncs = AtomicU64::new(0);
    pager.io().ends_as(move |asked| match asked {
        Asked::Log(_) if syncs.fetch_add(1, Ordering::Relaxed) == 0 => {
            at_log.pass();
            Err(fault())
        }
        _ => Ok(()),
    });
    thread::scope(|threads| {
        let first = threads.spawn(|| pager.flush(1));
        gate.wait_for(1);
        let others = [2, 3, 4].map(|page| {
            let pager = &pager;
            threads.spawn(move || pager.flush(page))
        });
        while pager.stats().waits < 3 {
            thread::yield_now();
        }
        gate.open();
        let told = first.join().unwrap().unwrap_err();
        assert!(matches!(told, PagerError::Log { lsn: 5, .. }));
        for other in others {
            assert!(is_lost(&other.join().unwrap()));
        }
    });
    assert_eq!(pager.io().asked(), [Asked::Log(5)]);
    assert_eq!(pager.stats().unsaved, 4);
}

// A log that ends before a record fails once that it does so for less. What it said before stands.
#[test]
fn not_yet_and_then_lost() {
    let pager = pager(4);
    put(&pager, 1, 1, 7);
    put(&pager, 2, 1, 3);
    pager.io().asked();
    pager.io().ends_as(|asked| match asked {
        Asked::Log(7) => Err(not_yet()),
        Asked::Log(_) => Err(fault()),
        _ => Ok(()),
    });
    let told = pager.checkpoint().unwrap_err();
    assert!(matches!(told, PagerError::LogNotYet { lsn: 7 }));
    assert_eq!(told.refusal(), Error::NeedLog { lsn: 7 });
    assert_eq!(pager.io().asked(), [Asked::Log(7), Asked::Log(3)]);
    assert!(is_lost(&pager.checkpoint().map(drop)));
    assert_eq!(pager.io().asked(), []);
}

// Both are remembered.
#[test]
fn sync_that_failed_before_the_log() {
    let pager = with_an_unsaved_page(2);
    pager.io().is_next(Fate::Fails);
    assert!(matches!(pager.sync(), Err(PagerError::Sync { .. })));
    pager.io().is_next(Fate::Fails);
    assert!(matches!(pager.flush(1), Err(PagerError::Log { .. })));
    for call in SYNCS {
        assert!(matches!(call(&pager), Err(PagerError::SyncFailedBefore)));
    }
    assert!(is_lost(&pager.flush(1)));
    assert_eq!(pager.io().asked(), [Asked::Sync, Asked::Log(5)]);
}
