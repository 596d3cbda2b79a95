//! How a pager ends.
use crate::device::{Asked, Device, Fate, config, pager, put, with_an_unsaved_page};
use hojzmated::{Pager, PagerError};
use std::ops::Range;
use std::panic::{AssertUnwindSafe, catch_unwind};
use std::process::Command;
use std::{env, io};

// All is on the device, and it has been synced.
#[test]
fn close_of_a_pager() {
    let pager = with_an_unsaved_page(2);
    put(&pager, 3, 4, 7);
    let device = pager.close().unwrap();
    let asked = [
        Asked::Read(3),
        Asked::Log(7),
        Asked::Write(1, 9, 5),
        Asked::Write(3, 4, 7),
        Asked::Sync,
    ];
    assert_eq!(device.asked(), asked);
    assert_eq!(device.pages.lock().unwrap()[3][0], 4);
}

/// A pager whose unsaved page 1 cannot be written out when that is tried next.
fn that_fails_once() -> Pager<Device> {
    let pager = with_an_unsaved_page(1);
    pager.mark(5);
    pager.io().is_next(Fate::Fails);
    pager
}

// The pager comes back with what is unsaved, and is closed once the device can.
#[test]
fn close_that_fails() {
    let refused = that_fails_once().close().map(drop).unwrap_err();
    assert!(matches!(refused.error, PagerError::Write { page: 1, .. }));
    let told = "the pager is not closed: page 1 could not be written";
    assert_eq!(refused.to_string(), told);
    let source = std::error::Error::source(&refused).unwrap();
    assert!(source.is::<io::Error>());
    let pager = refused.pager;
    assert_eq!(pager.read(1).unwrap()[0], 9);
    assert_eq!((pager.stats().unsaved, pager.redo_from()), (1, Some(5)));
    pager.io().asked();
    let device = pager.close().unwrap();
    assert_eq!(device.asked(), [Asked::Write(1, 9, 5), Asked::Sync]);
    // By `?`, as the error of a call.
    let ends = || -> Result<Device, PagerError> { Ok(that_fails_once().close()?) };
    assert!(matches!(ends(), Err(PagerError::Write { page: 1, .. })));
}

/// Set in a program that ends pagers, whose standard error is looked at: to how it ends them.
const ENDS: &str = "HOJZMATED_TEST_ENDS_PAGERS";

/// Nothing is lost with these, or what is to be lost.
fn end_well() {
    drop(pager(1));
    with_an_unsaved_page(1).into_io();
    with_an_unsaved_page(1).close().unwrap();
    let saved = with_an_unsaved_page(1);
    saved.checkpoint().unwrap();
    drop(saved);
    drop(with_temporary_pages(3..5));
    // The thread has more to say.
    let _ = catch_unwind(AssertUnwindSafe(|| {
        let _unsaved = with_an_unsaved_page(1);
        panic!("at work");
    }));
}

/// A pager whose pages 3 and 4 are unsaved.
fn with_temporary_pages(temporary: Range<u64>) -> Pager<Device> {
    let config = config(4).with_temporary(temporary);
    let pager = Pager::new(&config, Device::default()).unwrap();
    put(&pager, 3, 1, 0);
    put(&pager, 4, 1, 0);
    pager
}

/// What a program says that ends pagers so.
fn said_of(how: &str) -> Vec<String> {
    let mut program = Command::new(env::current_exe().unwrap());
    program.args(["--exact", "closing::drop_of_unsaved_pages", "--nocapture"]);
    let ended = program.env(ENDS, how).output().unwrap();
    assert!(ended.status.success());
    let said = String::from_utf8(ended.stderr).unwrap();
    let lines = said.lines().filter(|it| it.contains("hojzmated:"));
    lines.map(str::to_owned).collect()
}

// A line, and no panic; of the first such pager alone. Without debug assertions there is none.
#[test]
fn drop_of_unsaved_pages() {
    match env::var(ENDS).as_deref() {
        Ok("well") => end_well(),
        Ok("beside temporary pages") => drop(with_temporary_pages(4..5)),
        Ok(_) => {
            let unsaved = with_an_unsaved_page(4);
            put(&unsaved, 2, 1, 0);
            drop(unsaved);
            drop(with_an_unsaved_page(1));
        }
        Err(_) => {
            let line = |lost| {
                let line = format!(
                    "hojzmated: a pager is dropped with unsaved pages ({lost}), whose changes are lost; \
                     `close` would save them. Of others this is not said"
                );
                cfg!(debug_assertions).then_some(line)
            };
            assert_eq!(said_of("well"), [""; 0]);
            assert_eq!(said_of("beside temporary pages"), Vec::from_iter(line(1)));
            assert_eq!(said_of("badly"), Vec::from_iter(line(2)));
        }
    }
}
