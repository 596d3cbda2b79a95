//! A thread that asks for a latch of a page of which it has one already: it does not wait for itself, where latches
//! are noted.
use crate::device::{Device, Watch, config, put};
use hojzmated::{Error, PagerError};
use std::panic::{AssertUnwindSafe, catch_unwind};
use std::thread;
use std::time::Duration;

type Pager = hojzmated::Pager<Device>;

/// Pagers that note latches, with and without a correlated period.
fn pagers() -> impl Iterator<Item = Pager> {
    let periods = [(0, false), (4, false), (4, true)];
    periods.into_iter().map(|(correlated, tells_each_pin)| {
        let config = config(4)
            .with_correlated(correlated)
            .with_tells_each_pin(tells_each_pin)
            .with_notes_latches(true);
        Pager::new(&config, Device::default()).unwrap()
    })
}

fn told<T>(told: Result<T, PagerError>) -> Option<Error> {
    told.err().map(|it| it.refusal())
}

const OWN: Option<Error> = Some(Error::Deadlock);

// Any latch beside its own exclusive one, and the exclusive one beside its own shared one. Then the latch that it has
// is as it was.
#[test]
fn second_latch_of_a_page() {
    let _watch = Watch::over("second_latch_of_a_page", 60);
    for pager in pagers() {
        for _ in 0..3 {
            let mut page = pager.write(3).unwrap();
            let calls = [
                told(pager.read(3)),
                told(pager.write(3)),
                told(pager.new_page(3)),
            ];
            assert_eq!(calls, [OWN; 3]);
            page.put(0, &[7], 0).unwrap();
            assert_eq!((told(pager.flush(3)), told(pager.checkpoint())), (OWN, OWN));
            assert!(pager.try_read(3).unwrap().is_none());
            drop(page);
            let look = pager.read(3).unwrap();
            assert_eq!(told(pager.write(3)), OWN);
            assert!(pager.try_write(3).unwrap().is_none());
            // This one need not wait.
            assert_eq!(pager.read(3).unwrap()[0], 7);
            assert_eq!(told(pager.write(3)), OWN);
            pager.flush(3).unwrap();
            drop(look);
            put(&pager, 3, 8, 0);
            assert_eq!(pager.stats().pinned, 0);
        }
    }
}

// By a pin: there it panics, and the pin can be used as before.
#[test]
fn second_latch_by_a_pin() {
    let _watch = Watch::over("second_latch_by_a_pin", 60);
    for pager in pagers() {
        let pin = pager.pin(3).unwrap();
        let why = |waits: &dyn Fn()| {
            let panic = catch_unwind(AssertUnwindSafe(waits)).unwrap_err();
            panic.downcast_ref::<&str>().unwrap().to_string()
        };
        let words = "the thread would wait for a latch that it has";
        let page = pin.write();
        assert_eq!(why(&|| drop(pin.read())), words);
        assert_eq!(why(&|| drop(pin.write())), words);
        assert_eq!(told(pager.read(3)), OWN);
        drop(page);
        let look = pager.read(3).unwrap();
        assert_eq!(why(&|| drop(pin.write())), words);
        drop(look);
        drop(pin.write());
        drop(pin);
        assert_eq!(pager.stats().pinned, 0);
    }
}

// A second look is refused where a writer waits: it would wait for that, which waits for the first look.
#[test]
fn second_look_beside_a_writer_that_waits() {
    let _watch = Watch::over("second_look_beside_a_writer_that_waits", 60);
    for pager in pagers() {
        let look = pager.read(3).unwrap();
        thread::scope(|threads| {
            let writer = threads.spawn(|| put(&pager, 3, 7, 0));
            while pager.try_read(3).unwrap().is_some() {
                thread::yield_now();
            }
            assert_eq!(told(pager.read(3)), OWN);
            assert!(!writer.is_finished());
            drop(look);
            writer.join().unwrap();
        });
        assert_eq!(pager.read(3).unwrap()[0], 7);
    }
}

// A thread waits for latches of others, however many it has: of other pages, and of the same number in another pager.
#[test]
fn latches_of_other_threads() {
    let _watch = Watch::over("latches_of_other_threads", 60);
    let pagers: Vec<_> = pagers().collect();
    for (pager, other) in pagers.iter().zip(pagers.iter().cycle().skip(1)) {
        let (one, two) = (pager.read(1).unwrap(), other.write(3).unwrap());
        let writes = pager.write(3).unwrap();
        thread::scope(|threads| {
            let waits = threads.spawn(|| {
                let _own = pager.write(2).unwrap();
                pager.read(3).unwrap()[0]
            });
            thread::sleep(Duration::from_millis(20));
            assert!(!waits.is_finished());
            drop(writes);
            assert_eq!(waits.join().unwrap(), 0);
        });
        drop((one, two));
        // What was let go is not noted any more.
        drop((pager.write(1).unwrap(), other.write(3).unwrap()));
        thread::scope(|threads| {
            let page = pager.write(1).unwrap();
            let waits = threads.spawn(|| pager.read(1).unwrap()[0]);
            thread::sleep(Duration::from_millis(20));
            assert!(!waits.is_finished());
            drop(page);
            assert_eq!(waits.join().unwrap(), 0);
        });
    }
}

// The latches are the same, and the references, whether they are noted or not.
#[test]
fn noted_or_not() {
    let all = [false, true].map(|notes_latches| {
        let config = config(4)
            .with_correlated(3)
            .with_notes_latches(notes_latches);
        let pager = Pager::new(&config, Device::default()).unwrap();
        for turn in 0..500 {
            let page = (turn * turn + turn / 7) % 9;
            match turn % 5 {
                0 => put(&pager, page, turn as u8, 0),
                1 => drop(pager.pin(page).unwrap()),
                2 => (0..40).for_each(|_| drop(pager.read(page).unwrap())),
                _ => drop(pager.read(page).unwrap()),
            }
        }
        (pager.stats(), pager.io().asked())
    });
    assert_eq!(all[0], all[1]);
}
