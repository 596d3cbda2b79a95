//! Many threads want a page whose read fails: who is told so, and how often the device is asked.
use crate::device::{Asked, Device, Watch, config};
use hojzmated::{Pager, PagerError, ReadFault};
use std::panic::resume_unwind;
use std::sync::atomic::{AtomicUsize, Ordering};
use std::sync::{Arc, Weak};
use std::{io, thread};

type Shared = Arc<Pager<Device>>;

/// A pager whose reads of page 7 end as this function says, which gets the pager and how many there were before.
fn pager(
    read: impl Fn(&Pager<Device>, usize) -> Result<(), ReadFault> + Send + Sync + 'static,
) -> Shared {
    Arc::new_cyclic(|weak: &Weak<Pager<Device>>| {
        let pager = Pager::new(&config(4), Device::default()).unwrap();
        let (weak, reads) = (weak.clone(), AtomicUsize::new(0));
        pager.io().ends_as(move |asked| match asked {
            Asked::Read(7) => {
                let number = reads.fetch_add(1, Ordering::Relaxed);
                read(&weak.upgrade().unwrap(), number)
            }
            _ => Ok(()),
        });
        pager
    })
}

/// Waits until so many threads have come to wait for the page.
fn wait_for(pager: &Pager<Device>, waits: u64) {
    while pager.stats().waits < waits {
        thread::yield_now();
    }
}

/// What so many threads are told that want page 7 at once.
fn told(pager: &Shared, threads: usize) -> Vec<Option<PagerError>> {
    thread::scope(|scope| {
        let threads = (0..threads).map(|_| scope.spawn(|| pager.read(7).map(drop).err()));
        let threads: Vec<_> = threads.collect();
        threads.into_iter().map(|it| it.join().unwrap()).collect()
    })
}

const THREADS: usize = 64;

/// A fault of the device, by its number.
fn fault(number: usize, of_system: bool) -> ReadFault {
    let numbered = || io::Error::from_raw_os_error(number as i32 + 1);
    let named = || io::Error::new(io::ErrorKind::TimedOut, format!("fault {number}"));
    ReadFault::Device(if of_system { numbered() } else { named() })
}

// While the first read is under way all others come to wait. They have it read once more, and each is told the fault
// of that, which is as the device gave it. Who comes later has the page read anew.
#[test]
fn fault_that_many_threads_are_told() {
    let _watch = Watch::over("fault_that_many_threads_are_told", 120);
    for of_system in [false, true] {
        let pager = pager(move |pager, number| {
            if number == 0 {
                wait_for(pager, THREADS as u64 - 1);
            }
            match number {
                0 | 1 => Err(fault(number, of_system)),
                _ => Ok(()),
            }
        });
        let told = told(&pager, THREADS);
        assert_eq!(pager.io().asked(), [Asked::Read(7); 2]);
        let mut count = [0; 2];
        for error in told {
            let Some(PagerError::Read { page: 7, source }) = error else {
                panic!("{error:?}");
            };
            let wanted = [0, 1].map(|number| match fault(number, of_system) {
                ReadFault::Device(error) => error,
                _ => unreachable!(),
            });
            let same = |it: &io::Error| {
                (it.kind(), it.raw_os_error(), it.to_string())
                    == (source.kind(), source.raw_os_error(), source.to_string())
            };
            count[wanted.iter().position(same).unwrap()] += 1;
        }
        assert_eq!(count, [1, THREADS - 1]);
        assert_eq!(pager.stats().totals.failed, 2);
        assert_eq!(pager.read(7).unwrap().page(), 7);
        assert_eq!(pager.io().asked(), [Asked::Read(7)]);
    }
}

#[test]
fn wrong_page_that_many_threads_are_told() {
    let _watch = Watch::over("wrong_page_that_many_threads_are_told", 120);
    for is_spoilt in [false, true] {
        let pager = pager(move |pager, number| {
            if number == 0 {
                wait_for(pager, 7);
            }
            Err(match is_spoilt {
                true => ReadFault::Spoilt,
                false => ReadFault::WrongPage,
            })
        });
        let told = told(&pager, 8);
        let is_told = |it: &Option<PagerError>| match it {
            Some(PagerError::Spoilt { page: 7 }) => is_spoilt,
            Some(PagerError::WrongPage { page: 7 }) => !is_spoilt,
            _ => false,
        };
        assert!(told.iter().all(is_told), "{told:?}");
        assert_eq!(pager.io().asked(), [Asked::Read(7); 2]);
    }
}

// Who came to wait while a read was under way is not told its fault, and the next one may go well.
#[test]
fn read_that_goes_well_once_more() {
    let _watch = Watch::over("read_that_goes_well_once_more", 120);
    let pager = pager(|pager, number| {
        if number > 0 {
            return Ok(());
        }
        wait_for(pager, 7);
        Err(fault(number, true))
    });
    let told = told(&pager, 8);
    assert_eq!(told.iter().flatten().count(), 1);
    assert_eq!(pager.io().asked(), [Asked::Read(7); 2]);
}

// A new page needs no read: who makes it is not told of one that failed.
#[test]
fn new_page_beside_reads_that_fail() {
    let _watch = Watch::over("new_page_beside_reads_that_fail", 120);
    let pager = pager(|pager, number| {
        wait_for(pager, [2, 3][number]);
        Err(fault(number, true))
    });
    let (told, is_new) = thread::scope(|threads| {
        let reads = [0; 2].map(|_| threads.spawn(|| pager.read(7).is_ok()));
        wait_for(&pager, 1);
        let new = threads.spawn(|| *pager.new_page(7).unwrap().bytes() == [0; 16]);
        let told = reads.map(|it| it.join().unwrap());
        (told, new.join().unwrap())
    });
    assert!(!told[0] || !told[1]);
    assert!(is_new);
}

// A read that panics has no fault for others: each of them has the page read by itself.
#[test]
fn read_that_panics_beside_others() {
    let _watch = Watch::over("read_that_panics_beside_others", 120);
    let pager = pager(|pager, number| {
        wait_for(pager, 3);
        match number {
            0 | 1 => resume_unwind(Box::new("the engine's own code")),
            _ => Ok(()),
        }
    });
    let told = thread::scope(|threads| {
        let reads = [0; 4].map(|_| threads.spawn(|| pager.read(7).is_ok()));
        reads.map(|it| it.join().ok())
    });
    assert_eq!(told.iter().flatten().filter(|it| **it).count(), 2);
    assert_eq!(pager.io().asked(), [Asked::Read(7); 3]);
}
