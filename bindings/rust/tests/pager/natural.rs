//! An engine that keeps the rules does not stand still: each thread takes its latches in the order
//! of the pages, and others flush meanwhile.
use crate::device::Watch;
use crate::faulty::Numbers;
use hojzmated::{LogFault, PageIo, Pager, PagerConfig, ReadFault};
use std::sync::Mutex;
use std::sync::atomic::{AtomicU64, Ordering};
use std::time::{Duration, Instant};
use std::{io, thread};

const PAGES: u64 = 16;
const SIZE: usize = 64;

/// Pages in memory, and a log whose syncs take up to 1.5 ms.
struct Files {
    log_end: AtomicU64,
    numbers: AtomicU64,
    pages: [Mutex<[u8; SIZE]>; PAGES as usize],
}

impl Files {
    fn new() -> Files {
        Files {
            log_end: AtomicU64::new(1),
            numbers: AtomicU64::new(1),
            pages: [const { Mutex::new([0; SIZE]) }; PAGES as usize],
        }
    }

    /// Returns the LSN up to which the log is durable then. Two syncs may overlap, as those of a file
    /// do.
    fn sync_log(&self) -> u64 {
        let end = self.log_end.load(Ordering::Acquire);
        let micros = Numbers(self.numbers.fetch_add(1, Ordering::Relaxed)).below(1_500);
        thread::sleep(Duration::from_micros(micros));
        end - 1
    }
}

impl PageIo for Files {
    fn read_page(&self, page: u64, image: &mut [u8]) -> Result<(), ReadFault> {
        image.copy_from_slice(&*self.pages[page as usize].lock().unwrap());
        Ok(())
    }

    fn write_page(&self, page: u64, image: &mut [u8], _lsn: u64) -> io::Result<()> {
        self.pages[page as usize]
            .lock()
            .unwrap()
            .copy_from_slice(image);
        Ok(())
    }

    fn make_log_durable(&self, _lsn: u64) -> Result<(), LogFault> {
        self.sync_log();
        Ok(())
    }

    fn sync(&self) -> io::Result<()> {
        Ok(())
    }
}

/// Moves one from a page to a greater one under one record, and now and then commits.
fn moves(pager: &Pager<Files>, numbers: &mut Numbers) {
    let (one, other) = (numbers.below(PAGES), numbers.below(PAGES));
    if one == other {
        return;
    }
    let mut less = pager.write(one.min(other)).unwrap();
    let mut more = pager.write(one.max(other)).unwrap();
    let lsn = pager.io().log_end.fetch_add(1, Ordering::AcqRel);
    for (page, by) in [(&mut less, u8::MAX), (&mut more, 1)] {
        let count = page.bytes()[0].wrapping_add(by);
        page.put(0, &[count], lsn).unwrap();
    }
    drop((less, more));
    if numbers.below(8) == 0 {
        pager.mark(pager.io().sync_log());
    }
}

#[test]
fn two_latches_beside_flushes() {
    let _watch = Watch::over("two_latches_beside_flushes", 60);
    let config = PagerConfig::new(PAGES, SIZE, 9)
        .with_parts(1)
        .with_k(1)
        .with_correlated(0);
    let pager = Pager::new(&config, Files::new()).unwrap();
    let end = Instant::now() + Duration::from_secs(2);
    thread::scope(|threads| {
        for thread in 0..7 {
            let pager = &pager;
            threads.spawn(move || {
                let mut numbers = Numbers(thread);
                while Instant::now() < end {
                    if thread < 4 {
                        moves(pager, &mut numbers);
                    } else {
                        pager.flush(numbers.below(PAGES)).unwrap();
                    }
                }
            });
        }
    });
    pager.checkpoint().unwrap();
    let pages = pager.into_io().pages;
    let sum = pages
        .iter()
        .fold(0u8, |sum, page| sum.wrapping_add(page.lock().unwrap()[0]));
    assert_eq!(sum, 0);
}
