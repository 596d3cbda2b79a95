//! How long pages that are away are remembered, without a purge by the engine, and what that does to a
//! scan.
use crate::device::{Device, Fate, config};
use hojzmated::{LogFault, PageIo, Pager, PagerConfig, ReadFault, core};
use std::io;
use std::sync::atomic::{AtomicU64, Ordering};

/// Pages of zeros without a place. It counts the reads of pages from this number on.
struct Zeros {
    hot: u64,
    reads: AtomicU64,
}

impl Zeros {
    fn from(hot: u64) -> Zeros {
        let reads = AtomicU64::new(0);
        Zeros { hot, reads }
    }
}

impl PageIo for Zeros {
    fn read_page(&self, page: u64, image: &mut [u8]) -> Result<(), ReadFault> {
        image.fill(0);
        let is_hot = page >= self.hot;
        self.reads.fetch_add(u64::from(is_hot), Ordering::Relaxed);
        Ok(())
    }

    fn write_page(&self, _page: u64, _image: &mut [u8], _lsn: u64) -> io::Result<()> {
        Ok(())
    }

    fn make_log_durable(&self, _lsn: u64) -> Result<(), LogFault> {
        Ok(())
    }

    fn sync(&self) -> io::Result<()> {
        Ok(())
    }
}

/// A pager of one part with four frames.
fn pager(retained: Option<u64>) -> Pager<Zeros> {
    let new = PagerConfig::in_parts(10_000, 16, 4, 1);
    let retained = retained.unwrap_or(new.retained);
    Pager::new(&new.with_retained(retained), Zeros::from(0)).unwrap()
}

#[test]
fn settings_remember_eight_times_the_frames() {
    assert_eq!(PagerConfig::new(10_000, 16, 100).retained, 800);
    assert_eq!(PagerConfig::in_parts(10_000, 16, 100, 3).retained, 800);
    assert_eq!(core::Config::new(10_000, 16, 100).retained, 800);
}

// The clock moves on by one at each page. The newest four are in frames. Of the others 29 are from 4 to
// 32 ticks old, and 15 more may wait until they are forgotten.
#[test]
fn old_pages_are_forgotten() {
    let pager = pager(None);
    let mut memory = 0;
    for page in 0..10_000 {
        drop(pager.read(page).unwrap());
        let stats = pager.stats();
        assert!(stats.remembered <= 29 + 15, "{}", stats.remembered);
        if page == 100 {
            memory = stats.memory;
        }
        if page > 100 {
            assert!(stats.remembered >= 29);
            assert_eq!(stats.memory, memory);
        }
    }
    assert!(pager.purge().unwrap() <= 15);
    assert_eq!(pager.stats().remembered, 29);
}

// Without an end all pages but those in frames are remembered, and a page that comes again is one less.
#[test]
fn memory_without_an_end() {
    let pager = pager(Some(1 << 62));
    let empty = pager.stats().memory;
    for page in (0..1_000).chain(0..500) {
        drop(pager.read(page).unwrap());
    }
    assert_eq!(pager.purge(), Ok(0));
    let stats = pager.stats();
    assert_eq!(stats.remembered, 1_000 - 4);
    assert!(stats.memory >= empty + 150 * 996);
}

// Page 1 makes way for page 2, which makes way for page 1, which cannot be read.
#[test]
fn failed_read_leaves_a_page_remembered() {
    let pager = Pager::new(&config(1), Device::default()).unwrap();
    drop(pager.read(1).unwrap());
    drop(pager.read(2).unwrap());
    assert_eq!(pager.stats().remembered, 1);
    pager.io().is_next(Fate::Fails);
    assert!(pager.read(1).is_err());
    assert_eq!(pager.stats().remembered, 2);
    drop(pager.read(1).unwrap());
    assert_eq!(pager.stats().remembered, 1);
    // A page that was never here and cannot be read is none.
    pager.io().is_next(Fate::Fails);
    assert!(pager.read(3).is_err());
    assert_eq!(pager.stats().remembered, 2);
}

/// Looks at 38 pages in turn, one after each 16 pages of a scan of 750, which is made five times.
/// Before that each was looked at twice. It returns how often one had to be read during the scans.
fn reads_beside_scans(config: &PagerConfig) -> u64 {
    const TABLE: u64 = 750;
    let pager = Pager::new(config, Zeros::from(TABLE)).unwrap();
    let mut hot = (TABLE..TABLE + 38).cycle();
    let mut look_up = || drop(pager.read(hot.next().unwrap()).unwrap());
    (0..2 * 38).for_each(|_| look_up());
    let before = pager.io().reads.load(Ordering::Relaxed);
    for page in (0..TABLE).cycle().take(5 * TABLE as usize) {
        drop(pager.read(page).unwrap());
        if page % 16 == 0 {
            look_up();
        }
    }
    pager.io().reads.load(Ordering::Relaxed) - before
}

// A page that is looked up comes again after 646 fixes, and a page of the scan after 797. With a
// memory of 512 LRU-2 has never seen the latter before; with one without end they come again soon
// enough to push the others out.
#[test]
fn hot_pages_stay_beside_a_scan() {
    let new = || PagerConfig::in_parts(1_000, 16, 64, 1);
    assert_eq!(reads_beside_scans(&new()), 0);
    let without_end = new().with_retained(1 << 62);
    let reads = reads_beside_scans(&without_end);
    assert!(reads > 38, "{reads}");
}
