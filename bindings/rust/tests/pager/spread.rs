//! How the pages of a file are spread over the parts.
use crate::device::{Asked, Device, PAGES, config, put};
use hojzmated::{LogFault, PageIo, Pager, PagerConfig, ReadFault};
use std::io;
use std::sync::atomic::{AtomicU64, Ordering};
use std::time::Duration;

/// A device that counts its reads.
#[derive(Default)]
struct Reads(AtomicU64);

impl PageIo for Reads {
    fn read_page(&self, _page: u64, image: &mut [u8]) -> Result<(), ReadFault> {
        self.0.fetch_add(1, Ordering::Relaxed);
        image.fill(0);
        Ok(())
    }

    fn write_page(&self, _page: u64, _image: &mut [u8], _lsn: u64) -> io::Result<()> {
        Ok(())
    }

    fn make_log_durable(&self, _lsn: u64) -> Result<(), LogFault> {
        Ok(())
    }

    fn sync(&self) -> io::Result<()> {
        Ok(())
    }
}

fn pager(parts: usize) -> Pager<Reads> {
    let config = PagerConfig::new(64 * 1024, 16, 1024)
        .with_parts(parts)
        .with_pin_wait(Duration::ZERO);
    Pager::new(&config, Reads::default()).unwrap()
}

// The pages are a quarter of what has room. Each is read once, whatever is between their numbers.
#[test]
fn pages_that_are_a_stride_apart() {
    for parts in [1, 5, 7, 8, 16, 12] {
        for stride in [1, 2, 5, 7, 12, 16, 32, 48, 64, 84, 128, 256] {
            let pager = pager(parts);
            for _ in 0..3 {
                (0..256).for_each(|page| drop(pager.read(page * stride).unwrap()));
            }
            let reads = pager.io().0.load(Ordering::Relaxed);
            assert_eq!(reads, 256, "{parts} parts, {stride} apart");
        }
    }
}

// And so they can all be pinned at once.
#[test]
fn pins_that_are_a_stride_apart() {
    for stride in [16, 64, 256] {
        let pager = pager(16);
        let pins: Vec<_> = (0..256).map(|page| pager.pin(page * stride)).collect();
        assert!(pins.iter().all(|pin| pin.is_ok()), "{stride} apart");
        assert_eq!(pager.stats().pinned, 256);
    }
}

// Each page is at one place of one part, and is written out as itself, for any number of parts.
#[test]
fn each_page_has_a_place() {
    for parts in 1..=PAGES as usize {
        for pages in [PAGES, PAGES - 3] {
            if parts as u64 > pages {
                continue;
            }
            let config = config(PAGES as usize).with_parts(parts).with_pages(pages);
            let pager = Pager::new(&config, Device::default()).unwrap();
            (0..pages).for_each(|page| put(&pager, page, 100 + page as u8, 0));
            for page in 0..pages {
                let bytes = pager.read(page).unwrap();
                assert_eq!((bytes.page(), bytes[0]), (page, 100 + page as u8));
            }
            pager.checkpoint().unwrap();
            let asked = pager.io().asked();
            let written = asked.iter().filter(|it| matches!(it, Asked::Write(..)));
            assert!(written.count() as u64 >= pages);
            let device = pager.into_io();
            let on_device = device.pages.lock().unwrap();
            for page in 0..pages {
                assert_eq!(u64::from(on_device[page as usize][0]), 100 + page);
            }
        }
    }
}
