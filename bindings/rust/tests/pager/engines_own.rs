//! What a pager does with the engine's device, of whatever type, and what goes out.
use crate::device::{Asked, Device, PAGES, SIZE, config, pager, put};
use hojzmated::{LogFault, PageIo, Pager, ReadFault};
use std::io;
use std::sync::Arc;

/// A device that puts the page LSN into the last byte of each image that goes out.
struct Stamping(Device);

impl PageIo for Stamping {
    fn read_page(&self, page: u64, image: &mut [u8]) -> Result<(), ReadFault> {
        self.0.read_page(page, image)
    }

    fn write_page(&self, page: u64, image: &mut [u8], lsn: u64) -> io::Result<()> {
        image[SIZE - 1] = lsn as u8;
        self.0.write_page(page, image, lsn)
    }

    fn make_log_durable(&self, lsn: u64) -> Result<(), LogFault> {
        self.0.make_log_durable(lsn)
    }

    fn sync(&self) -> io::Result<()> {
        self.0.sync()
    }
}

// The stamp goes to the device. The page in the pool has none until it was read again.
#[test]
fn image_that_is_stamped() {
    let pager = Pager::new(&config(1), Stamping(Device::default())).unwrap();
    let on_device = || pager.io().0.pages.lock().unwrap()[1][SIZE - 1];
    pager.write(1).unwrap().put(0, &[9], 7).unwrap();
    pager.flush(1).unwrap();
    let page = pager.read(1).unwrap();
    assert_eq!((on_device(), page[0], page[SIZE - 1]), (7, 9, 0));
    drop(page);
    pager.write(1).unwrap().put(1, &[9], 8).unwrap();
    // Page 1 makes way, and is stamped then too.
    assert_eq!(pager.read(2).unwrap()[SIZE - 1], 0);
    assert_eq!(on_device(), 8);
    let page = pager.read(1).unwrap();
    assert_eq!((page[0], page[1], page[SIZE - 1]), (9, 9, 8));
}

/// Has page 1 of a device changed, and another page read in its one frame, by each of the four
/// functions.
fn use_all_functions(io: impl PageIo) {
    let pager = Pager::new(&config(1), io).unwrap();
    pager.write(1).unwrap().put(0, &[9], 5).unwrap();
    pager.checkpoint().unwrap();
    assert_eq!(pager.read(2).unwrap()[0], 0);
    assert_eq!(pager.read(1).unwrap()[0], 9);
}

// The engine still has the device, or it need not know its type.
#[test]
fn device_behind_a_pointer() {
    let asked = [
        Asked::Read(1),
        Asked::Log(5),
        Asked::Write(1, 9, 5),
        Asked::Sync,
        Asked::Read(2),
        Asked::Read(1),
    ];
    let device = Device::default();
    use_all_functions(&device);
    assert_eq!(device.asked(), asked);

    let device = Device::default();
    let boxed: Box<dyn PageIo + '_> = Box::new(&device);
    use_all_functions(boxed);
    assert_eq!(device.asked(), asked);

    let device = Arc::new(Device::default());
    use_all_functions(Arc::clone(&device));
    assert_eq!(device.asked(), asked);
}

/// Numbers that look random, the same ones each time.
struct Numbers(u64);

impl Numbers {
    fn below(&mut self, end: u64) -> u64 {
        let state = self.0;
        self.0 = state
            .wrapping_mul(6_364_136_223_846_793_005)
            .wrapping_add(1_442_695_040_888_963_407);
        (self.0 >> 33) % end
    }
}

// Through four frames goes what one thread writes to sixteen pages, at random. Each read has the newest
// bytes, and so have the pages of the device at the end; no image went out ahead of the log.
#[test]
fn random_walk() {
    let pager = pager(4);
    let mut newest = [[0u8; SIZE]; PAGES as usize];
    let mut numbers = Numbers(1);
    for lsn in 1..=20_000u64 {
        let number = numbers.below(PAGES);
        assert_eq!(*pager.read(number).unwrap(), newest[number as usize]);
        if numbers.below(3) == 0 {
            let byte = numbers.below(256) as u8;
            put(&pager, number, byte, lsn);
            newest[number as usize][0] = byte;
        }
        if numbers.below(50) == 0 {
            pager.flush(numbers.below(PAGES)).unwrap();
        }
    }
    pager.checkpoint().unwrap();
    let (mut durable, mut writes) = (0, 0);
    for asked in pager.io().asked() {
        match asked {
            Asked::Log(lsn) => durable = lsn.max(durable),
            Asked::Write(page, _, lsn) => {
                assert!(lsn <= durable, "page {page} ahead of the log");
                writes += 1;
            }
            Asked::Read(_) | Asked::Sync => {}
        }
    }
    let totals = pager.stats().totals;
    assert_eq!(totals.writes, writes);
    assert!(totals.hits > 0 && totals.evictions > 0 && writes > 0);
    assert_eq!(*pager.io().pages.lock().unwrap(), newest);
}
