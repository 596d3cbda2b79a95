//! A pager, where memory is wanting. One thread uses it here.
use crate::requests::{ASKED, BLOCKS, counting, refusing};
use hojzmated::{Error, LogFault, PageIo, Pager, PagerConfig, PagerError, ReadFault};
use std::cell::{Cell, RefCell};
use std::io;
use std::rc::{Rc, Weak};

/// Four pages of 16 bytes.
struct Memory(RefCell<[[u8; 16]; 4]>);

impl PageIo for Memory {
    fn read_page(&self, page: u64, image: &mut [u8]) -> Result<(), ReadFault> {
        image.copy_from_slice(&self.0.borrow()[page as usize]);
        Ok(())
    }

    fn write_page(&self, page: u64, image: &mut [u8], _lsn: u64) -> io::Result<()> {
        self.0.borrow_mut()[page as usize].copy_from_slice(image);
        Ok(())
    }

    fn make_log_durable(&self, _lsn: u64) -> Result<(), LogFault> {
        Ok(())
    }

    fn sync(&self) -> io::Result<()> {
        Ok(())
    }
}

/// Makes a call, and makes it again where memory was wanting.
fn again<T>(times: &Cell<u32>, call: impl Fn() -> Result<T, PagerError>) -> T {
    call().unwrap_or_else(|error| {
        assert_eq!(error.refusal(), Error::OutOfMemory);
        times.set(times.get() + 1);
        call().unwrap()
    })
}

/// Four pages of 16 bytes, in so many parts and as many frames.
fn config(parts: usize) -> PagerConfig {
    PagerConfig::new(4, 16, parts)
        .with_parts(parts)
        .with_correlated(0)
}

fn pager(parts: usize) -> Pager<Memory> {
    let memory = Memory(RefCell::new([[0; 16]; 4]));
    Pager::new(&config(parts), memory).unwrap()
}

#[test]
fn pager_is_not_made_without_memory() {
    let config = config(2);
    let make = || Pager::new(&config, Memory(RefCell::new([[0; 16]; 4]))).map(drop);
    let (made, requests) = counting(make);
    assert_eq!(made, Ok(()));
    let before = BLOCKS.get();
    for number in 1..=requests {
        let (made, has_come) = refusing(number, make);
        assert_eq!(
            (made, has_come),
            (Err(Error::OutOfMemory), true),
            "{number}"
        );
        assert_eq!(BLOCKS.get(), before);
    }
    assert!(requests > 20, "only {requests} requests of two parts");
}

/// Writes to pages in one frame, by each of the calls. Tells how often memory was wanting.
fn use_pages(pager: &Pager<Memory>) -> u32 {
    let times = Cell::new(0);
    let mut page = again(&times, || pager.new_page(0));
    // A write takes none.
    page.put(1, &[7], 1).unwrap();
    drop(page);
    let mut page = again(&times, || pager.write(1));
    page.put(1, &[8], 2).unwrap();
    drop(page);
    let page = again(&times, || pager.read(0));
    assert_eq!(page[..3], [0, 7, 0]);
    drop(page);
    let pin = again(&times, || pager.pin(2));
    pin.write().put(1, &[9], 3).unwrap();
    drop(pin);
    again(&times, || pager.flush(2));
    let mut page = again(&times, || pager.try_write(3)).unwrap();
    page.put(1, &[10], 4).unwrap();
    drop(page);
    assert_eq!(again(&times, || pager.checkpoint()), None);
    again(&times, || pager.write(3)).put(1, &[11], 4).unwrap();
    assert_eq!(again(&times, || pager.clean(4)), 1);
    assert_eq!(again(&times, || pager.try_read(3)).unwrap()[1], 11);
    assert_eq!(pager.purge(), Ok(0));
    assert_eq!(pager.stats().resident, 1);
    times.get()
}

#[test]
fn pager_without_memory() {
    let mut refused = 0;
    loop {
        let pager = pager(1);
        let (times, has_come) = refusing(refused + 1, || use_pages(&pager));
        assert_eq!(times, u32::from(has_come), "request {}", refused + 1);
        let stats = pager.stats();
        assert_eq!((stats.pinned, stats.unsaved), (0, 0));
        let pages = pager.into_io().0.into_inner();
        assert_eq!(pages.map(|page| page[1]), [7, 8, 9, 11]);
        if !has_come {
            break;
        }
        refused += 1;
    }
    // Five fixes that read, the lists of a checkpoint and of a clean, and write-outs take some.
    assert!(refused >= 8, "only {refused} requests");
}

/// A device that looks at page 2 while page 1 is read.
struct Nested(Weak<Pager<Nested>>, Cell<Option<Error>>);

impl PageIo for Nested {
    fn read_page(&self, page: u64, image: &mut [u8]) -> Result<(), ReadFault> {
        image.fill(page as u8);
        if page == 1 {
            let pager = self.0.upgrade().unwrap();
            let told = pager.read(2).map(|page| assert_eq!(page[0], 2));
            self.1.set(told.err().map(|error| error.refusal()));
        }
        Ok(())
    }

    fn write_page(&self, _page: u64, _image: &mut [u8], _lsn: u64) -> io::Result<()> {
        Ok(())
    }

    fn make_log_durable(&self, _lsn: u64) -> Result<(), LogFault> {
        Ok(())
    }

    fn sync(&self) -> io::Result<()> {
        Ok(())
    }
}

// The second call wants an image while the first has the one that is kept.
#[test]
fn image_without_memory() {
    let mut refused = 0;
    loop {
        let pager = Rc::new_cyclic(|weak| {
            let config = config(1).with_frames(2);
            Pager::new(&config, Nested(weak.clone(), Cell::default())).unwrap()
        });
        let (told, has_come) = refusing(refused + 1, || pager.read(1).map(|page| page[0]));
        let inner = pager.io().1.take();
        let outer = told.err().map(|error| error.refusal());
        let wanting = [inner, outer].into_iter().flatten().collect::<Vec<_>>();
        assert_eq!(wanting, vec![Error::OutOfMemory; has_come.into()]);
        assert_eq!(
            (pager.read(1).unwrap()[0], pager.read(2).unwrap()[0]),
            (1, 2)
        );
        if !has_come {
            break;
        }
        refused += 1;
    }
    assert!(refused >= 3, "only {refused} requests");
}

// Pages are in frames, unsaved and written out, and one was refused. With a mere drop the pager would say what is
// lost, and the harness keeps in memory what a test says.
#[test]
fn dropped_pager_gives_its_memory_back() {
    let before = BLOCKS.get();
    let pager = pager(2);
    use_pages_of(&pager);
    assert!(BLOCKS.get() > before + 20);
    let _io = pager.into_io();
    assert_eq!(BLOCKS.get(), before);
}

fn use_pages_of(pager: &Pager<Memory>) {
    for page in [0, 1, 2, 3, 0] {
        pager.write(page).unwrap().put(0, &[7], page).unwrap();
    }
    let pin = pager.pin(0).unwrap();
    let told = pager.try_read(3).map(drop).unwrap_err();
    assert_eq!(told.refusal(), Error::NoVictim);
    drop(pin);
    pager.checkpoint().unwrap();
    pager.write(1).unwrap().put(0, &[8], 9).unwrap();
}

// Four bytes in the core, four beside it, and a bit or so. It is memory that is asked for as the pager is
// made, and not more each time that a list grows.
#[test]
fn what_a_page_number_takes() {
    let asked = |pages| {
        let (config, before) = (PagerConfig::in_parts(pages, 16, 4, 4), ASKED.get());
        let memory = Memory(RefCell::new([[0; 16]; 4]));
        drop(Pager::new(&config, memory).unwrap());
        ASKED.get() - before
    };
    let (few, many) = (1 << 12, 1 << 20);
    let each = (asked(many) - asked(few)) as f64 / (many - few) as f64;
    assert!((8.0..8.5).contains(&each), "{each} bytes");
}
