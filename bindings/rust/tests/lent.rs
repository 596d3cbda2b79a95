//! Pages lent in place: which writes are refused meanwhile, and that what is lent stays as it is.
use hojzmated::core::{
    Config, Fixed, Flushed, PageBytes, PageGuard, Pool, ReadTicket, Refused, Saved, WriteTicket,
};
use hojzmated::{Error, ReadFault};
use std::cell::RefCell;
use std::panic::{AssertUnwindSafe, catch_unwind, resume_unwind};
use std::sync::Mutex;
use std::{mem, thread};

/// A pool over 16 pages of 16 bytes.
fn pool(frames: usize) -> Pool {
    Pool::new(&Config::new(16, 16, frames)).unwrap()
}

/// Fixes a page. Where it is read it has its number in each byte, and what goes out is let go.
fn fix(pool: &Pool, page: u64) -> PageGuard<'_> {
    pool.tick(0, 1).unwrap();
    loop {
        match pool.fix(0, page, &mut [0; 16]).unwrap() {
            Fixed::Hit(guard) => return guard,
            Fixed::Load { ticket, .. } => return pool.end_read(ticket, &[page as u8; 16]).unwrap(),
            Fixed::WriteFirst(ticket) => assert!(pool.end_write(ticket).is_ok()),
        }
    }
}

// ---- Refusals

// By the guard that lends it, by another one and by a pass. Another page is written to.
#[test]
fn write_to_a_lent_page() {
    let pool = pool(2);
    let (one, second, other) = (fix(&pool, 1), fix(&pool, 1), fix(&pool, 2));
    let pass = fix(&pool, 1).into_pass();
    let bytes = one.bytes().unwrap();
    assert_eq!(one.put(0, b"a", 0), Err(Error::Lent));
    assert_eq!(second.put(1, b"b", 0), Err(Error::Lent));
    assert_eq!(pool.put(&pass, 2, b"c", 0), Err(Error::Lent));
    assert_eq!(one.put(17, b"", 0), Err(Error::Lent));
    other.put(0, b"other", 0).unwrap();
    assert_eq!(*bytes, [1; 16]);
    drop(bytes);
    one.put(0, b"a", 0).unwrap();
    second.put(1, b"b", 0).unwrap();
    pool.put(&pass, 2, b"c", 0).unwrap();
    let (offset, len) = (17, 0);
    assert_eq!(one.put(17, b"", 0), Err(Error::OutOfPage { offset, len }));
    assert_eq!(second.bytes().unwrap()[..4], *b"abc\x01");
    assert_eq!(other.bytes().unwrap()[..6], *b"other\x02");
    pool.unfix(pass).unwrap();
}

// The page is written to once the last of them is gone, whichever that is.
#[test]
fn several_looks() {
    let pool = pool(2);
    let (one, second, other) = (fix(&pool, 1), fix(&pool, 1), fix(&pool, 2));
    for turn in 0..3 {
        let mut looks: Vec<PageBytes<'_>> = [&one, &other, &second, &one]
            .map(|page| page.bytes().unwrap())
            .into();
        assert_eq!(looks[0].as_ptr(), looks[2].as_ptr());
        drop(looks.remove(1));
        other.put(0, b"x", 0).unwrap();
        for place in [turn % 3, turn % 2, 0] {
            assert_eq!(one.put(0, b"y", 0), Err(Error::Lent));
            drop(looks.remove(place));
        }
        one.put(0, b"y", 0).unwrap();
    }
}

// A look lasts to the end of its statement, whose other parts are done meanwhile.
#[test]
fn looks_within_a_statement() {
    let pool = pool(1);
    let page = fix(&pool, 1);
    let told = page.put(0, &[page.bytes().unwrap()[0] + 1], 0);
    assert_eq!(told, Err(Error::Lent));
    match page.bytes().unwrap()[0] {
        1 => assert_eq!(page.put(0, &[2], 0), Err(Error::Lent)),
        _ => panic!("page 1 has ones"),
    }
    let first = page.bytes().unwrap()[0];
    page.put(0, &[first + 1], 0).unwrap();
    assert_eq!(page.bytes().unwrap()[..2], [2, 1]);
}

// It is read, flushed, replaced and loaded, and not written to. Others are, also in another thread.
#[test]
fn forgotten_look() {
    let pool = pool(1);
    let page = fix(&pool, 1);
    page.put(0, b"before", 0).unwrap();
    mem::forget(page.bytes().unwrap());
    assert_eq!(page.put(0, b"after", 0), Err(Error::Lent));
    assert_eq!(page.bytes().unwrap()[..7], *b"before\x01");
    drop(page);
    fix(&pool, 2).put(0, b"two", 0).unwrap();
    let page = fix(&pool, 1);
    assert_eq!(*page.bytes().unwrap(), [1; 16]);
    assert_eq!(page.put(0, b"after", 0), Err(Error::Lent));
    drop(page);
    let moved = thread::spawn(move || {
        fix(&pool, 2).put(0, b"two", 0).unwrap();
        fix(&pool, 1).put(0, b"after", 0)
    });
    assert_eq!(moved.join().unwrap(), Err(Error::Lent));
}

#[test]
fn panic_ends_a_look() {
    let pool = pool(1);
    let page = fix(&pool, 1);
    let caught = catch_unwind(AssertUnwindSafe(|| {
        let _bytes = page.bytes().unwrap();
        assert_eq!(page.put(0, b"a", 0), Err(Error::Lent));
        resume_unwind(Box::new("the engine's own code"));
    }));
    assert!(caught.is_err());
    page.put(0, b"a", 0).unwrap();
}

// Looks are no calls that the room counts: they go on where it is full.
#[test]
fn looks_where_the_trail_is_full() {
    let room = 3;
    let config = Config::new(16, 16, 1).with_room(room);
    let pool = Pool::new(&config).unwrap();
    let Fixed::Load { ticket, .. } = pool.fix(0, 1, &mut [0; 16]).unwrap() else {
        panic!("page 1 is away");
    };
    let page = pool.end_read(ticket, &[1; 16]).unwrap();
    for _ in 0..10 {
        assert_eq!(*page.bytes().unwrap(), [1; 16]);
    }
    assert_eq!(page.copy_to(0, &mut [0; 4]), Err(Error::TrailFull));
    assert_eq!(page.put(0, b"a", 0), Err(Error::TrailFull));
    pool.unfix(page.into_pass()).unwrap();
}

// ---- Two pools whose passes and tickets have the same numbers

#[test]
fn pass_with_the_numbers_of_another() {
    let (own, other) = (pool(1), pool(1));
    let pass = fix(&own, 1).into_pass();
    let twin = fix(&other, 1).into_pass();
    assert_eq!(pass.page(), twin.page());
    assert_eq!(pass.serial(), twin.serial());
    assert_ne!(pass, twin);
    let bytes = own.bytes(&pass).unwrap();
    assert_eq!(own.bytes(&twin).err(), Some(Error::UnknownPass));
    assert_eq!(own.copy_to(&twin, 0, &mut [0; 4]), Err(Error::UnknownPass));
    assert_eq!(own.put(&twin, 0, b"a", 0), Err(Error::UnknownPass));
    let refused = own.unfix(twin).unwrap_err();
    assert_eq!(refused.error, Error::UnknownPass);
    drop(own.guard(refused.token));
    // Page 1 stays pinned in its own pool, where its pass is lent from, and in the other one.
    own.tick(0, 1).unwrap();
    for one in [&own, &other] {
        assert_eq!(one.fix(0, 2, &mut [0; 16]).err(), Some(Error::NoVictim));
    }
    assert_eq!(*bytes, [1; 16]);
    drop(bytes);
    own.unfix(pass).unwrap();
}

/// Asks for page 1, which has to be read.
fn ticket_to_read(pool: &Pool) -> ReadTicket {
    match pool.fix(0, 1, &mut [0; 16]) {
        Ok(Fixed::Load { ticket, .. }) => ticket,
        other => panic!("{other:?}"),
    }
}

/// Writes to page 1 and asks that it be written out.
fn ticket_to_write(pool: &Pool) -> WriteTicket {
    fix(pool, 1).put(0, b"a", 0).unwrap();
    match pool.flush(0, 1, &mut [0; 16]) {
        Ok(Flushed::WriteFirst(ticket)) => ticket,
        other => panic!("{other:?}"),
    }
}

#[test]
fn ticket_with_the_numbers_of_another() {
    let (own, other) = (pool(1), pool(1));
    let (ticket, twin) = (ticket_to_read(&own), ticket_to_read(&other));
    assert_eq!(ticket.serial(), twin.serial());
    let Refused { error, token } = own.end_read(twin, &[9; 16]).unwrap_err();
    assert_eq!(error, Error::UnknownTicket);
    let refused = own.fail_read(token, &ReadFault::WrongPage).unwrap_err();
    assert_eq!(refused.error, Error::UnknownTicket);
    drop(own.end_read(ticket, &[1; 16]).unwrap());
    drop(other.end_read(refused.token, &[1; 16]).unwrap());

    let (ticket, twin) = (ticket_to_write(&own), ticket_to_write(&other));
    assert_eq!(ticket.serial(), twin.serial());
    let Refused { error, token } = own.end_write(twin).unwrap_err();
    assert_eq!(error, Error::UnknownTicket);
    let refused = own.fail_write(token).unwrap_err();
    assert_eq!(refused.error, Error::UnknownTicket);
    assert_eq!(own.end_write(ticket), Ok(Saved::Clean));
    other.fail_write(refused.token).unwrap();
    assert_eq!((own.totals().writes, other.totals().failed), (1, 1));
}

// ---- What is lent

// The image that goes out is that of the lent page, which is saved by it.
#[test]
fn flush_of_a_lent_page() {
    let pool = pool(1);
    let page = fix(&pool, 1);
    page.put(0, b"unsaved", 0).unwrap();
    let bytes = page.bytes().unwrap();
    let mut image = [0; 16];
    let Flushed::WriteFirst(ticket) = pool.flush(0, 1, &mut image).unwrap() else {
        panic!("page 1 is unsaved");
    };
    assert_eq!(image, *bytes);
    image.fill(0);
    assert_eq!(page.put(0, b"a", 0), Err(Error::Lent));
    assert_eq!(pool.end_write(ticket), Ok(Saved::Clean));
    assert_eq!(pool.flush(0, 1, &mut image), Ok(Flushed::Clean));
    assert_eq!(bytes[..8], *b"unsaved\x01");
}

#[test]
fn from_one_page_to_another() {
    let pool = pool(2);
    let (from, to) = (fix(&pool, 1), fix(&pool, 2));
    from.put(0, b"from page 1", 0).unwrap();
    let (bytes, before) = (from.bytes().unwrap(), to.bytes().unwrap());
    assert_eq!(to.put(2, &bytes[5..], 0), Err(Error::Lent));
    drop(before);
    to.put(2, &bytes[5..], 0).unwrap();
    assert_eq!(to.bytes().unwrap()[..9], *b"\x02\x02page 1\x01");
    let mut part = [0; 4];
    from.copy_to(5, &mut part).unwrap();
    assert_eq!(part, bytes[5..9]);
    // Nothing and too much are answered as ever.
    to.put(16, &bytes[16..], 0).unwrap();
    let beyond = |offset, len| Err(Error::OutOfPage { offset, len });
    assert_eq!(to.put(1, &bytes, 0), beyond(1, 16));
    assert_eq!(to.put(0, &[7; 100], 0), beyond(0, 100));
    assert_eq!(from.copy_to(13, &mut part), beyond(13, 4));
    drop(to);
    // A page is taken for the image of another one.
    pool.tick(0, 1).unwrap();
    let Fixed::WriteFirst(ticket) = pool.fix(0, 3, &mut [0; 16]).unwrap() else {
        panic!("page 2 is unsaved");
    };
    assert_eq!(pool.end_write(ticket), Ok(Saved::Clean));
    let Fixed::Load { ticket, .. } = pool.fix(0, 3, &mut [0; 16]).unwrap() else {
        panic!("page 3 is away");
    };
    let Refused { error, token } = pool.end_read(ticket, &bytes[1..]).unwrap_err();
    assert_eq!(error, Error::BadBuffer { len: 15 });
    let third = pool.end_read(token, &bytes).unwrap();
    assert_eq!(*third.bytes().unwrap(), *bytes);
    third.put(0, b"third", 0).unwrap();
    assert_eq!(bytes[..11], *b"from page 1");
}

/// A core with a device in memory, which has sixteen pages, and a log that is always durable.
struct Engine {
    pool: Pool,
    pages: RefCell<[[u8; 16]; 16]>,
}

impl Engine {
    fn new(frames: usize) -> Engine {
        Engine {
            pool: pool(frames),
            pages: RefCell::new([[0; 16]; 16]),
        }
    }

    fn write_out(&self, ticket: WriteTicket, image: [u8; 16]) {
        self.pages.borrow_mut()[ticket.page() as usize] = image;
        assert!(self.pool.end_write(ticket).is_ok());
    }

    fn fix(&self, page: u64) -> PageGuard<'_> {
        self.pool.tick(0, 1).unwrap();
        let mut image = [0; 16];
        loop {
            match self.pool.fix(0, page, &mut image) {
                Ok(Fixed::Hit(guard)) => return guard,
                Ok(Fixed::Load { ticket, .. }) => {
                    let read = self.pages.borrow()[page as usize];
                    return self.pool.end_read(ticket, &read).unwrap();
                }
                Ok(Fixed::WriteFirst(ticket)) => self.write_out(ticket, image),
                Err(Error::NeedLog { lsn }) => self.pool.mark(0, lsn).unwrap(),
                Err(error) => panic!("{error}"),
            }
        }
    }

    fn flush(&self, page: u64) {
        let mut image = [0; 16];
        loop {
            match self.pool.flush(0, page, &mut image) {
                Ok(Flushed::WriteFirst(ticket)) => self.write_out(ticket, image),
                Ok(Flushed::Clean | Flushed::Absent) => return,
                Err(Error::NeedLog { lsn }) => self.pool.mark(0, lsn).unwrap(),
                Err(error) => panic!("{error}"),
            }
        }
    }

    /// Uses a page: the lent ones are not written to, and each has the bytes that it had to.
    fn step(&self, newest: &mut [[u8; 16]; 16], lent: &[u64], numbers: &mut Numbers) {
        let number = numbers.below(16);
        let page = self.fix(number);
        assert_eq!(*page.bytes().unwrap(), newest[number as usize]);
        if numbers.below(2) == 0 {
            let (at, byte) = (numbers.below(16) as usize, numbers.below(256) as u8);
            let told = page.put(at, &[byte], numbers.below(100));
            if lent.contains(&number) {
                assert_eq!(told, Err(Error::Lent));
            } else {
                told.unwrap();
                newest[number as usize][at] = byte;
            }
        }
        if numbers.below(8) == 0 {
            self.flush(numbers.below(16));
        }
    }
}

/// Numbers that look random, the same ones each time.
struct Numbers(u64);

impl Numbers {
    fn below(&mut self, end: u64) -> u64 {
        let state = self.0;
        self.0 = state
            .wrapping_mul(6_364_136_223_846_793_005)
            .wrapping_add(1_442_695_040_888_963_407);
        (self.0 >> 33) % end
    }
}

// Two pages are lent, while others are loaded, written to, written out and replaced in the frames
// that are left.
#[test]
fn random_walk_beside_lent_pages() {
    let engine = Engine::new(4);
    let mut newest = [[0; 16]; 16];
    let mut numbers = Numbers(1);
    for _ in 0..500 {
        let lent = [numbers.below(16), numbers.below(16)];
        let guards = lent.map(|number| engine.fix(number));
        let looks = guards.each_ref().map(|page| page.bytes().unwrap());
        let before = lent.map(|number| newest[number as usize]);
        for _ in 0..20 {
            engine.step(&mut newest, &lent, &mut numbers);
            assert!(looks.iter().zip(&before).all(|(look, it)| **look == *it));
        }
    }
    (0..16).for_each(|page| engine.flush(page));
    let totals = engine.pool.totals();
    assert!(totals.hits > 0 && totals.evictions > 0 && totals.writes > 0);
    assert_eq!(engine.pages.into_inner(), newest);
}

// The slice goes to other threads, while this one loads and writes other pages.
#[test]
fn slices_in_other_threads() {
    let pool = pool(2);
    let page = fix(&pool, 1);
    let bytes = page.bytes().unwrap();
    thread::scope(|threads| {
        let slice: &[u8] = &bytes;
        let sums = [0; 2].map(|_| threads.spawn(|| slice.iter().sum::<u8>()));
        for number in 2..16 {
            fix(&pool, number).put(0, b"new", 0).unwrap();
        }
        assert_eq!(sums.map(|sum| sum.join().unwrap()), [16, 16]);
    });
}

#[test]
fn looks_under_a_mutex() {
    let pool = Mutex::new(pool(1));
    let pass = fix(&pool.lock().unwrap(), 1).into_pass();
    let count = |_: u32| {
        let pool = pool.lock().unwrap();
        let bytes = pool.bytes(&pass).unwrap();
        assert_eq!(pool.put(&pass, 0, b"a", 0), Err(Error::Lent));
        let next = bytes[0] + 1;
        drop(bytes);
        pool.put(&pass, 0, &[next], 0).unwrap();
    };
    thread::scope(|threads| {
        for _ in 0..2 {
            threads.spawn(|| (0..50).for_each(count));
        }
    });
    let pool = pool.into_inner().unwrap();
    assert_eq!(pool.bytes(&pass).unwrap()[0], 101);
    pool.unfix(pass).unwrap();
}
