//! An engine of several threads over a core: it is under a mutex that is open while the device works.
use hojzmated::Error;
use hojzmated::core::{Config, Fixed, Flushed, Pass, Pool, ReadTicket, Saved, WriteTicket};
use std::sync::{Mutex, MutexGuard};
use std::thread;

const PAGES: u64 = 64;
const SIZE: usize = 256;
const THREADS: u8 = 2;
const ROUNDS: u64 = 5_000;

fn config() -> Config {
    Config::new(PAGES, SIZE, 8).with_clients(THREADS)
}

/// The LSN of a page's newest write is its first word, and a counter its second.
fn words(bytes: &[u8]) -> [u64; 2] {
    [0, 8].map(|at| u64::from_le_bytes(bytes[at..at + 8].try_into().unwrap()))
}

fn bytes_of(words: [u64; 2]) -> Vec<u8> {
    words.into_iter().flat_map(u64::to_le_bytes).collect()
}

/// Numbers that look random, others for each thread.
fn next(state: &mut u64) -> u64 {
    *state = state
        .wrapping_mul(6_364_136_223_846_793_005)
        .wrapping_add(1_442_695_040_888_963_407);
    (*state >> 33) % PAGES
}

/// What goes under the mutex.
struct Engine {
    pool: Pool,
    log_end: u64,
    durable: u64,
    /// The LSN of the newest write of each page.
    newest: [u64; PAGES as usize],
}

struct Shared {
    engine: Mutex<Engine>,
    /// The device: each page under a mutex of its own.
    device: Vec<Mutex<[u8; SIZE]>>,
}

impl Shared {
    fn new() -> Shared {
        Shared {
            engine: Mutex::new(Engine {
                pool: Pool::new(&config()).unwrap(),
                log_end: 0,
                durable: 0,
                newest: [0; PAGES as usize],
            }),
            device: (0..PAGES).map(|_| Mutex::new([0; SIZE])).collect(),
        }
    }

    fn lock(&self) -> MutexGuard<'_, Engine> {
        self.engine.lock().unwrap()
    }

    fn on_device(&self, page: u64) -> MutexGuard<'_, [u8; SIZE]> {
        thread::yield_now();
        self.device[page as usize].lock().unwrap()
    }
}

/// What is to be done with the mutex open.
enum Step {
    Done(Pass),
    Read(ReadTicket),
    Write(WriteTicket),
    Wait,
}

impl Engine {
    /// Asks for a page once.
    fn ask(&mut self, client: u8, page: u64, image: &mut [u8]) -> Step {
        match self.pool.fix(client, page, image) {
            Ok(Fixed::Hit(guard)) => return Step::Done(guard.into_pass()),
            Ok(Fixed::Load { ticket, .. }) => return Step::Read(ticket),
            Ok(Fixed::WriteFirst(ticket)) => return Step::Write(ticket),
            Err(Error::NeedLog { lsn }) => {
                self.durable = lsn;
                self.pool.mark(client, lsn).unwrap();
            }
            Err(Error::Busy | Error::NoVictim) => self.pool.tick(client, 1).unwrap(),
            Err(error) => panic!("fix: {error}"),
        }
        Step::Wait
    }

    /// Asks once that a page be written out: none where there is nothing to write.
    fn ask_flush(&mut self, client: u8, page: u64, image: &mut [u8]) -> Option<Step> {
        match self.pool.flush(client, page, image) {
            Ok(Flushed::Clean | Flushed::Absent) => return None,
            Ok(Flushed::WriteFirst(ticket)) => return Some(Step::Write(ticket)),
            Err(Error::NeedLog { lsn }) => {
                self.durable = lsn;
                self.pool.mark(client, lsn).unwrap();
            }
            Err(Error::Busy) => {}
            Err(error) => panic!("flush: {error}"),
        }
        Some(Step::Wait)
    }

    fn add(&mut self, client: u8, pass: Pass) {
        let page = self.pool.guard(pass);
        let [_, count] = words(&page.bytes().unwrap());
        self.log_end += 1;
        self.newest[page.page() as usize] = self.log_end;
        page.put(0, &bytes_of([self.log_end, count + 1]), self.log_end)
            .unwrap();
        drop(page);
        self.pool.tick(client, 1).unwrap();
    }
}

/// Writes a page out with the mutex open. It is saved then, unless a thread wrote to it meanwhile.
fn write_out(shared: &Shared, ticket: WriteTicket, image: &[u8]) {
    let (page, lsn) = (ticket.page(), ticket.lsn());
    assert_eq!(words(image)[0], lsn, "the LSN in the image of page {page}");
    shared.on_device(page).copy_from_slice(image);
    let engine = shared.lock();
    assert!(lsn <= engine.durable, "an image ahead of the log");
    let saved = engine.pool.end_write(ticket).unwrap();
    let is_newest = engine.newest[page as usize] == lsn;
    assert_eq!(saved == Saved::Clean, is_newest, "page {page}");
}

/// Reads a page with the mutex open.
fn read_in(shared: &Shared, ticket: ReadTicket, image: &mut [u8]) -> Pass {
    let page = ticket.page();
    image.copy_from_slice(shared.on_device(page).as_slice());
    let engine = shared.lock();
    assert_eq!(words(image)[0], engine.newest[page as usize], "page {page}");
    engine.pool.end_read(ticket, image).unwrap().into_pass()
}

fn fix(shared: &Shared, client: u8, page: u64, image: &mut [u8]) -> Pass {
    loop {
        let step = shared.lock().ask(client, page, image);
        match step {
            Step::Done(pass) => return pass,
            Step::Read(ticket) => return read_in(shared, ticket, image),
            Step::Write(ticket) => write_out(shared, ticket, image),
            Step::Wait => thread::yield_now(),
        }
    }
}

fn flush(shared: &Shared, client: u8, page: u64, image: &mut [u8]) {
    loop {
        let step = shared.lock().ask_flush(client, page, image);
        match step {
            Some(Step::Write(ticket)) => write_out(shared, ticket, image),
            Some(_) => thread::yield_now(),
            None => return,
        }
    }
}

fn work(shared: &Shared, client: u8) {
    let mut state = u64::from(client) + 1;
    let mut image = [0; SIZE];
    for round in 0..ROUNDS {
        let pass = fix(shared, client, next(&mut state), &mut image);
        thread::yield_now();
        shared.lock().add(client, pass);
        if round % 16 == 0 {
            flush(shared, client, next(&mut state), &mut image);
        }
    }
}

// Each addition is in the counters that the device has at the end, and each fix is counted.
#[test]
fn engine_with_the_mutex_open_while_the_device_works() {
    let shared = Shared::new();
    thread::scope(|threads| {
        for client in 0..THREADS {
            let shared = &shared;
            threads.spawn(move || work(shared, client));
        }
    });
    let mut image = [0; SIZE];
    (0..PAGES).for_each(|page| flush(&shared, 0, page, &mut image));
    let sum: u64 = (0..PAGES)
        .map(|page| words(shared.on_device(page).as_slice())[1])
        .sum();
    assert_eq!(sum, u64::from(THREADS) * ROUNDS);
    let totals = shared.lock().pool.totals();
    assert_eq!(totals.hits + totals.faults, u64::from(THREADS) * ROUNDS);
    assert!(totals.hits > 0 && totals.evictions > 0 && totals.writes > 0);
    assert_eq!(totals.failed, 0);
}
