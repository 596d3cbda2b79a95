//! Who gets a frame where all pages that could make way are pinned: who came first.
use crate::device::{Asked, Device, Gate, PAGES, Watch, config, pager, put};
use hojzmated::{Error, Pager, PagerError};
use std::sync::atomic::{AtomicBool, AtomicU64, Ordering};
use std::sync::mpsc::{Sender, channel};
use std::sync::{Arc, Mutex};
use std::thread;
use std::time::{Duration, Instant};

/// So long a call has waited for sure after which nobody gets a frame before it that comes later.
const SURELY: Duration = Duration::from_millis(5);

/// Waits until threads slept so often.
fn wait_for(pager: &Pager<Device>, waits: u64) {
    while pager.stats().waits < waits {
        thread::yield_now();
    }
}

fn is_full<T>(told: Result<T, PagerError>) -> bool {
    told.is_err_and(|it| it.refusal() == Error::NoVictim)
}

#[test]
fn in_the_order_in_which_they_came() {
    let _watch = Watch::over("in_the_order_in_which_they_came", 60);
    let (pager, order) = (pager(1), Mutex::new(Vec::new()));
    let pin = pager.pin(0).unwrap();
    thread::scope(|threads| {
        for page in 1..PAGES {
            let (pager, order) = (&pager, &order);
            threads.spawn(move || {
                let _pin = pager.pin(page).unwrap();
                order.lock().unwrap().push(page);
            });
            wait_for(pager, page);
        }
        drop(pin);
    });
    assert_eq!(*order.lock().unwrap(), (1..PAGES).collect::<Vec<_>>());
}

// More threads than there are places in the line. All get through.
#[test]
fn many_in_line() {
    let _watch = Watch::over("many_in_line", 120);
    let (pager, got) = (pager(1), AtomicU64::new(0));
    let pin = pager.pin(0).unwrap();
    thread::scope(|threads| {
        for thread in 0..150 {
            let (pager, got) = (&pager, &got);
            threads.spawn(move || {
                let pin = pager.pin(1 + thread % (PAGES - 1)).unwrap();
                got.fetch_add(1, Ordering::Relaxed);
                drop(pin);
            });
        }
        wait_for(&pager, 150);
        drop(pin);
    });
    assert_eq!((got.into_inner(), pager.stats().pinned), (150, 0));
}

// The thread that lets its page go comes for another one at once. But the frame is that of who waits.
#[test]
fn newcomer_stands_behind() {
    let _watch = Watch::over("newcomer_stands_behind", 120);
    for _ in 0..20 {
        let pager = pager(1);
        let pin = pager.pin(0).unwrap();
        let (got, told) = channel();
        let (end, ended) = channel::<()>();
        thread::scope(|threads| {
            let waiting = &pager;
            threads.spawn(move || {
                let _pin = waiting.pin(1).unwrap();
                got.send(()).unwrap();
                let _ = ended.recv();
            });
            wait_for(&pager, 1);
            thread::sleep(SURELY);
            drop(pin);
            assert!(is_full(pager.try_pin(2)));
            told.recv().unwrap();
            drop::<Sender<()>>(end);
        });
        assert_eq!(pager.pin(2).unwrap().page(), 2);
    }
}

// A page that is in a frame is had at once, whoever waits.
#[test]
fn page_in_a_frame_beside_a_line() {
    let _watch = Watch::over("page_in_a_frame_beside_a_line", 60);
    let pager = pager(2);
    let pins = [0, 1].map(|page| pager.pin(page).unwrap());
    thread::scope(|threads| {
        threads.spawn(|| drop(pager.pin(2).unwrap()));
        wait_for(&pager, 1);
        thread::sleep(SURELY);
        assert!(pager.try_read(0).unwrap().is_some());
        assert_eq!(pager.pin(1).unwrap().page(), 1);
        assert_eq!(pager.read(1).unwrap().page(), 1);
        drop(pins);
    });
}

// Of three that wait the first and the last want the same page. When the first has it so has the last,
// though no frame comes free and another is before it.
#[test]
fn page_that_another_got() {
    let _watch = Watch::over("page_that_another_got", 60);
    let pager = pager(2);
    let [pin, other] = [0, 1].map(|page| pager.pin(page).unwrap());
    let (ends, has_ended) = (AtomicBool::new(false), AtomicBool::new(false));
    thread::scope(|threads| {
        let first = threads.spawn(|| {
            let pin = pager.pin(5).unwrap();
            while !ends.load(Ordering::Relaxed) {
                thread::sleep(Duration::from_millis(1));
            }
            drop(pin);
        });
        wait_for(&pager, 1);
        threads.spawn(|| {
            assert_eq!(pager.pin(6).unwrap().page(), 6);
            has_ended.store(true, Ordering::Relaxed);
        });
        wait_for(&pager, 2);
        let last = threads.spawn(|| pager.pin(5).map(|it| it.page()));
        wait_for(&pager, 3);
        let began = Instant::now();
        drop(pin);
        assert_eq!(last.join().unwrap().unwrap(), 5);
        assert!(began.elapsed() < pager.config().pin_wait / 2);
        assert!(!first.is_finished() && !has_ended.load(Ordering::Relaxed));
        ends.store(true, Ordering::Relaxed);
        first.join().unwrap();
        drop(other);
    });
    assert_eq!(pager.io().asked().len(), 4);
}

// The first that waits wants a page that another thread begins to read. It gives its turn to the next
// one, which need not wait for that read.
#[test]
fn turn_of_who_waits_for_a_read() {
    let _watch = Watch::over("turn_of_who_waits_for_a_read", 60);
    let pager = pager(2);
    put(&pager, 0, 1, 0);
    let pin = pager.pin(1).unwrap();
    let gates = [0, 1].map(|_| Arc::new(Gate::default()));
    let [at_write, at_read] = gates.each_ref().map(Arc::clone);
    pager.io().within(move |asked| match asked {
        Asked::Write(0, ..) => at_write.pass(),
        Asked::Read(5) => at_read.pass(),
        _ => {}
    });
    let [at_write, at_read] = gates;
    thread::scope(|threads| {
        threads.spawn(|| drop(pager.pin(5).unwrap()));
        at_write.wait_for(1);
        threads.spawn(|| drop(pager.pin(5).unwrap()));
        wait_for(&pager, 1);
        let next = threads.spawn(|| pager.pin(6).map(|it| it.page()));
        wait_for(&pager, 2);
        at_write.open();
        at_read.wait_for(1);
        drop(pin);
        assert_eq!(next.join().unwrap().unwrap(), 6);
        at_read.open();
    });
}

// A victim is written out for a call. Nobody who waits gets its frame before that call.
#[test]
fn frame_that_was_written_out_for_a_call() {
    let _watch = Watch::over("frame_that_was_written_out_for_a_call", 60);
    for _ in 0..20 {
        let pager = pager(1);
        put(&pager, 0, 1, 0);
        let gate = Arc::new(Gate::default());
        let device = Arc::clone(&gate);
        pager.io().within(move |asked| {
            if matches!(asked, Asked::Write(0, ..)) {
                device.pass();
            }
        });
        let order = Mutex::new(Vec::new());
        let note = |page| {
            let _pin = pager.pin(page).unwrap();
            order.lock().unwrap().push(page);
        };
        thread::scope(|threads| {
            threads.spawn(|| note(1));
            gate.wait_for(1);
            threads.spawn(|| note(2));
            wait_for(&pager, 1);
            gate.open();
        });
        assert_eq!(*order.lock().unwrap(), [1, 2]);
    }
}

// A call that gives up leaves the line, and so does one before it.
#[test]
fn calls_that_give_up() {
    let _watch = Watch::over("calls_that_give_up", 60);
    let config = config(1).with_pin_wait(Duration::from_millis(30));
    let pager = Pager::new(&config, Device::default()).unwrap();
    let pin = pager.pin(0).unwrap();
    for _ in 0..3 {
        thread::scope(|threads| {
            for page in 1..9 {
                let pager = &pager;
                threads.spawn(move || assert!(is_full(pager.pin(page))));
            }
        });
    }
    drop(pin);
    assert!(pager.try_pin(1).is_ok());
}

// Pages are not read ahead into frames for which calls wait.
#[test]
fn prefetch_stands_back() {
    let _watch = Watch::over("prefetch_stands_back", 60);
    let pager = Arc::new(pager(1));
    let _readers = pager.start_readers(1).unwrap();
    let pin = pager.pin(0).unwrap();
    let (got, told) = channel();
    thread::scope(|threads| {
        let waiting = &pager;
        threads.spawn(move || {
            let _pin = waiting.pin(1).unwrap();
            got.send(()).unwrap();
        });
        wait_for(&pager, 1);
        assert_eq!(pager.prefetch(2..12), 10);
        drop(pin);
        // Who waited may have had the frame meanwhile, and a page of these be in it.
        assert!(pager.prefetch(2..12) >= 9);
        told.recv().unwrap();
    });
    let asked = pager.io().asked();
    assert_eq!(asked[..2], [Asked::Read(0), Asked::Read(1)]);
}

// Sixty-four threads pin a page at a time of four frames, and keep it for a while. A call is passed by no
// more than three times as many as there are threads. Who came late would be passed by thousands. The
// system may stop a thread anywhere, so in one round of ten it has to be so.
#[test]
fn nobody_is_passed_by_many() {
    let _watch = Watch::over("nobody_is_passed_by_many", 120);
    let mut rounds = Vec::new();
    while rounds.iter().all(|most| *most > 3 * THREADS) && rounds.len() < 10 {
        rounds.push(most_passed());
    }
    assert!(rounds.iter().any(|most| *most <= 3 * THREADS), "{rounds:?}");
}

const THREADS: u64 = 64;

/// By how many calls one was passed at most, in two seconds.
fn most_passed() -> u64 {
    let (pager, given, most) = (pager(4), AtomicU64::new(0), AtomicU64::new(0));
    let end = Instant::now() + Duration::from_secs(2);
    thread::scope(|threads| {
        for thread in 0..THREADS {
            let (pager, given, most) = (&pager, &given, &most);
            threads.spawn(move || {
                let mut page = thread;
                while Instant::now() < end {
                    page = (page * 7 + 3) % PAGES;
                    let before = given.load(Ordering::Relaxed);
                    let pin = pager.pin(page).unwrap();
                    let passed = given.fetch_add(1, Ordering::Relaxed) - before;
                    most.fetch_max(passed, Ordering::Relaxed);
                    thread::sleep(Duration::from_millis(1));
                    drop(pin);
                }
            });
        }
    });
    most.into_inner()
}
