//! What an observer is told: each event once, with its page and its time, and not under a lock.
use crate::device::{Device, Fate, Gate, Watch, config, put};
use hojzmated::{
    Device as _, Error, FileOptions, Observer, PageIo, Pager, PagerConfig, PagerError, Wait,
};
use std::any::Any;
use std::ops::Range;
use std::panic::resume_unwind;
use std::sync::mpsc::channel;
use std::sync::{Arc, Mutex, OnceLock, Weak};
use std::time::{Duration, Instant};
use std::{env, fs, mem, process, thread};

/// So long each request to a device takes at least.
const WORK: Duration = Duration::from_millis(2);
/// So long who waits does so at least.
const A_WHILE: Duration = Duration::from_millis(5);

#[derive(Clone, Debug, PartialEq, Eq)]
enum Event {
    Read(Range<u64>),
    Write(Range<u64>),
    Log(u64),
    Sync,
    Evict(u64),
    Wait(Wait),
    Fault(String),
    Panicked(&'static str),
    /// While the observer was called another thread could not ask the pager.
    Stuck,
}

/// Notes what it is told, once another thread has asked the pager for its counts.
struct Notes<F> {
    pager: OnceLock<Weak<Pager<F>>>,
    events: Mutex<Vec<(Event, Duration)>>,
}

impl<F> Default for Notes<F> {
    fn default() -> Notes<F> {
        let (pager, events) = (OnceLock::new(), Mutex::default());
        Notes { pager, events }
    }
}

impl<F: Send + Sync + 'static> Notes<F> {
    fn note(&self, event: Event, time: Duration) {
        let pager = self.pager.get().and_then(Weak::upgrade);
        let (told, answer) = channel();
        thread::spawn(move || {
            if let Some(pager) = pager {
                let _ = (pager.stats(), pager.unsaved(), pager.is_resident(1));
                pager.mark(0);
            }
            let _ = told.send(());
        });
        let event = match answer.recv_timeout(Duration::from_secs(10)) {
            Ok(()) => event,
            Err(_) => Event::Stuck,
        };
        self.events.lock().unwrap().push((event, time));
    }

    /// What was told since the last time. Device and log took so long at least.
    fn told(&self) -> Vec<Event> {
        let told = mem::take(&mut *self.events.lock().unwrap());
        for (event, time) in &told {
            let least = match event {
                Event::Read(_) | Event::Write(_) | Event::Log(_) | Event::Sync => WORK,
                Event::Fault(_) => WORK,
                Event::Wait(_) => A_WHILE,
                Event::Evict(_) | Event::Panicked(_) | Event::Stuck => Duration::ZERO,
            };
            assert!(*time >= least, "{event:?} took {time:?}");
        }
        told.into_iter().map(|(event, _)| event).collect()
    }

    /// The same, once there is something.
    fn told_soon(&self) -> Vec<Event> {
        let began = Instant::now();
        while self.events.lock().unwrap().is_empty() {
            assert!(began.elapsed() < Duration::from_secs(30), "nothing is told");
            thread::yield_now();
        }
        self.told()
    }
}

impl<F: Send + Sync + 'static> Observer for Notes<F> {
    fn read(&self, pages: Range<u64>, time: Duration) {
        self.note(Event::Read(pages), time);
    }

    fn write_out(&self, pages: Range<u64>, time: Duration) {
        self.note(Event::Write(pages), time);
    }

    fn log(&self, lsn: u64, time: Duration) {
        self.note(Event::Log(lsn), time);
    }

    fn sync(&self, time: Duration) {
        self.note(Event::Sync, time);
    }

    fn evict(&self, page: u64) {
        self.note(Event::Evict(page), Duration::ZERO);
    }

    fn wait(&self, wait: Wait, time: Duration) {
        self.note(Event::Wait(wait), time);
    }

    fn fault(&self, fault: &PagerError, time: Duration) {
        self.note(Event::Fault(fault.to_string()), time);
    }

    fn panicked(&self, with: &(dyn Any + Send)) {
        let with = with.downcast_ref().copied().unwrap_or("something");
        self.note(Event::Panicked(with), Duration::ZERO);
    }
}

type Observed<F> = (Arc<Pager<F>>, Arc<Notes<F>>);

fn observed_over<F: PageIo + Send + Sync + 'static>(config: PagerConfig, io: F) -> Observed<F> {
    let notes = Arc::new(Notes::default());
    let config = config.with_observer(Arc::clone(&notes));
    let pager = Arc::new(Pager::new(&config, io).unwrap());
    notes.pager.set(Arc::downgrade(&pager)).unwrap();
    (pager, notes)
}

/// A pager with one part of so many frames, whose device takes its time.
fn observed(frames: usize) -> Observed<Device> {
    let (pager, notes) = observed_over(config(frames), Device::default());
    pager.io().within(|_| thread::sleep(WORK));
    (pager, notes)
}

#[test]
fn each_event_once() {
    let _watch = Watch::over("each_event_once", 60);
    let (pager, notes) = observed(1);
    put(&pager, 1, 9, 5);
    assert_eq!(notes.told(), [Event::Read(1..2)]);
    // It is found in its frame.
    put(&pager, 1, 10, 6);
    drop(pager.read(1).unwrap());
    assert_eq!(notes.told(), []);
    drop(pager.read(2).unwrap());
    let told = [
        Event::Log(6),
        Event::Write(1..2),
        Event::Evict(1),
        Event::Read(2..3),
    ];
    assert_eq!(notes.told(), told);
    // A new page is not read.
    drop(pager.new_page(3).unwrap());
    assert_eq!(notes.told(), [Event::Evict(2)]);
    put(&pager, 3, 7, 6);
    pager.checkpoint().unwrap();
    assert_eq!(notes.told(), [Event::Write(3..4), Event::Sync]);
    pager.discard(3).unwrap();
    assert_eq!(notes.told(), []);
}

// Pages side by side are one event, of their file and not of their parts.
#[test]
fn pages_side_by_side() {
    let _watch = Watch::over("pages_side_by_side", 60);
    let path = env::temp_dir().join(format!("hojzmated-observed-{}", process::id()));
    let pages = FileOptions::new(64).grown_to(64).create(&path).unwrap();
    let config = pages.config(16).with_parts(4);
    let (pager, notes) = observed_over(config, pages.without_log());
    for page in [7, 5, 6] {
        pager.new_page(page).unwrap().put(0, &[1], 0).unwrap();
    }
    pager.checkpoint().unwrap();
    let told = |notes: &Notes<_>| {
        let events = mem::take(&mut *notes.events.lock().unwrap());
        assert!(events.iter().all(|(_, time)| !time.is_zero()));
        events.into_iter().map(|it| it.0).collect::<Vec<_>>()
    };
    assert_eq!(told(&notes), [Event::Write(5..8), Event::Sync]);
    let readers = pager.start_readers(1).unwrap();
    assert_eq!(pager.prefetch(20..23), 3);
    let began = Instant::now();
    while !(20..23).all(|page| pager.is_resident(page)) {
        assert!(began.elapsed() < Duration::from_secs(30));
        thread::yield_now();
    }
    drop(readers);
    assert_eq!(told(&notes), [Event::Read(20..23)]);
    fs::remove_file(path).unwrap();
}

/// What is told of waits if one thread makes a call while another does something, which ends once the first one has
/// waited for a while. `begin` returns once the wait may begin.
fn told_of_a_wait<T>(
    (pager, notes): &Observed<Device>,
    begin: impl FnOnce() -> T,
    call: impl FnOnce(&Pager<Device>) + Send,
    end: impl FnOnce(T),
) -> Vec<Event> {
    thread::scope(|threads| {
        let begun = begin();
        let before = pager.stats().waits;
        threads.spawn(|| call(pager));
        while pager.stats().waits == before {
            thread::yield_now();
        }
        thread::sleep(A_WHILE);
        end(begun);
    });
    let told = notes.told();
    let waits = told.into_iter().filter(|it| matches!(it, Event::Wait(_)));
    waits.collect()
}

#[test]
fn waits_for_a_latch_a_frame_and_pins() {
    let _watch = Watch::over("waits_for_a_latch_a_frame_and_pins", 60);
    let both = observed(1);
    let (pager, _) = &both;
    let read = |pager: &Pager<Device>| drop(pager.read(3).unwrap());
    let write = |pager: &Pager<Device>| put(pager, 3, 1, 0);
    let for_latch = [Event::Wait(Wait::Latch(3))];
    let told = told_of_a_wait(&both, || pager.write(3).unwrap(), read, drop);
    assert_eq!(told, for_latch);
    let told = told_of_a_wait(&both, || pager.read(3).unwrap(), write, drop);
    assert_eq!(told, for_latch);
    // A latch beside a pin.
    let pin = pager.pin(3).unwrap();
    let by_pin = |_: &Pager<Device>| drop(pin.read());
    let told = told_of_a_wait(&both, || pager.write(3).unwrap(), by_pin, drop);
    assert_eq!(told, for_latch);
    drop(pin);
    let flush = |pager: &Pager<Device>| pager.flush(3).unwrap();
    let told = told_of_a_wait(&both, || pager.write(3).unwrap(), flush, drop);
    assert_eq!(told, for_latch);
    let told = told_of_a_wait(&both, || pager.pin(4).unwrap(), read, drop);
    assert_eq!(told, [Event::Wait(Wait::Frame(3))]);
    let discard = |pager: &Pager<Device>| assert!(pager.discard(3).unwrap());
    let told = told_of_a_wait(&both, || pager.pin(3).unwrap(), discard, drop);
    assert_eq!(told, [Event::Wait(Wait::Pins(3))]);
}

/// What is told of waits if two threads make calls, and the device is in the work for the first of them meanwhile.
fn told_of_two(
    both: &Observed<Device>,
    first: impl Fn(&Pager<Device>) + Sync,
    second: impl Fn(&Pager<Device>) + Send,
) -> Vec<Event> {
    let (pager, _) = both;
    let gate = Arc::new(Gate::default());
    let device = Arc::clone(&gate);
    pager.io().within(move |_| {
        device.pass();
        thread::sleep(WORK);
    });
    thread::scope(|threads| {
        let begin = || {
            threads.spawn(|| first(pager));
            gate.wait_for(1);
        };
        told_of_a_wait(both, begin, second, |()| gate.open())
    })
}

#[test]
fn waits_for_device_and_log() {
    let _watch = Watch::over("waits_for_device_and_log", 60);
    let both = observed(4);
    let (pager, _) = &both;
    let read = |pager: &Pager<Device>| drop(pager.read(3).unwrap());
    assert_eq!(told_of_two(&both, read, read), [Event::Wait(Wait::Page(3))]);
    for (page, lsn) in [(1, 5), (2, 6)] {
        pager.new_page(page).unwrap().put(0, &[1], lsn).unwrap();
    }
    let flush = |page| move |pager: &Pager<Device>| pager.flush(page).unwrap();
    assert_eq!(
        told_of_two(&both, flush(1), flush(2)),
        [Event::Wait(Wait::Log(6))]
    );
    put(pager, 1, 2, 0);
    assert_eq!(
        told_of_two(&both, flush(1), flush(1)),
        [Event::Wait(Wait::Page(1))]
    );
    let sync = |pager: &Pager<Device>| assert_eq!(pager.sync().unwrap(), None);
    assert_eq!(told_of_two(&both, sync, sync), [Event::Wait(Wait::Sync)]);
}

// A call waits for the read of a page, and then for its latch. The writer may not have that yet as the reader wakes:
// then there is no second wait. So in one round of twenty it has to be so.
#[test]
fn several_waits_of_one_call() {
    let _watch = Watch::over("several_waits_of_one_call", 60);
    let waits = [Wait::Page(3), Wait::Latch(3)].map(Event::Wait);
    let mut rounds = (0..20).map(|_| told_of_reader_behind_writer());
    assert!(rounds.any(|told| told[..1] == [Event::Read(3..4)] && told[1..] == waits));
}

fn told_of_reader_behind_writer() -> Vec<Event> {
    let (pager, notes) = observed(2);
    let gate = Arc::new(Gate::default());
    let device = Arc::clone(&gate);
    pager.io().within(move |_| {
        device.pass();
        thread::sleep(WORK);
    });
    thread::scope(|threads| {
        threads.spawn(|| {
            let page = pager.write(3).unwrap();
            let end = Instant::now() + Duration::from_secs(1);
            while pager.stats().waits < 2 && Instant::now() < end {
                thread::yield_now();
            }
            thread::sleep(A_WHILE);
            drop(page);
        });
        gate.wait_for(1);
        threads.spawn(|| drop(pager.read(3).unwrap()));
        while pager.stats().waits < 1 {
            thread::yield_now();
        }
        thread::sleep(A_WHILE);
        gate.open();
    });
    notes.told()
}

// Each failure of the device is told once: of a call that is refused, and of a victim, with which the call goes on with
// the next one.
#[test]
fn faults_of_calls() {
    let _watch = Watch::over("faults_of_calls", 60);
    let (pager, notes) = observed(2);
    let fault = |text: &str| Event::Fault(text.into());
    pager.io().is_next(Fate::Fails);
    assert!(pager.read(3).is_err());
    assert_eq!(notes.told(), [fault("page 3 could not be read")]);
    pager.io().is_next(Fate::FindsAnother);
    assert!(pager.read(3).is_err());
    let another = "another page was found in the place of page 3";
    assert_eq!(notes.told(), [fault(another)]);
    for page in [1, 2] {
        pager.new_page(page).unwrap().put(0, &[1], 0).unwrap();
    }
    assert_eq!(notes.told(), []);
    pager.io().is_next(Fate::Fails);
    drop(pager.read(3).unwrap());
    let told = [
        fault("page 1 could not be written"),
        Event::Write(2..3),
        Event::Evict(2),
        Event::Read(3..4),
    ];
    assert_eq!(notes.told(), told);
    // A refusal that is none of the device is the caller's alone.
    assert!(pager.read(99).is_err());
    assert_eq!(notes.told(), []);
}

#[test]
fn faults_of_a_cleaner() {
    let _watch = Watch::over("faults_of_a_cleaner", 60);
    let (pager, notes) = observed(2);
    pager.new_page(1).unwrap().put(0, &[1], 0).unwrap();
    let told_by = |fate| {
        pager.io().is_next(fate);
        let cleaner = pager.start_cleaner(1, Duration::from_secs(60)).unwrap();
        let told = notes.told_soon();
        drop(cleaner);
        assert_eq!(notes.told(), []);
        told
    };
    let failed = Event::Fault("page 1 could not be written".into());
    assert_eq!(told_by(Fate::Fails), [failed]);
    let panicked = Event::Panicked("the engine's own code");
    assert_eq!(told_by(Fate::Panics), [panicked]);
    assert_eq!(told_by(Fate::Well), [Event::Write(1..2)]);
}

#[test]
fn faults_of_readers() {
    let _watch = Watch::over("faults_of_readers", 60);
    let (pager, notes) = observed(2);
    let _readers = pager.start_readers(1).unwrap();
    let told_by = |fate| {
        pager.io().is_next(fate);
        assert_eq!(pager.prefetch([3]), 1);
        notes.told_soon()
    };
    let failed = Event::Fault("page 3 could not be read".into());
    assert_eq!(told_by(Fate::Fails), [failed]);
    let panicked = Event::Panicked("the engine's own code");
    assert_eq!(told_by(Fate::Panics), [panicked]);
    assert_eq!(told_by(Fate::Well), [Event::Read(3..4)]);
}

/// Does what it has for each read and each eviction.
struct Does<W>(W);

impl<W: Fn(bool) + Send + Sync> Observer for Does<W> {
    fn read(&self, _pages: Range<u64>, _time: Duration) {
        (self.0)(true);
    }

    fn evict(&self, _page: u64) {
        (self.0)(false);
    }
}

#[test]
fn observer_that_panics() {
    let counts = Arc::new(Mutex::new(0));
    let own = Arc::clone(&counts);
    let observer = Does(move |_| {
        *own.lock().unwrap() += 1;
        resume_unwind(Box::new("the observer's own code"));
    });
    let config = config(1).with_observer(Arc::new(observer));
    let pager = Pager::new(&config, Device::default()).unwrap();
    for page in [1, 2, 1] {
        assert_eq!(pager.read(page).unwrap().page(), page);
    }
    assert_eq!(*counts.lock().unwrap(), 5);
    assert_eq!((pager.stats().pinned, pager.stats().totals.failed), (0, 0));
}

// It asks for the page that this thread is reading, which it must not: it is refused, and the pager goes on.
#[test]
fn observer_that_asks_for_the_page() {
    let _watch = Watch::over("observer_that_asks_for_the_page", 60);
    let place = Arc::new(OnceLock::<Weak<Pager<Device>>>::new());
    let refused = Arc::new(Mutex::new(Vec::new()));
    let (own, answers) = (Arc::clone(&place), Arc::clone(&refused));
    let observer = Does(move |is_read| {
        let pager = own.get().and_then(Weak::upgrade).unwrap();
        let error = pager.read(3).err().map(|fault| fault.refusal());
        answers.lock().unwrap().push((is_read, error));
    });
    let config = config(1)
        .with_pin_wait(Duration::from_millis(20))
        .with_observer(Arc::new(observer));
    let pager = Arc::new(Pager::new(&config, Device::default()).unwrap());
    drop(pager.new_page(1).unwrap());
    place.set(Arc::downgrade(&pager)).unwrap();
    assert_eq!(pager.read(3).unwrap().page(), 3);
    let busy = Some(Error::Busy);
    assert_eq!(*refused.lock().unwrap(), [(false, busy), (true, busy)]);
    assert_eq!(pager.stats().pinned, 0);
}

#[test]
fn settings_with_an_observer() {
    let one = config(1).with_observer(Arc::new(Does(|_| {})));
    assert_eq!(one, one.clone());
    assert_ne!(one, config(1));
    assert_ne!(one, config(1).with_observer(Arc::new(Does(|_| {}))));
    assert!(format!("{one:?}").contains("observer: Some(..)"));
    assert!(format!("{:?}", config(1)).contains("observer: None"));
}
