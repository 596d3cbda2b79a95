//! A device and a log in memory, which write down what they were asked for and end as they are told.
use hojzmated::{LogFault, PageIo, Pager, PagerConfig, ReadFault};
use std::panic::resume_unwind;
use std::sync::mpsc::{RecvTimeoutError, Sender, channel};
use std::sync::{Arc, Condvar, Mutex, MutexGuard};
use std::thread::{self, JoinHandle};
use std::time::Duration;
use std::{io, mem, process};

pub const PAGES: u64 = 16;
pub const SIZE: usize = 16;

/// What the device and the log were asked for.
#[derive(Clone, Copy, Debug, PartialEq, Eq)]
pub enum Asked {
    Read(u64),
    /// A page, the first byte of its image, and its page LSN.
    Write(u64, u8, u64),
    Log(u64),
    Sync,
}

/// How the next request ends.
#[derive(Clone, Copy, Debug, Default, PartialEq, Eq)]
pub enum Fate {
    #[default]
    Well,
    Fails,
    /// Of the log: it does not reach so far.
    IsNotYet,
    FindsAnother,
    Panics,
}

type Work = Arc<dyn Fn(Asked) -> Result<(), ReadFault> + Send + Sync>;

/// The fault of a request.
pub fn fault() -> ReadFault {
    io::Error::other("no such luck").into()
}

/// The fault of a log that does not reach so far yet.
pub fn not_yet() -> ReadFault {
    io::Error::from(io::ErrorKind::WouldBlock).into()
}

/// Pages of 16 bytes and a log. A request is written down, then the work is done that the test has
/// for it, and then it ends.
#[derive(Default)]
pub struct Device {
    pub pages: Mutex<[[u8; SIZE]; PAGES as usize]>,
    asked: Mutex<Vec<Asked>>,
    fate: Mutex<Fate>,
    work: Mutex<Option<Work>>,
}

impl Device {
    /// What was asked for since the last time.
    pub fn asked(&self) -> Vec<Asked> {
        mem::take(&mut self.asked.lock().unwrap())
    }

    pub fn is_next(&self, fate: Fate) {
        *self.fate.lock().unwrap() = fate;
    }

    /// Has something done within each request.
    pub fn within(&self, work: impl Fn(Asked) + Send + Sync + 'static) {
        self.ends_as(move |asked| {
            work(asked);
            Ok(())
        });
    }

    /// Has something done within each request, which says how it ends.
    pub fn ends_as(&self, work: impl Fn(Asked) -> Result<(), ReadFault> + Send + Sync + 'static) {
        *self.work.lock().unwrap() = Some(Arc::new(work));
    }

    fn note(&self, asked: Asked) -> Result<(), ReadFault> {
        self.asked.lock().unwrap().push(asked);
        let fate = mem::take(&mut *self.fate.lock().unwrap());
        let work = self.work.lock().unwrap().clone();
        work.map_or(Ok(()), |work| work(asked))?;
        match fate {
            Fate::Well => Ok(()),
            Fate::Fails => Err(fault()),
            Fate::IsNotYet => Err(not_yet()),
            Fate::FindsAnother => Err(ReadFault::WrongPage),
            Fate::Panics => resume_unwind(Box::new("the engine's own code")),
        }
    }
}

fn log_fault(fault: ReadFault) -> LogFault {
    match device_fault(fault) {
        error if error.kind() == io::ErrorKind::WouldBlock => LogFault::NotYet,
        error => LogFault::Lost(error),
    }
}

fn device_fault(fault: ReadFault) -> io::Error {
    match fault {
        ReadFault::Device(error) => error,
        _ => io::ErrorKind::InvalidData.into(),
    }
}

impl PageIo for Device {
    fn read_page(&self, page: u64, image: &mut [u8]) -> Result<(), ReadFault> {
        self.note(Asked::Read(page))?;
        image.copy_from_slice(&self.pages.lock().unwrap()[page as usize]);
        Ok(())
    }

    fn write_page(&self, page: u64, image: &mut [u8], lsn: u64) -> io::Result<()> {
        self.note(Asked::Write(page, image[0], lsn))
            .map_err(device_fault)?;
        self.pages.lock().unwrap()[page as usize].copy_from_slice(image);
        Ok(())
    }

    fn make_log_durable(&self, lsn: u64) -> Result<(), LogFault> {
        self.note(Asked::Log(lsn)).map_err(log_fault)
    }

    fn sync(&self) -> io::Result<()> {
        self.note(Asked::Sync).map_err(device_fault)
    }
}

/// One part with so many frames, and no correlated period.
pub fn config(frames: usize) -> PagerConfig {
    PagerConfig::new(PAGES, SIZE, frames)
        .with_parts(1)
        .with_correlated(0)
}

pub fn pager(frames: usize) -> Pager<Device> {
    Pager::new(&config(frames), Device::default()).unwrap()
}

/// Puts a byte at the start of a page, and lets it go.
pub fn put(pager: &Pager<Device>, page: u64, byte: u8, lsn: u64) {
    pager.write(page).unwrap().put(0, &[byte], lsn).unwrap();
}

/// A pager with so many frames, in which page 1 is unsaved: it starts with a 9 under LSN 5.
pub fn with_an_unsaved_page(frames: usize) -> Pager<Device> {
    let pager = pager(frames);
    put(&pager, 1, 9, 5);
    assert_eq!(pager.io().asked(), [Asked::Read(1)]);
    pager
}

/// A place where threads stop until it is opened.
#[derive(Default)]
pub struct Gate {
    threads: Mutex<Threads>,
    changed: Condvar,
}

#[derive(Default)]
struct Threads {
    came: usize,
    may_go_on: bool,
}

impl Gate {
    pub fn pass(&self) {
        let mut threads = self.threads.lock().unwrap();
        threads.came += 1;
        self.changed.notify_all();
        self.wait_until(threads, |threads| threads.may_go_on);
    }

    /// Waits until so many threads stand here.
    pub fn wait_for(&self, count: usize) {
        let threads = self.threads.lock().unwrap();
        self.wait_until(threads, |threads| threads.came >= count);
    }

    pub fn open(&self) {
        self.threads.lock().unwrap().may_go_on = true;
        self.changed.notify_all();
    }

    fn wait_until(&self, threads: MutexGuard<'_, Threads>, is_so: impl Fn(&Threads) -> bool) {
        let wait = self
            .changed
            .wait_timeout_while(threads, Duration::from_secs(30), |it| !is_so(it));
        assert!(!wait.unwrap().1.timed_out(), "nobody came");
    }
}

/// Ends the program where a test takes too long, since a thread of it may wait for ever.
pub struct Watch {
    end: Option<Sender<()>>,
    thread: Option<JoinHandle<()>>,
}

impl Watch {
    pub fn over(test: &'static str, seconds: u64) -> Watch {
        let (end, ended) = channel();
        let thread = thread::spawn(move || {
            let told = ended.recv_timeout(Duration::from_secs(seconds));
            if told == Err(RecvTimeoutError::Timeout) {
                eprintln!("{test}: not done in {seconds} seconds");
                process::abort();
            }
        });
        Watch {
            end: Some(end),
            thread: Some(thread),
        }
    }
}

impl Drop for Watch {
    fn drop(&mut self) {
        drop(self.end.take());
        self.thread.take().map(JoinHandle::join);
    }
}
