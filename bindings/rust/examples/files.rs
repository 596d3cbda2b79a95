//! Several files that grow, in the one space of page numbers of a pager.
//!
//!     files [FOLDER]
//!
//! The numbers are given to files in runs of 64, as the files grow, and taken back when a file is removed.
//! So a pager needs as many numbers as all files together have pages, and not as many for each as it could
//! come to have. Which run is whose is in memory alone: records of a log name a page by its file and its
//! place there, and each start gives out the numbers anew.
//!
//! Three threads make a file each, count in its pages, and make it longer; a file of scratch pages grows
//! beside them, and is removed. Each run of the program counts one more.
use hojzmated::{LogFault, PageIo, Pager, PagerConfig, PagerError, ReadFault};
use std::collections::BTreeMap;
use std::error::Error;
use std::fs::{self, File};
use std::io;
use std::os::unix::fs::FileExt;
use std::path::{Path, PathBuf};
use std::sync::{Arc, RwLock};
use std::thread;

type Outcome<T = ()> = Result<T, Box<dyn Error + Send + Sync>>;

const SIZE: usize = 4096;
/// So many page numbers are given to a file at a time.
const RUN: u64 = 64;

/// The files of a folder, and which numbers their pages have.
struct Files {
    folder: PathBuf,
    numbers: RwLock<Numbers>,
}

#[derive(Default)]
struct Numbers {
    /// For each run of numbers the file that has it, and which of its runs it is.
    runs: Vec<Option<(Arc<File>, u64)>>,
    files: BTreeMap<String, OpenFile>,
}

struct OpenFile {
    file: Arc<File>,
    /// The runs of its pages, in their order.
    runs: Vec<u64>,
}

impl Files {
    /// Files in a folder, for a pager with so many pages.
    fn new(folder: &Path, pages: u64) -> io::Result<Files> {
        fs::create_dir_all(folder)?;
        let numbers = RwLock::new(Numbers {
            runs: vec![None; (pages / RUN) as usize],
            ..Numbers::default()
        });
        let folder = folder.to_owned();
        Ok(Files { folder, numbers })
    }

    /// Opens a file, or makes it, if it is not open. Tells how many pages it has.
    fn open(&self, name: &str) -> Outcome<u64> {
        let options = File::options().read(true).write(true).create(true).clone();
        let file = Arc::new(options.open(self.folder.join(name))?);
        let pages = file.metadata()?.len() / SIZE as u64;
        let runs = Vec::new();
        let mut numbers = self.numbers.write().map_err(|_| "a thread panicked")?;
        let files = &mut numbers.files;
        files.entry(name.into()).or_insert(OpenFile { file, runs });
        Ok(pages)
    }

    /// The number of a page of a file, to which a run is given where it has none for the page yet.
    fn number(&self, name: &str, page: u64) -> Outcome<u64> {
        let place = (page / RUN) as usize;
        let numbers = self.numbers.read().map_err(|_| "a thread panicked")?;
        let runs = &numbers.files.get(name).ok_or("no such file")?.runs;
        if let Some(run) = runs.get(place) {
            return Ok(run * RUN + page % RUN);
        }
        drop(numbers);
        let mut numbers = self.numbers.write().map_err(|_| "a thread panicked")?;
        let Numbers { runs, files } = &mut *numbers;
        let own = files.get_mut(name).ok_or("no such file")?;
        while own.runs.len() <= place {
            let free = runs.iter().position(Option::is_none);
            let free = free.ok_or("the pager has no more numbers")?;
            runs[free] = Some((Arc::clone(&own.file), own.runs.len() as u64));
            own.runs.push(free as u64);
        }
        Ok(own.runs[place] * RUN + page % RUN)
    }

    /// The file of a page, and where the page is in it.
    fn place(&self, number: u64) -> io::Result<(Arc<File>, u64)> {
        let numbers = self.numbers.read().map_err(|_| io::ErrorKind::Other)?;
        let run = numbers.runs.get((number / RUN) as usize);
        // A page of a file that was removed was discarded before.
        let (file, place) = run
            .and_then(Option::as_ref)
            .ok_or(io::ErrorKind::NotFound)?;
        let page = place * RUN + number % RUN;
        Ok((Arc::clone(file), page * SIZE as u64))
    }
}

impl PageIo for Files {
    fn read_page(&self, page: u64, image: &mut [u8]) -> Result<(), ReadFault> {
        let (file, at) = self.place(page)?;
        Ok(file.read_exact_at(image, at)?)
    }

    // The file grows by it, where the page is beyond its end.
    fn write_page(&self, page: u64, image: &mut [u8], _lsn: u64) -> io::Result<()> {
        let (file, at) = self.place(page)?;
        file.write_all_at(image, at)
    }

    // This example has no log.
    fn make_log_durable(&self, _lsn: u64) -> Result<(), LogFault> {
        Ok(())
    }

    fn sync(&self) -> io::Result<()> {
        let numbers = self.numbers.read().map_err(|_| io::ErrorKind::Other)?;
        let mut files = numbers.files.values();
        files.try_for_each(|it| it.file.sync_data())
    }
}

/// Removes a file. Its pages leave their frames unwritten, and then others may have their numbers.
fn remove(pager: &Pager<Files>, name: &str) -> Outcome {
    let files = pager.io();
    let numbers = files.numbers.read().map_err(|_| "a thread panicked")?;
    let own = numbers.files.get(name).ok_or("no such file")?.runs.clone();
    drop(numbers);
    for run in &own {
        pager.discard_from(run * RUN, RUN)?;
    }
    let mut numbers = files.numbers.write().map_err(|_| "a thread panicked")?;
    numbers.files.remove(name);
    own.iter()
        .for_each(|run| numbers.runs[*run as usize] = None);
    Ok(fs::remove_file(files.folder.join(name))?)
}

/// Adds one to the count of each page that the file has, and then so many pages that count one.
fn count(pager: &Pager<Files>, name: &str, more: u64) -> Outcome {
    let pages = pager.io().open(name)?;
    for page in 0..pages + more {
        let number = pager.io().number(name, page)?;
        let mut page = match page < pages {
            true => pager.write(number)?,
            false => pager.new_page(number)?,
        };
        let count = u64::from_le_bytes(page.bytes()[..8].try_into()?) + 1;
        page.put(0, &count.to_le_bytes(), 0)?;
    }
    Ok(())
}

fn scratch(pager: &Pager<Files>, pages: u64) -> Outcome {
    pager.io().open("scratch")?;
    for page in 0..pages {
        let mut page = pager.new_page(pager.io().number("scratch", page)?)?;
        page.edit(.., 0, |bytes| bytes.fill(7))?;
    }
    remove(pager, "scratch")
}

fn main() -> Outcome {
    let folder = std::env::args().nth(1).unwrap_or("files".into());
    let numbers = 100 * RUN;
    let files = Files::new(folder.as_ref(), numbers)?;
    let pager = &Pager::new(&PagerConfig::new(numbers, SIZE, 256), files)?;
    let work = [("one", 100), ("two", 333), ("three", 640)];
    thread::scope(|scope| {
        let count = |(name, more)| move || count(pager, name, more);
        let counts = work.map(|it| scope.spawn(count(it)));
        scratch(pager, 1_000)?;
        let done = counts.map(|it| it.join().map_err(|_| "a thread panicked")?);
        done.into_iter().collect::<Outcome>()
    })?;
    pager.checkpoint()?;
    for (name, _) in work {
        let pages = pager.io().open(name)?;
        let last = pager.io().number(name, pages - 1)?;
        let last: Result<_, PagerError> = pager.read(last);
        println!("{name}: {pages} pages, the last counts {}", last?[0]);
    }
    Ok(())
}
