//! A ledger in a folder: `load` makes one, `run` moves amounts, `check` looks at all of it.
mod bank;

use bank::{Client, Random};
use hojzmated::PagerConfig;
use ledger::{Device, Store};
use std::collections::HashMap;
use std::fs::{self, File, TryLockError};
use std::hint::black_box;
use std::io::Read;
use std::os::unix::fs::FileExt;
use std::path::PathBuf;
use std::process::{self, ExitCode};
use std::sync::Mutex;
use std::sync::atomic::{AtomicBool, Ordering};
use std::time::{Duration, Instant};
use std::{env, error, io, thread};

const USAGE: &str = "\
usage: ledger load FOLDER [--accounts N] [--pages N] [--log KIB] [--frames N]
       ledger run FOLDER [--threads N] [--seconds N] [--seed N] [--opens PERCENT] [--sync 0]
                         [--looks N] [--checkpoint MILLISECONDS] [--clean N] [--frames N] [--period N] [--k N]
       ledger check FOLDER [--frames N]";

/// How many clients there may be.
const CLIENTS: u64 = 14;

/// Why it ends, in one line.
type Done<T = ()> = Result<T, Box<dyn error::Error + Send + Sync>>;

/// A file whose syncs are left out, to see what they cost.
struct Unsynced(File);

impl FileExt for Unsynced {
    fn read_at(&self, bytes: &mut [u8], offset: u64) -> io::Result<usize> {
        self.0.read_at(bytes, offset)
    }

    fn write_at(&self, bytes: &[u8], offset: u64) -> io::Result<usize> {
        self.0.write_at(bytes, offset)
    }
}

impl Device for Unsynced {
    fn sync(&self) -> io::Result<()> {
        Ok(())
    }

    fn size(&self) -> io::Result<u64> {
        self.0.size()
    }
}

struct Settings {
    folder: PathBuf,
    numbers: HashMap<String, u64>,
}

impl Settings {
    fn parse(words: &[String]) -> Option<Settings> {
        let (folder, named) = words.split_first()?;
        let (folder, mut numbers) = (folder.into(), HashMap::new());
        for pair in named.chunks(2) {
            USAGE.contains(&format!("[{} ", pair[0])).then_some(())?;
            numbers.insert(pair[0].clone(), pair.get(1)?.parse().ok()?);
        }
        Some(Settings { folder, numbers })
    }

    fn number(&self, name: &str, default: u64) -> u64 {
        self.numbers.get(name).copied().unwrap_or(default)
    }

    fn file(&self, name: &str, is_new: bool) -> Done<File> {
        let (path, mut options) = (self.folder.join(name), File::options());
        options.read(true).write(true).create_new(is_new);
        let file = options.open(&path);
        Ok(file.map_err(|why| format!("{}: {why}", path.display()))?)
    }

    /// The page file and the log, which are this process's alone as long as it runs.
    fn files(&self, is_new: bool) -> Done<[Box<dyn Device>; 2]> {
        let (pages, log) = (self.file("pages", is_new)?, self.file("log", is_new)?);
        match log.try_lock() {
            Err(TryLockError::WouldBlock) => return Err("another process has the store".into()),
            locked => locked?,
        }
        let is_synced = self.number("--sync", 1) != 0;
        Ok([pages, log].map(|file| match is_synced {
            true => Box::new(file) as Box<dyn Device>,
            false => Box::new(Unsynced(file)),
        }))
    }

    fn open(&self) -> Done<Store> {
        let [pages, log] = self.files(false)?;
        let (store, is_torn) = Store::open(pages, log, |pages, page_size| {
            let frames = self.number("--frames", 1_000) as usize;
            let config = PagerConfig::new(pages, page_size, frames);
            let correlated = self.number("--period", config.correlated);
            let k = self.number("--k", config.k.into());
            config
                .with_correlated(correlated)
                .with_k(k.try_into().unwrap_or(0))
        })?;
        if is_torn {
            println!("the log ends within a record, which was not acknowledged");
        }
        Ok(store)
    }
}

fn load(settings: &Settings) -> Done {
    fs::create_dir_all(&settings.folder)?;
    let [pages, log] = settings.files(true)?;
    settings.file("acks", true)?.set_len(8 * CLIENTS)?;
    let log_size = settings.number("--log", 16_384).saturating_mul(1024);
    let sizes = [settings.number("--pages", 4_096), 4_096, log_size];
    Store::create(&*pages, &*log, sizes)?;
    // The names of the files stay, too.
    File::open(&settings.folder)?.sync_all()?;
    drop(log);
    let store = settings.open()?;
    bank::load(&store, settings.number("--accounts", 10_000))?;
    store.checkpoint()?;
    println!("{}", store.verify()?);
    Ok(())
}

fn check(settings: &Settings) -> Done {
    let mut acks = Vec::new();
    settings.file("acks", false)?.read_to_end(&mut acks)?;
    let store = settings.open()?;
    let shape = store.verify()?;
    let (made, known) = bank::check(&store, &acks)?;
    println!("good: {made} transactions, {known} acknowledged; {shape}");
    Ok(())
}

fn run(settings: &Settings) -> Done {
    let store = &settings.open()?;
    let (acks, has_ended) = (&settings.file("acks", false)?, &AtomicBool::new(false));
    let looks = settings.number("--looks", 0);
    let accounts = bank::accounts(store)?;
    let client = |number| Client {
        store,
        number,
        accounts,
        opens: settings.number("--opens", 10),
        waits: settings.number("--sync", 1) != 0,
        random: Random(settings.number("--seed", 1) << 8 | number),
    };
    let every = Duration::from_millis(settings.number("--checkpoint", 1_000));
    let _cleaner = store.start_cleaner(
        settings.number("--clean", 64) as usize,
        Duration::from_millis(20),
    )?;
    let seconds = Duration::from_secs(settings.number("--seconds", 10));
    println!("ready");
    let (began, mut checkpoints) = (Instant::now(), 0);
    let mut times: Vec<Duration> = thread::scope(|scope| {
        let clients = (0..settings.number("--threads", 4).min(CLIENTS)).map(client);
        let work = |client| scope.spawn(move || or_end(work(client, looks, acks, has_ended)));
        let workers: Vec<_> = clients.map(work).collect();
        while let Some(left) = seconds.checked_sub(began.elapsed()) {
            thread::sleep(every.min(left));
            or_end(store.checkpoint().map_err(Into::into));
            checkpoints += 1;
        }
        has_ended.store(true, Ordering::Relaxed);
        let times = workers.into_iter().map(|it| it.join().unwrap());
        times.flatten().collect()
    });
    times.sort_unstable();
    let rate = times.len() as f64 * looks.max(1) as f64 / began.elapsed().as_secs_f64();
    let p99 = times.get(times.len() * 99 / 100);
    let p99 = p99.map_or(0.0, |it| it.as_secs_f64() * 1e3);
    println!("{rate:.0} a second, p99 {p99:.3} ms, {checkpoints} checkpoints");
    println!("{:?}", store.stats().totals);
    Ok(())
}

/// Makes transactions until the end, or so many look-ups at a time. Gives how long each took.
fn work(
    mut client: Client,
    looks: u64,
    acks: &File,
    has_ended: &AtomicBool,
) -> Done<Vec<Duration>> {
    let mut times = Vec::new();
    while !has_ended.load(Ordering::Relaxed) {
        let began = Instant::now();
        if looks > 0 {
            look_up(&mut client, looks)?;
            times.push(began.elapsed());
            continue;
        }
        let count = client.step()?;
        times.push(began.elapsed());
        if client.waits {
            acks.write_all_at(&count.to_le_bytes(), 8 * client.number)?;
        }
    }
    Ok(times)
}

/// Looks at the first numbers of so many accounts, one after the other.
fn look_up(client: &mut Client, count: u64) -> Done {
    for _ in 0..count {
        let key = client.account();
        let first = |value: Option<&[u8]>| value.and_then(|it| it.first_chunk::<8>().copied());
        let balance = client.store.look(key, first)?;
        black_box(balance.ok_or(format!("account {key} is gone"))?);
    }
    Ok(())
}

/// Ends the process where something failed: after a fault no thread is to go on. The first tells why.
fn or_end<T>(done: Done<T>) -> T {
    static FIRST: Mutex<()> = Mutex::new(());
    done.unwrap_or_else(|why| {
        let _first = FIRST.lock();
        eprintln!("ledger: {why}");
        process::exit(1)
    })
}

fn main() -> ExitCode {
    let words: Vec<String> = env::args().skip(1).collect();
    let settings = words.get(1..).and_then(Settings::parse);
    match (words.first().map(String::as_str), settings) {
        (Some("load"), Some(settings)) => or_end(load(&settings)),
        (Some("run"), Some(settings)) => or_end(run(&settings)),
        (Some("check"), Some(settings)) => or_end(check(&settings)),
        _ => {
            eprintln!("{USAGE}");
            return ExitCode::from(2);
        }
    }
    ExitCode::SUCCESS
}
