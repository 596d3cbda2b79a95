//! Counters in pages, under a log: wherever this is killed, the next run has each that was logged.
use hojzmated::{Device, FileOptions, FilePages, Log, LogFault, Pager, WithLog};
use std::{error::Error, fs::File, os::unix::fs::FileExt, sync::Mutex, thread};

type Done = Result<(), Box<dyn Error + Send + Sync>>;
const PAGES: u64 = 1_000;
const RECORD: u64 = 32; // a page, its new count, 0, and the LSN: where the record ends in the log

/// A head of the size of a record, which says from where to redo; then records.
struct Records(File);

impl Log for Records {
    fn make_durable(&self, _lsn: u64) -> Result<(), LogFault> {
        Ok(self.0.sync_data()?) // once it failed, the pager asks no more
    }
}

type Engine = Pager<WithLog<FilePages, Records>>;

fn add(pager: &Engine, log_end: &Mutex<u64>, number: u64) -> Done {
    let mut page = pager.write(number)?; // no other thread has the page until this is dropped
    let count = u64::from_le_bytes(page.bytes()[..8].try_into()?) + 1;
    let mut end = log_end.lock().map_err(|_| "a thread panicked")?;
    let (log, record) = (&pager.io().log.0, [number, count, 0, *end + RECORD]);
    let record = record.map(u64::to_le_bytes);
    log.write_all_at(record.as_flattened(), *end)?; // first the record
    *end += RECORD;
    Ok(page.put(0, &record[1], *end)?) // and then the page, with the log's end still locked
}

fn main() -> Done {
    let pages = FileOptions::new(4096).grown_to(PAGES);
    let pages = pages.create("engine.pages")?; // locked from here on
    let options = File::options().read(true).write(true).create(true).clone();
    let records = Records(options.open("engine.log")?);
    let pager = &Pager::new(&pages.config(256), pages.with_log(records))?;
    let (log, mut rec) = (&pager.io().log.0, [[0; 8]; 4]);
    log.read_at(&mut rec[0], 0)?;
    let mut end = u64::from_le_bytes(rec[0]).max(RECORD); // a new log has no head yet
    while log.read_at(rec.as_flattened_mut(), end)? > 0 && rec[3] == (end + RECORD).to_le_bytes() {
        log.write_all_at(rec.as_flattened(), end)?; // a sync that failed may have lost it
        end += RECORD;
        let mut page = pager.write(u64::from_le_bytes(rec[0]))?; // it may have this count already
        page.put(0, &rec[1], end)?;
    }
    log.set_len(end)?; // what follows is no whole record
    let log_end = &Mutex::new(end);
    thread::scope(|scope| {
        let add_to_all = || (0..PAGES).try_for_each(|number| add(pager, log_end, number));
        for thread in [(); 4].map(|()| scope.spawn(add_to_all)) {
            thread.join().map_err(|_| "a thread panicked")??;
            let end = *log_end.lock().map_err(|_| "a thread panicked")?; // a checkpoint
            let from = pager.checkpoint()?.map_or(end, |lsn| end.min(lsn - RECORD));
            log.write_all_at(&from.to_le_bytes(), 0)?; // if it is lost, the one before serves
        }
        let last = u64::from_le_bytes(pager.read(PAGES - 1)?[..8].try_into()?);
        println!("the last page counts {last}");
        Ok(())
    })
}
