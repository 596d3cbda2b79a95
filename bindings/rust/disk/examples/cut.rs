//! Cuts the power of an engine at each of its requests. The engine counts: each step has a record in a
//! log, and the number in a page.
use hojzmated::{Pager, PagerConfig, PagerError};
use hojzmated_disk::{Disk, DiskPages, Fault};
use std::os::unix::fs::FileExt;

/// Has the engine work on one disk after the other, whose power fails at the first request, at the
/// second, and so on. Looks at what is left, with what the work gave. Gives how many cuts there were.
fn cut_each<T>(work: impl Fn(&Disk) -> T, look: impl Fn(&Disk, T)) -> u64 {
    for cut in 1.. {
        let disk = Disk::new(cut);
        disk.set_fault(Some(Fault::Cut(cut)));
        let done = work(&disk);
        if !disk.is_off() {
            return cut - 1;
        }
        disk.lose_power();
        disk.set_fault(None);
        look(&disk, done);
    }
    0
}

fn step(pager: &Pager<DiskPages>, number: u64) -> Result<(), PagerError> {
    let (bytes, log) = (number.to_le_bytes(), &pager.io().log);
    let fault = |source| PagerError::Log {
        lsn: number,
        source,
    };
    log.write_all_at(&bytes, 8 * number).map_err(fault)?;
    pager.new_page(number % 8)?.put(0, &bytes, number)?;
    if number % 7 == 0 {
        pager.checkpoint()?;
    }
    log.sync_data().map_err(fault)
}

/// Gives the last step that was acknowledged.
fn count(disk: &Disk) -> u64 {
    let config = PagerConfig::new(8, 512, 4);
    let Ok(pager) = Pager::new(&config, disk.pages("pages", "log")) else {
        return 0;
    };
    let last = (1..100)
        .take_while(|number| step(&pager, *number).is_ok())
        .last();
    // What is not saved is lost, as in any crash: so the pager is not closed.
    let _pages = pager.into_io();
    last.unwrap_or(0)
}

fn number_at(disk: &Disk, name: &str, offset: u64) -> u64 {
    let mut bytes = [0; 8];
    let read = disk.file(name).read_exact_at(&mut bytes, offset);
    read.map_or(0, |()| u64::from_le_bytes(bytes))
}

fn main() {
    let cuts = cut_each(count, |disk, acknowledged| {
        for number in 1..=acknowledged {
            assert_eq!(
                number_at(disk, "log", 8 * number),
                number,
                "it was acknowledged"
            );
        }
        for page in 0..8 {
            let number = number_at(disk, "pages", 512 * page);
            assert_eq!(
                number_at(disk, "log", 8 * number),
                number,
                "the page went out first"
            );
        }
    });
    println!("the power was cut {cuts} times, and what was acknowledged was there each time");
}
