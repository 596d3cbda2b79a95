//! A disk in memory whose power fails, and whose requests do: for the tests of engines.
//!
//! It is a real disk's worst day. What was not synced may be lost when the power fails, in any order,
//! and a write may be torn at each 512 bytes. A read, a write or a sync may fail. A sync that fails has
//! lost something, which reads still show, and which no later sync keeps.
//!
//! An engine gets its files from a [`Disk`]. A [`DiskFile`] is used as one of the system: it has
//! [`FileExt`](std::os::unix::fs::FileExt), `sync_data`, `set_len` and `len`. [`DiskPages`] is a page
//! file and a log as the [`PageIo`](hojzmated::PageIo) of a pager. So a test cuts the power of an engine
//! at each of its requests:
//!
//! ```
//! use hojzmated::{Pager, PagerConfig};
//! use hojzmated_disk::{Disk, Fault};
//!
//! /// The engine: it puts a number into page 0, as often as its disk lets it. Gives the last one that
//! /// is kept for sure.
//! fn count(disk: &Disk) -> Option<u8> {
//!     let pages = disk.pages("pages", "log");
//!     pages.pages.set_len(16 * 512).ok()?;
//!     let pager = Pager::new(&PagerConfig::new(16, 512, 4), pages).ok()?;
//!     let mut kept = None;
//!     for number in 1..10 {
//!         pager.write(0).ok()?.put(0, &[number], 0).ok()?;
//!         match pager.checkpoint() {
//!             Ok(_) => kept = Some(number),
//!             Err(_) => break,
//!         }
//!     }
//!     kept
//! }
//!
//! for cut in 1.. {
//!     let disk = Disk::new(cut);
//!     disk.set_fault(Some(Fault::Cut(cut)));
//!     let kept = count(&disk);
//!     if !disk.is_off() {
//!         break; // It made fewer requests than that.
//!     }
//!     disk.lose_power();
//!     let mut found = [0];
//!     let read = std::os::unix::fs::FileExt::read_at(&disk.file("pages"), &mut found, 0);
//!     assert!(kept.is_none() || read.is_ok() && Some(found[0]) >= kept);
//! }
//! ```
//!
//! The example `preload` is the same for an engine in C, or whatever calls the system for its files: a
//! library that is loaded before the system's.
//!
//! The same requests and the same seed have the same outcome: so a failure that a seed and a [`Fault`]
//! name can be looked at again.
#![deny(missing_docs)]

mod disk;
mod file;
mod pages;
mod random;

pub use disk::{Counts, Disk, Fault};
pub use file::{DiskFile, SECTOR};
pub use pages::DiskPages;
