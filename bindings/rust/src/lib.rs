//! A buffer pool for storage engines. It keeps pages of a file in memory, reads a page as it is asked for,
//! and writes changed pages out: none before the log record of its change is durable. LRU-K chooses which
//! page makes way for another, and no page does that is in use.
//!
//! | Type | For whom | Device and log |
//! |---|---|---|
//! | [`Pager`] | one thread or many, with a latch on each page | [`FilePages`] with the engine's [`Log`], or a [`PageIo`] |
//! | [`core::Pool`] | engines that read and write by themselves | the engine's: tickets say what to read and write |
//!
//! ```
//! use hojzmated::{Device, FileOptions, Pager};
//!
//! # fn main() -> Result<(), Box<dyn std::error::Error>> {
//! # let path = std::env::temp_dir().join(format!("hojzmated-first-{}", std::process::id()));
//! let options = FileOptions::new(4_096).grown_to(1_000); // 1,000 pages of 4,096 bytes
//! let pages = options.create(&path)?; // a `FilePages`: the file is locked till it is dropped
//! let pager = Pager::new(&pages.config(64), pages.without_log())?; // 64 pages in memory
//!
//! let mut page = pager.write(7)?; // a guard: page 7 stays here, and nobody else has it
//! page.put(100, b"forty-two", 0)?; // under a log record; 0 is none
//! drop(page);
//! assert_eq!(pager.read(7)?[100..105], *b"forty"); // the bytes in place, without a copy
//! pager.checkpoint()?; // writes out what is unsaved, and syncs the device
//! # std::fs::remove_file(path)?;
//! # Ok(())
//! # }
//! ```
//!
//! [`FilePages`] shows how the engine's log is joined to a file; a [`PageIo`] is device and log in one. A call
//! of a pager that may use either fails with a [`PagerError`], which has the page or LSN and the fault, or a
//! refusal of the pool. All other calls, also those of guards, fail with an [`Error`], which is such a
//! refusal alone.
//!
//! **Rules.** What an engine has to keep, so that its data is safe and no call is refused without need, is in
//! the module [`rules`]: the order of a checkpoint, redo after a crash, locks beside latches.
//!
//! **What goes on inside.** An [`Observer`] is told of reads, write-outs, evictions, waits and faults as they happen,
//! with their times; [`Pager::stats`] has counts.
//!
//! **Limits.** A page has 16 to 65,536 bytes, a multiple of 16. A [`Pager`] has at most 67,108,864 pages, with
//! 8 bytes of memory for each, and 4,194,304 frames; a [`Pool`](crate::core::Pool) 1,048,576 and 65,536. The number of
//! pages is given as it is made, and a file may grow up to it.
//!
//! **Platform.** Linux on x86-64 processors of level v2, which came in 2009, or newer: the library below is
//! built for no other. The crate wants Rust 1.85 and no crate but `hojzmated-sys`, which has that library.
//!
//! **What is proved.** Each [`Pool`](crate::core::Pool), of which a pager has up to 64: that no pinned page leaves its
//! frame, that the page that leaves is LRU-K's, and that no image goes out before its log record is durable.
//! What this crate does beside them is tested, and not proved.
#![deny(missing_docs, unsafe_op_in_unsafe_fn)]
#![warn(
    clippy::undocumented_unsafe_blocks,
    clippy::unwrap_used,
    clippy::expect_used
)]

#[macro_use]
mod setters;

pub mod core;
mod counts;
mod error;
mod fault;
mod files;
mod image;
mod io;
mod observer;
mod pager;
#[cfg(doctest)]
mod refused;
mod renamed;
pub mod rules;

use hojzmated_sys as sys;

pub use counts::{Totals, UnsavedPage};
pub use error::{Error, Result};
pub use fault::{LogFault, PagerError, ReadFault};
pub use files::{Device, FileOptions, FilePages, Layout, Log, NoLog, OpenError, WithLog};
pub use io::PageIo;
pub use observer::{Observer, Wait};
pub use pager::{
    Cleaner, NotClosed, OwnedMut, OwnedPin, OwnedRef, PageMut, PagePin, PageRef, Pager,
    PagerConfig, Readers, Stats,
};
#[doc(hidden)]
pub use pager::{Left, Missed, MissedAlone};
#[allow(deprecated)]
#[doc(hidden)]
pub use renamed::*;

/// The version of the library below, as major * 10,000 + minor * 100 + patch.
#[must_use]
pub fn version() -> u32 {
    sys::hz_version()
}
