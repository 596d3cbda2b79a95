//! A core by itself: one proved pool that takes one call at a time, and reads and writes nothing.
//!
//! It is for an engine with input and output of its own. A [`Pool`] says by tickets what is to be read or written, and
//! takes the tickets back once that is done. Passes and tickets may be kept while a mutex around the pool is open. A
//! [`Pager`](crate::Pager) has such cores below it, and does all that by itself: most engines want that.
//!
//! Two threads do not use one pool at the same time:
//!
//! ```compile_fail,E0277
//! fn is_sync<T: Sync>() {}
//! is_sync::<hojzmated::core::Pool>();
//! ```
//!
//! ```
//! fn is_send<T: Send>() {}
//! fn is_sync<T: Sync>() {}
//! is_send::<hojzmated::core::Pool>();
//! is_sync::<std::sync::Mutex<hojzmated::core::Pool>>();
//! ```
mod config;
mod lent;
mod page;
mod pool;

pub use config::Config;
pub use lent::PageBytes;
pub use page::{PageGuard, Pass, ReadTicket, Refused, WriteTicket};
pub use pool::{Fixed, Flushed, Pool, PoolStats, Saved};
