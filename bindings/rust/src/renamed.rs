//! The names of version 0.12 that are others now. They go with the next minor version.
use crate::{Pager, PagerConfig, core};

#[doc(hidden)]
#[deprecated(since = "0.13.0", note = "it is `Pager` now")]
pub type SharedPager<F> = Pager<F>;
#[doc(hidden)]
#[deprecated(since = "0.13.0", note = "it is `PagerConfig` now")]
pub type SharedConfig = PagerConfig;
#[doc(hidden)]
#[deprecated(since = "0.13.0", note = "it is `core::Config` now")]
pub type Config = core::Config;
#[doc(hidden)]
#[deprecated(since = "0.13.0", note = "it is `core::Pool` now")]
pub type Pool = core::Pool;
#[doc(hidden)]
#[deprecated(since = "0.13.0", note = "it is `core::PoolStats` now")]
pub type PoolStats = core::PoolStats;
#[doc(hidden)]
#[deprecated(since = "0.13.0", note = "it is `core::Fixed` now")]
pub type Fixed<'pool> = core::Fixed<'pool>;
#[doc(hidden)]
#[deprecated(since = "0.13.0", note = "it is `core::Flushed` now")]
pub type Flushed = core::Flushed;
#[doc(hidden)]
#[deprecated(since = "0.13.0", note = "it is `core::Saved` now")]
pub type Saved = core::Saved;
#[doc(hidden)]
#[deprecated(since = "0.13.0", note = "it is `core::PageGuard` now")]
pub type PageGuard<'pool> = core::PageGuard<'pool>;
#[doc(hidden)]
#[deprecated(since = "0.13.0", note = "it is `core::PageBytes` now")]
pub type PageBytes<'a> = core::PageBytes<'a>;
#[doc(hidden)]
#[deprecated(since = "0.13.0", note = "it is `core::Pass` now")]
pub type Pass = core::Pass;
#[doc(hidden)]
#[deprecated(since = "0.13.0", note = "it is `core::ReadTicket` now")]
pub type ReadTicket = core::ReadTicket;
#[doc(hidden)]
#[deprecated(since = "0.13.0", note = "it is `core::WriteTicket` now")]
pub type WriteTicket = core::WriteTicket;
#[doc(hidden)]
#[deprecated(since = "0.13.0", note = "it is `core::Refused` now")]
pub type Refused<T> = core::Refused<T>;
