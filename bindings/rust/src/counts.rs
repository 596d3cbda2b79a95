//! What cores and pagers count and list: `Totals` and `UnsavedPage`.
#[cfg(doc)]
use crate::{Error, core::Pool};

/// The counts since the pool was made.
#[derive(Clone, Copy, Debug, Default, PartialEq, Eq)]
#[non_exhaustive]
pub struct Totals {
    /// Fixes that found their page in a frame.
    pub hits: u64,
    /// Reads that went well.
    pub faults: u64,
    /// Pages that left a frame for another.
    pub evictions: u64,
    /// Write-outs that went well.
    pub writes: u64,
    /// Reads and write-outs that failed.
    pub failed: u64,
    /// Calls that were refused with [`NoVictim`](Error::NoVictim), [`NeedLog`](Error::NeedLog),
    /// [`Busy`](Error::Busy) or [`PagePinned`](Error::PagePinned).
    pub refused: u64,
    /// Pages that left a frame by [`Pool::discard`].
    pub discards: u64,
}

impl Totals {
    /// Adds other counts.
    pub(crate) fn add(&mut self, others: &Totals) {
        let of_others = [
            (&mut self.hits, others.hits),
            (&mut self.faults, others.faults),
            (&mut self.evictions, others.evictions),
            (&mut self.writes, others.writes),
            (&mut self.failed, others.failed),
            (&mut self.refused, others.refused),
            (&mut self.discards, others.discards),
        ];
        for (sum, count) in of_others {
            *sum = sum.saturating_add(count);
        }
    }
}

/// A page with writes that are in no image on the device.
#[derive(Clone, Copy, Debug, PartialEq, Eq)]
#[non_exhaustive]
pub struct UnsavedPage {
    /// The number of the page.
    pub page: u64,
    /// The page LSN: the greatest LSN of its writes since it was read.
    pub lsn: u64,
    /// The least LSN of those writes.
    pub first_lsn: u64,
}
