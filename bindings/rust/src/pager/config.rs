//! `PagerConfig`: the settings of a pager, and how it is divided into parts.
use crate::core::Config;
use crate::observer::Observed;
use crate::{Error, Observer, Result};
use std::ops::Range;
use std::sync::Arc;
use std::thread;
use std::time::Duration;

/// The settings of a [`Pager`](crate::Pager).
///
/// [`PagerConfig::new`] sets all fields for a pager over a file, and each may be changed. Later versions may have
/// more.
///
/// ```
/// use hojzmated::PagerConfig;
/// use std::time::Duration;
///
/// let config = PagerConfig::new(10_000, 4096, 1_000).with_parts(4).with_pin_wait(Duration::from_secs(1));
/// assert_eq!((config.pages, config.page_size, config.frames), (10_000, 4096, 1_000));
/// assert_eq!((config.parts, config.pin_wait.as_secs()), (4, 1));
/// ```
#[derive(Clone, Debug, PartialEq, Eq)]
#[non_exhaustive]
pub struct PagerConfig {
    /// The number of pages of the file, which are numbered from 0: 1 to 1,048,576 for each part, so
    /// at most 67,108,864.
    ///
    /// It stays as it is while the pager is there. A number takes some 8 bytes of memory, also while the file
    /// has no such page yet: so a file that grows gets as many as it may come to have. Several files share
    /// the numbers as they grow, each by a run of them at a time, as in the example `files`.
    pub pages: u64,
    /// The page size in bytes: 16 to 65,536, a multiple of 16.
    pub page_size: usize,
    /// The most pages in memory: 1 to 65,536 for each part, so at most 4,194,304.
    pub frames: usize,
    /// The number of pools side by side, each with a lock of its own: 1 to 64, and no more than
    /// pages or frames. Of `parts` pages in a row, the first of which is a multiple of `parts`, one is
    /// in each part; and pages that are a multiple of `parts` apart are spread over the parts too. Of
    /// some distances they are not: some dozen pages so far apart are in one part all the same.
    ///
    /// More parts let more threads work at once. Fewer parts choose victims better: each part has
    /// its share of the frames, and its victim is that of LRU-K among the pages of the part.
    pub parts: usize,
    /// The correlated reference period in fixes of the pager: 0 to 2^62. So long after its newest
    /// reference a page is not evicted, and further references to it count as the same one. Each
    /// part counts its own fixes, up to its share of these.
    ///
    pub correlated: u64,
    /// Whether each call that returns a page is told to LRU-K at once. That takes a lock. Where it is
    /// false, as [`PagerConfig::new`] has it, a page that is pinned, or was used a short while ago,
    /// is pinned again without one: see [`Pager`](crate::Pager#what-counts-as-a-reference).
    pub tells_each_pin: bool,
    /// The retained information period in fixes: 0 to 2^62. The references of a page in no frame
    /// are kept so long after its newest one, and up to 16 fixes longer. Each part counts as with
    /// `correlated`.
    ///
    /// A page that comes again within this period is known by LRU-K to have come before. So it should be
    /// longer than the pages to keep are apart, and shorter than the time from one scan of many pages
    /// to the next: else the second scan is each page's second reference, and pushes others out. 2^62
    /// is without end. Each page that is remembered takes some 200 bytes, so eight times the frames take
    /// up to 1,600 bytes for each frame, where no page is found in one: see
    /// [`Stats::remembered`](crate::Stats::remembered).
    pub retained: u64,
    /// The K of LRU-K: 1 to 16. 1 is LRU.
    pub k: u8,
    /// The numbers of temporary pages, such as those of a sort: none where the range is empty. They go
    /// out only to make way for others, or by [`flush`](crate::Pager::flush) and
    /// [`flush_pages`](crate::Pager::flush_pages), and wait for no log: the LSN of a put counts as 0.
    /// A checkpoint, [`clean`](crate::Pager::clean), [`unsaved`](crate::Pager::unsaved),
    /// [`flush_before`](crate::Pager::flush_before) and [`redo_from`](crate::Pager::redo_from)
    /// leave them alone. [`Stats::unsaved`](crate::Stats::unsaved) counts them.
    ///
    /// After a crash their bytes on the device mean nothing: begin each by
    /// [`new_page`](crate::Pager::new_page), and put all of its bytes that are looked at.
    pub temporary: Range<u64>,
    /// Whether each thread notes the latches that it has, up to 32 of them. Then a call that would wait for a latch
    /// of its own thread is refused with [`Error::Deadlock`], and a [`PagePin`](crate::PagePin) panics: else such
    /// a call waits for ever. A call for a latch that is free is not refused.
    ///
    /// [`PagerConfig::new`] has it false, but true in a program with debug assertions. Where it is set in one
    /// without these, each guard takes the lock of the page's part, and a look takes three times as many
    /// instructions. Where it is false nothing is noted.
    pub notes_latches: bool,
    /// The time for which a call waits for another thread to unpin a page, where all possible
    /// victims are pinned. After that it is refused with [`Error::NoVictim`]. A call that has found a fault
    /// of the device or the log, and keeps the pages that cannot go out, waits for others 5 milliseconds
    /// at most.
    pub pin_wait: Duration,
    pub(super) observer: Observed,
}

/// The limits of one part.
const MOST_PAGES: u64 = 1 << 20;
const MOST_FRAMES: usize = 1 << 16;
const MOST_PARTS: usize = 64;
/// The limit of the periods.
const LONGEST: u64 = 1 << 62;
/// With fewer frames in a part, its victims are too often not those of the whole.
const LEAST_FRAMES: usize = 64;
/// With so many parts for each processor, two threads seldom need one part at a time.
const PARTS_OF_PROCESSOR: usize = 16;

/// The greatest power of two that is not above this number, or 1.
fn power_below(number: usize) -> usize {
    1 << number.max(1).ilog2()
}

impl PagerConfig {
    /// K 2, a correlated period of an eighth of the frames, a retained period of eight times the frames,
    /// and ten seconds of waiting for a pin. The parts are 16 for each processor, but at most 64 and one
    /// for each 64 frames, a power of two; and at least as many as the pages and frames need.
    pub fn new(pages: u64, page_size: usize, frames: usize) -> PagerConfig {
        let processors = thread::available_parallelism().map_or(1, usize::from);
        let useful = (processors * PARTS_OF_PROCESSOR).min(frames / LEAST_FRAMES);
        let wanted = (pages.div_ceil(MOST_PAGES) as usize).max(frames.div_ceil(MOST_FRAMES));
        let possible = MOST_PARTS.min(frames).min(pages as usize);
        // A power of two needs no division to find a page's part.
        let parts = power_below(useful).max(wanted.min(MOST_PARTS).next_power_of_two());
        let even = power_below(possible);
        let most = if wanted > even { possible } else { even };
        PagerConfig::in_parts(pages, page_size, frames, parts.min(most))
    }

    /// The same with so many parts: it does not ask the system for the number of processors.
    #[must_use]
    pub const fn in_parts(
        pages: u64,
        page_size: usize,
        frames: usize,
        parts: usize,
    ) -> PagerConfig {
        PagerConfig {
            pages,
            page_size,
            frames,
            parts,
            correlated: frames as u64 / 8,
            tells_each_pin: false,
            retained: (frames as u64).saturating_mul(8),
            k: 2,
            temporary: 0..0,
            notes_latches: cfg!(debug_assertions),
            pin_wait: Duration::from_secs(10),
            observer: Observed::Not,
        }
    }

    /// Has this told what goes on in the pager. There is one at most: a later one takes its place.
    #[must_use]
    pub fn with_observer(mut self, observer: Arc<impl Observer + 'static>) -> PagerConfig {
        self.observer = Observed::By(observer);
        self
    }

    /// The same with one that the library for C has, which gives its memory back once the pager is gone.
    #[doc(hidden)]
    #[must_use]
    pub fn with_lent_observer(mut self, observer: &'static dyn Observer) -> PagerConfig {
        self.observer = Observed::ByLent(observer);
        self
    }

    /// Returns the settings of a part. The first parts have one more frame, where the number does not
    /// divide evenly.
    pub(super) fn of_part(&self, part: usize) -> Result<Config> {
        let parts = self.parts;
        let is_within = (1..=MOST_PARTS).contains(&parts) && parts as u64 <= self.pages.max(1);
        let bad = [
            ("frames", self.frames == 0),
            ("parts", !is_within || parts > self.frames),
            ("correlated", self.correlated > LONGEST),
            ("retained", self.retained > LONGEST),
        ];
        if let Some((field, _)) = bad.into_iter().find(|(_, is_bad)| *is_bad) {
            return Err(Error::BadSetting { field });
        }
        let of = parts as u64;
        Ok(Config {
            // Which part has the last pages is by their numbers.
            pages: self.pages.div_ceil(of),
            page_size: self.page_size,
            frames: self.frames / parts + usize::from(part < self.frames % parts),
            room: 1 << 61,
            correlated: self.correlated.div_ceil(of),
            retained: self.retained.div_ceil(of),
            k: self.k,
            clients: 1,
        })
    }
}

setters! {
    PagerConfig:
    with_pages pages: u64,
    with_page_size page_size: usize,
    with_frames frames: usize,
    with_parts parts: usize,
    with_correlated correlated: u64,
    with_tells_each_pin tells_each_pin: bool,
    with_retained retained: u64,
    with_k k: u8,
    with_temporary temporary: Range<u64>,
    with_notes_latches notes_latches: bool,
    with_pin_wait pin_wait: Duration,
}
