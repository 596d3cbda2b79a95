//! `Config`: the settings of a core.
use crate::Error;
use crate::error::{BAD_GEOMETRY, BAD_SETTINGS};

/// The settings of a pool.
///
/// [`Config::new`] sets all fields for a pool over a file, and each may be changed. Later versions may have more.
///
/// ```
/// use hojzmated::core::Config;
///
/// let config = Config::new(10_000, 4096, 500).with_k(3).with_clients(2);
/// assert_eq!((config.pages, config.page_size, config.frames), (10_000, 4096, 500));
/// assert_eq!((config.k, config.clients), (3, 2));
/// ```
#[derive(Clone, Debug, PartialEq, Eq)]
#[non_exhaustive]
pub struct Config {
    /// The number of pages of the file, which are numbered from 0: 1 to 1,048,576.
    pub pages: u64,
    /// The page size in bytes: 16 to 65,536, a multiple of 16.
    pub page_size: usize,
    /// The most pages in memory: 1 to 65,536.
    pub frames: usize,
    /// The number of calls that the pool may answer in all: 1 to 2^61. See
    /// [`Error::TrailFull`](crate::Error::TrailFull).
    pub room: usize,
    /// The correlated reference period in ticks: 0 to 2^62. So long after its newest reference a
    /// page is not evicted, and further references to it count as the same one. Where
    /// (`correlated` + 1) times the fixes between two ticks, plus the other pages that are pinned or
    /// in flight, is more than `frames`, all pages may be too young to be evicted
    /// ([`Error::NoVictim`](crate::Error::NoVictim)).
    pub correlated: u64,
    /// The retained information period in ticks: 0 to 2^62. The references of a page in no frame
    /// are kept so long after its newest one, and then until the next
    /// [`purge`](crate::core::Pool::purge), which the engine calls. Each page that is remembered takes some 200 bytes.
    pub retained: u64,
    /// The K of LRU-K: 1 to 16. 1 is LRU.
    pub k: u8,
    /// The number of clients, which are numbered from 0: 1 to 64.
    pub clients: u8,
}

impl Config {
    /// One client, K 2, a correlated period of an eighth of the frames, a retained period of eight
    /// times the frames, and room without end.
    ///
    /// With K 2 and no correlated period, a page that was referenced once is evicted first, often
    /// before its log record is durable. An eighth of the frames suits a tick at each fix. An
    /// engine that ticks less often sets a shorter period.
    #[must_use]
    pub const fn new(pages: u64, page_size: usize, frames: usize) -> Config {
        Config {
            pages,
            page_size,
            frames,
            room: 1 << 61,
            correlated: frames as u64 / 8,
            retained: (frames as u64).saturating_mul(8),
            k: 2,
            clients: 1,
        }
    }
}

impl Config {
    /// Returns the refusal with which no pool is made: it has the first setting that is out of its limits.
    pub(super) fn refused(&self, number: u16) -> Error {
        match (number, self.bad_field()) {
            (BAD_GEOMETRY | BAD_SETTINGS, Some(field)) => Error::BadSetting { field },
            _ => Error::numbered(number),
        }
    }

    fn bad_field(&self) -> Option<&'static str> {
        let page_sizes = (16..=65_536).contains(&self.page_size);
        let fields = [
            ("pages", (1..=1 << 20).contains(&self.pages)),
            ("page_size", page_sizes && self.page_size % 16 == 0),
            ("frames", (1..=1 << 16).contains(&self.frames)),
            ("room", (1..=1 << 61).contains(&self.room)),
            ("correlated", self.correlated <= 1 << 62),
            ("retained", self.retained <= 1 << 62),
            ("k", (1..=16).contains(&self.k)),
            ("clients", (1..=64).contains(&self.clients)),
        ];
        let bad = fields.into_iter().find(|(_, is_good)| !is_good);
        bad.map(|(field, _)| field)
    }
}

setters! {
    Config:
    with_pages pages: u64,
    with_page_size page_size: usize,
    with_frames frames: usize,
    with_room room: usize,
    with_correlated correlated: u64,
    with_retained retained: u64,
    with_k k: u8,
    with_clients clients: u8,
}

#[cfg(test)]
mod tests {
    use super::*;
    use crate::core::Pool;

    /// The least and the greatest value of each setting are taken, and those beyond are refused, with its name
    /// and the number that C has.
    #[test]
    fn limits() {
        type Change = fn(Config, u64) -> Config;
        let settings: [(&str, Change, u64, u64); 8] = [
            ("pages", |it, to| it.with_pages(to), 1, 1 << 20),
            (
                "page_size",
                |it, to| it.with_page_size(to as usize),
                16,
                1 << 16,
            ),
            ("frames", |it, to| it.with_frames(to as usize), 1, 1 << 16),
            ("room", |it, to| it.with_room(to as usize), 1, 1 << 61),
            ("correlated", Config::with_correlated, 0, 1 << 62),
            ("retained", Config::with_retained, 0, 1 << 62),
            ("k", |it, to| it.with_k(to as u8), 1, 16),
            ("clients", |it, to| it.with_clients(to as u8), 1, 64),
        ];
        let told = |change: Change, to| {
            let config = change(Config::new(8, 16, 2), to);
            Pool::new(&config).map(drop)
        };
        for (field, change, least, greatest) in settings {
            assert_eq!(told(change, least), Ok(()), "{field}");
            assert_eq!(told(change, greatest), Ok(()), "{field}");
            let step = if field == "page_size" { 16 } else { 1 };
            for beyond in [least.checked_sub(step), Some(greatest + step)] {
                let refused =
                    beyond.map_or(Err(Error::BadSetting { field }), |to| told(change, to));
                assert_eq!(refused, Err(Error::BadSetting { field }));
            }
        }
        let uneven = told(|it, to| it.with_page_size(to as usize), 24);
        assert_eq!(uneven, Err(Error::BadSetting { field: "page_size" }));
        // The first one, and the number is that of the library.
        let both = Config::new(8, 16, 2).with_k(0).with_pages(0);
        let told = Pool::new(&both).map(drop);
        assert_eq!(told, Err(Error::BadSetting { field: "pages" }));
    }
}
