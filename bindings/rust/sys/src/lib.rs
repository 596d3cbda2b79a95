//! The calls and structs of `hojzmated.h`, as the header has them, and the library that has these calls. The
//! header says what each takes, gives and refuses. The crate `hojzmated` is for engines.
#![cfg_attr(not(test), no_std)]
#![allow(non_camel_case_types)]

use core::ffi::{c_char, c_void};

/// The text of the header.
pub const HEADER: &str = include_str!(env!("HOJZMATED_HEADER"));

#[cfg(not(target_pointer_width = "64"))]
compile_error!("the pool is for machines with pointers of 64 bits");

/// `HZ_HIT`, `HZ_LOAD`, `HZ_WRITE_FIRST`, `HZ_CLEAN` and `HZ_ABSENT`: what `hz_fixed.kind` may be.
pub const HIT: u8 = 1;
pub const LOAD: u8 = 2;
pub const WRITE_FIRST: u8 = 3;
pub const CLEAN: u8 = 4;
pub const ABSENT: u8 = 5;

#[repr(C)]
pub struct hz_seal {
    pub pool: *mut c_void,
}

#[repr(C)]
pub struct hz_core {
    pub seal: hz_seal,
    pub is_live: bool,
}

#[repr(C)]
pub struct hz_config {
    pub pages: u64,
    pub page_size: usize,
    pub frames: usize,
    pub room: usize,
    pub correlated: u64,
    pub retained: u64,
    pub k: u8,
    pub clients: u8,
}

#[repr(C)]
#[derive(Clone, Copy, Debug, Default, PartialEq, Eq, Hash)]
pub struct hz_grant {
    pub page: u64,
    pub serial: u64,
    pub client: u8,
}

#[repr(C)]
#[derive(Default)]
pub struct hz_fixed {
    pub grant: hz_grant,
    pub lsn: u64,
    pub evicted: u64,
    pub kind: u8,
    pub has_evicted: u8,
}

#[repr(C)]
#[derive(Default)]
pub struct hz_unsaved {
    pub page: u64,
    pub lsn: u64,
    pub first_lsn: u64,
    pub has_page: u8,
}

#[repr(C)]
#[derive(Default)]
pub struct hz_stats {
    pub hits: u64,
    pub faults: u64,
    pub evictions: u64,
    pub writes: u64,
    pub failed: u64,
    pub refused: u64,
    pub resident: usize,
    pub pinned: usize,
    pub unsaved: usize,
    pub loading: usize,
    pub writing: usize,
    pub discards: u64,
}

// Each call except `hz_text` and `hz_version` requires: `core` is zero, or as these calls left it,
// and no other call on it is under way; each pointer leads to memory of its type, with so many
// elements where a length follows it, and may be written to where it is `*mut`; no two of a call
// overlap.
unsafe extern "C" {
    pub fn hz_core_new(config: *const hz_config, core: *mut hz_core) -> u16;
    pub fn hz_core_free(core: *mut hz_core) -> u16;
    pub fn hz_fix(
        core: *mut hz_core,
        client: u8,
        page: u64,
        buffer: *mut u8,
        len: usize,
        out: *mut hz_fixed,
    ) -> u16;
    pub fn hz_read_end(
        core: *mut hz_core,
        ticket: *const hz_grant,
        image: *const u8,
        len: usize,
        pass: *mut hz_grant,
    ) -> u16;
    pub fn hz_read_failed(core: *mut hz_core, ticket: *const hz_grant, is_wrong_page: bool) -> u16;
    pub fn hz_write_end(
        core: *mut hz_core,
        ticket: *const hz_grant,
        is_good: bool,
        is_still_dirty: *mut u8,
    ) -> u16;
    pub fn hz_unfix(core: *mut hz_core, pass: *const hz_grant) -> u16;
    pub fn hz_read(
        core: *mut hz_core,
        pass: *const hz_grant,
        offset: usize,
        into: *mut u8,
        len: usize,
    ) -> u16;
    pub fn hz_page(core: *mut hz_core, pass: *const hz_grant, bytes: *mut *const u8) -> u16;
    pub fn hz_write(
        core: *mut hz_core,
        pass: *const hz_grant,
        offset: usize,
        bytes: *const u8,
        len: usize,
        lsn: u64,
    ) -> u16;
    pub fn hz_tick(core: *mut hz_core, client: u8, n: u64) -> u16;
    pub fn hz_mark(core: *mut hz_core, client: u8, lsn: u64) -> u16;
    pub fn hz_flush(
        core: *mut hz_core,
        client: u8,
        page: u64,
        buffer: *mut u8,
        len: usize,
        out: *mut hz_fixed,
    ) -> u16;
    pub fn hz_discard(core: *mut hz_core, client: u8, page: u64, was_resident: *mut u8) -> u16;
    pub fn hz_purge(core: *mut hz_core, client: u8, count: *mut u64) -> u16;
    pub fn hz_page_lsn(core: *mut hz_core, pass: *const hz_grant, lsn: *mut u64) -> u16;
    pub fn hz_next_unsaved(core: *mut hz_core, from: u64, out: *mut hz_unsaved) -> u16;
    pub fn hz_victim(core: *mut hz_core, page: *mut u64, has_page: *mut u8) -> u16;
    pub fn hz_redo_from(core: *mut hz_core, lsn: *mut u64, has_lsn: *mut u8) -> u16;
    pub fn hz_stats_of(core: *mut hz_core, out: *mut hz_stats, size: usize) -> u16;
    pub fn hz_is_resident(core: *mut hz_core, page: u64, is_resident: *mut u8) -> u16;
    pub fn hz_text(number: u16, into: *mut u8, len: usize) -> usize;
    pub safe fn hz_strerror(number: u16) -> *const c_char;
    pub safe fn hz_version() -> u32;
}

#[cfg(test)]
mod tests {
    use super::*;
    use std::mem::offset_of;

    const LAYOUT: &str = include_str!(env!("HOJZMATED_LAYOUT"));

    /// Returns the size of a field of this struct.
    const fn len_of<S, F>(_: fn(&S) -> &F) -> usize {
        size_of::<F>()
    }

    /// The lines of `layout.c` for a struct: its size, and the offset of each field.
    macro_rules! lines_of {
        ($type:ident: $($field:ident)*) => {{
            let size = format!("HOLDS(sizeof({}) == {});", stringify!($type), size_of::<$type>());
            let fields = [$(format!(
                "LIES({}, {}, {}, {});",
                stringify!($type),
                stringify!($field),
                offset_of!($type, $field),
                len_of(|it: &$type| &it.$field),
            )),*];
            [size].into_iter().chain(fields)
        }};
    }

    /// Each struct has the size, and each field the offset, of the header, in the order of
    /// `layout.c`.
    #[test]
    fn layout() {
        let here: Vec<String> = lines_of!(hz_core: seal is_live)
            .chain(lines_of!(hz_config: pages page_size frames room correlated retained k clients))
            .chain(lines_of!(hz_grant: page serial client))
            .chain(lines_of!(hz_fixed: grant lsn evicted kind has_evicted))
            .chain(lines_of!(hz_unsaved: page lsn first_lsn has_page))
            .chain(lines_of!(
                hz_stats: hits faults evictions writes failed refused
                          resident pinned unsaved loading writing discards
            ))
            .collect();
        let there: Vec<&str> = LAYOUT
            .lines()
            .filter(|line| line.starts_with("LIES(") || line.starts_with("HOLDS(sizeof(hz_"))
            .collect();
        assert_eq!(here, there);
    }

    /// Returns the names of the functions that lines declare: what is before the bracket in each.
    fn names_in<'a>(lines: impl Iterator<Item = &'a str>) -> Vec<&'a str> {
        let mut names: Vec<&str> = lines
            .filter_map(|line| line.split_once('('))
            .filter_map(|(before, _)| before.split([' ', '*']).next_back())
            .filter(|name| name.starts_with("hz_"))
            .collect();
        names.sort_unstable();
        names
    }

    /// Each function of the header is declared here, and no other. In the header each begins a
    /// line.
    #[test]
    fn functions() {
        let declared = include_str!("lib.rs")
            .split_once("unsafe extern \"C\" {")
            .and_then(|(_, rest)| rest.split_once("\n}\n"))
            .map_or("", |(block, _)| block);
        let here = declared
            .lines()
            .filter_map(|line| line.trim().strip_prefix("pub "));
        let there = HEADER
            .lines()
            .filter(|line| line.starts_with(|c: char| c.is_ascii_lowercase()));
        assert_eq!(names_in(here), names_in(there));
    }

    /// Returns the names and numbers of an enum of the header, in its order.
    fn enum_in_header(name: &str) -> Vec<(String, u16)> {
        let begin = format!("enum {name} {{\n");
        let block = HEADER
            .split_once(&begin)
            .and_then(|(_, rest)| rest.split_once("};"))
            .map_or("", |(block, _)| block);
        block
            .lines()
            .filter_map(|line| line.split_once(','))
            .filter_map(|(constant, _)| constant.split_once(" = "))
            .filter_map(|(name, number)| Some((name.trim().to_owned(), number.parse().ok()?)))
            .collect()
    }

    #[test]
    fn kinds() {
        let here = [
            ("HZ_HIT", HIT),
            ("HZ_LOAD", LOAD),
            ("HZ_WRITE_FIRST", WRITE_FIRST),
            ("HZ_CLEAN", CLEAN),
            ("HZ_ABSENT", ABSENT),
        ];
        let here: Vec<(String, u16)> = here
            .into_iter()
            .map(|(name, kind)| (name.to_owned(), kind.into()))
            .collect();
        assert_eq!(here, enum_in_header("hz_kind"));
    }

    /// The crate has the version of the library that it is linked with, and of the header.
    #[test]
    fn version() {
        let parts: Vec<u32> = env!("CARGO_PKG_VERSION")
            .split('.')
            .filter_map(|part| part.parse().ok())
            .collect();
        assert_eq!(parts.len(), 3);
        assert_eq!(hz_version(), parts[0] * 10_000 + parts[1] * 100 + parts[2]);
    }
}
