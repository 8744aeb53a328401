//! The leaf updater's calls for Rust: the same declarations as in leaf_updater.h, which says of each call what it takes, answers
//! and leaves. A program takes this file in as a module and links libleaf_updater.a; examples/updater.rs does.
//!
//! A slice is a pointer and a length. What a call changes may overlap nothing else that it is lent, and no pointer may be null.
#![allow(dead_code)] // no program needs all of it

pub type Key = [u8; 32];

/// The refusals, by the numbers of documents 01 and 02; 0 is an accepted call.
pub mod refusal {
    pub const PAGE_LENGTH: u8 = 1;
    pub const TOO_MANY_RECORDS: u8 = 2;
    pub const BAD_OFFSETS: u8 = 3;
    pub const LONG_PAGE_VALUE: u8 = 4;
    pub const KEYS_NOT_RISING: u8 = 5;
    pub const BAD_BOUNDS: u8 = 6;
    pub const ROOM_LENGTH: u8 = 7;
    pub const UNSOUND: u8 = 8;
    pub const OUT_OF_TURN: u8 = 9;
    pub const NO_SUCH_INDEX: u8 = 10;
    pub const EQUAL_KEYS: u8 = 11;
    pub const LONG_VALUE: u8 = 12;
    pub const KEY_TOO_LOW: u8 = 13;
    pub const KEY_PAST_CUTOFF: u8 = 14;
    pub const LIST_FULL: u8 = 15;
    pub const STORE_FULL: u8 = 16;
    pub const SHORT_AREA: u8 = 17;
    pub const LONG_ROW: u8 = 18;
    pub const BAD_WEIGHT: u8 = 19;
    pub const ODD_TREE: u8 = 20;
    pub const OVERFLOW_LENGTH: u8 = 21;
    pub const SHORT_BUFFER: u8 = 22;
    pub const BAD_OVERFLOW: u8 = 23;
    pub const HEAVY_TREE: u8 = 24;
}

/// The work record. A flag beside a key says whether the key is there; else it is zeros.
#[repr(C)]
#[derive(Clone, Copy, Debug, Default, PartialEq)]
pub struct Work {
    /// 1 open, 2 waiting for a merge, 3 done.
    pub turn: u8,
    /// Whether there is a base.
    pub based: u8,
    /// Which dropped flagged records an ingest reports, chosen at opening: 0 those behind a base record that it took up, as nomt does; 1 every
    /// one.
    pub mode: u8,
    /// How many base records are passed; 0 where the page is ignored.
    pub low: usize,
    /// Entries in use, and store bytes in use.
    pub used: usize,
    pub filled: usize,
    /// Count and value bytes of the listed records.
    pub count: usize,
    pub bytes: usize,
    /// The latest base's separator; it stays after a cutoff removal.
    pub latest: Key,
    pub cut: u8,
    pub cutoff: Key,
    pub over: u8,
    pub overriding: Key,
    /// The lowest key that separators and merge requests still allow.
    pub floor: Key,
    /// The last key taken, a deletion's too.
    pub taken: u8,
    pub last: Key,
}

/// An entry of the list. Kind 1: an insert, whose value is the store's bytes from..to. Kind 2: a chunk, the base's records
/// from..to, and `sum` their value bytes. Kind 0: unused.
#[repr(C)]
#[derive(Clone, Copy, Debug, Default, PartialEq)]
pub struct Entry {
    pub kind: u8,
    pub flag: u8,
    pub from: usize,
    pub to: usize,
    pub sum: usize,
    pub key: Key,
}

/// An ingest's answer. Here and below, a refusal has its number and zeros in every other field.
#[repr(C)]
#[derive(Clone, Copy, Debug, Default, PartialEq)]
pub struct LeafReport {
    pub refusal: u8,
    /// Whether a dropped cell is reported; its place in the base page.
    pub reported: u8,
    pub offset: usize,
    pub len: usize,
}

/// A digest's answer.
#[repr(C)]
#[derive(Clone, Copy, Debug, Default, PartialEq)]
pub struct LeafGave {
    pub refusal: u8,
    /// Whether it waits for a merge; the cutoff for which it does.
    pub waiting: u8,
    pub leaves: usize,
    pub cutoff: Key,
}

/// A pending record.
#[repr(C)]
#[derive(Clone, Copy, Debug, Default, PartialEq)]
pub struct TwinPlace {
    pub refusal: u8,
    /// Who has the value: 1 the store, 2 the base page.
    pub holder: u8,
    pub flag: bool,
    pub offset: usize,
    pub len: usize,
    pub key: Key,
}

/// A key of a page.
#[repr(C)]
#[derive(Clone, Copy, Debug, Default, PartialEq)]
pub struct LeafKey {
    pub refusal: u8,
    pub key: Key,
}

/// A value of a page.
#[repr(C)]
#[derive(Clone, Copy, Debug, Default, PartialEq)]
pub struct LeafValue {
    pub refusal: u8,
    /// 1 where `leaf_page_get` finds no such key, else 0.
    pub absent: u8,
    pub flag: u8,
    pub offset: usize,
    pub len: usize,
    /// Where an absent key would stand: the record before it is `position - 1`, the one behind it `position`; else 0.
    pub position: usize,
}

/// Bytes of values of a page.
#[repr(C)]
#[derive(Clone, Copy, Debug, Default, PartialEq)]
pub struct LeafSize {
    pub refusal: u8,
    pub bytes: usize,
}

/// The melt of a tree: its wax in milligrams, its alloy factor, their product rounded once, and the whole milligrams not below it.
#[repr(C)]
#[derive(Clone, Copy, Debug, Default, PartialEq)]
pub struct LeafMelt {
    pub refusal: u8,
    pub total: u64,
    pub factor: f64,
    pub product: f64,
    pub melt: u64,
}

/// How many pages a large value takes.
#[repr(C)]
#[derive(Clone, Copy, Debug, Default, PartialEq)]
pub struct LeafPageCount {
    pub refusal: u8,
    pub pages: usize,
}

/// A large value's cell, zeros behind its `cell_len` bytes, and how many pages were written.
#[repr(C)]
#[derive(Clone, Copy, Debug, PartialEq)]
pub struct LeafSplit {
    pub refusal: u8,
    pub cell: [u8; 100],
    pub cell_len: usize,
    pub pages: usize,
}

/// The length of a joined value.
#[repr(C)]
#[derive(Clone, Copy, Debug, Default, PartialEq)]
pub struct LeafJoined {
    pub refusal: u8,
    pub len: usize,
}

/// How many page numbers were freed.
#[repr(C)]
#[derive(Clone, Copy, Debug, Default, PartialEq)]
pub struct LeafFreed {
    pub refusal: u8,
    pub numbers: usize,
}

extern "C" {
    pub fn leaf_open(
        work: *mut Work,
        list: *mut Entry,
        list_len: usize,
        store: *mut u8,
        store_len: usize,
        mode: u8,
        based: u8,
        page: *const u8,
        page_len: usize,
        separator: *const Key,
        cut: u8,
        cutoff: *const Key,
    ) -> u8;
    pub fn leaf_ingest(
        work: *mut Work,
        list: *mut Entry,
        list_len: usize,
        store: *mut u8,
        store_len: usize,
        page: *const u8,
        page_len: usize,
        key: *const Key,
        put: u8,
        flag: u8,
        value: *const u8,
        value_len: usize,
    ) -> LeafReport;
    pub fn leaf_digest(
        work: *mut Work,
        list: *mut Entry,
        list_len: usize,
        store: *mut u8,
        store_len: usize,
        page: *const u8,
        page_len: usize,
        area: *mut u8,
        area_len: usize,
        tickets: *mut u8,
        tickets_len: usize,
    ) -> LeafGave;
    pub fn leaf_next_base(
        work: *mut Work,
        list: *const Entry,
        list_len: usize,
        store: *const u8,
        store_len: usize,
        page: *const u8,
        page_len: usize,
        separator: *const Key,
        cut: u8,
        cutoff: *const Key,
    ) -> u8;
    pub fn leaf_remove_cutoff(
        work: *mut Work,
        list: *const Entry,
        list_len: usize,
        store: *const u8,
        store_len: usize,
    ) -> u8;
    pub fn leaf_twin(
        work: Work,
        list: *const Entry,
        list_len: usize,
        store: *const u8,
        store_len: usize,
        page: *const u8,
        page_len: usize,
        i: usize,
    ) -> TwinPlace;
    pub fn leaf_part(
        work: Work,
        list: *const Entry,
        list_len: usize,
        store: *const u8,
        store_len: usize,
        page: *const u8,
        page_len: usize,
        i: usize,
        out: *mut u8,
        out_len: usize,
    ) -> usize;
    pub fn leaf_is_in_scope(work: Work, key: *const Key) -> u8;
    pub fn leaf_separator(work: Work, out: *mut Key);

    pub fn leaf_prefix_len(a: *const Key, b: *const Key) -> usize;
    pub fn leaf_separate(a: *const Key, b: *const Key, out: *mut Key) -> u8;

    pub fn leaf_page_check(page: *const u8, page_len: usize) -> u8;
    pub fn leaf_page_key(page: *const u8, page_len: usize, i: usize) -> LeafKey;
    pub fn leaf_page_value(page: *const u8, page_len: usize, i: usize) -> LeafValue;
    pub fn leaf_page_get(page: *const u8, page_len: usize, key: *const Key) -> LeafValue;
    pub fn leaf_page_values_size(
        page: *const u8,
        page_len: usize,
        from: usize,
        to: usize,
    ) -> LeafSize;
    pub fn leaf_page_rebuild(
        page: *const u8,
        page_len: usize,
        from: usize,
        mid: usize,
        to: usize,
        out: *mut u8,
        out_len: usize,
    ) -> u8;

    pub fn leaf_melt(
        pages: *const u8,
        pages_len: usize,
        separators: *const Key,
        separators_len: usize,
        tree: *const [u8; 24],
    ) -> LeafMelt;
    pub fn leaf_overflow_pages(value_len: usize) -> LeafPageCount;
    pub fn leaf_overflow_split(
        value: *const u8,
        value_len: usize,
        hash: *const Key,
        numbers: *const u32,
        numbers_len: usize,
        area: *mut u8,
        area_len: usize,
    ) -> LeafSplit;
    pub fn leaf_overflow_join(
        cell: *const u8,
        cell_len: usize,
        pages: *const u8,
        pages_len: usize,
        value: *mut u8,
        value_len: usize,
    ) -> LeafJoined;
    pub fn leaf_overflow_free(
        cell: *const u8,
        cell_len: usize,
        pages: *const u8,
        pages_len: usize,
        numbers: *mut u32,
        numbers_len: usize,
    ) -> LeafFreed;
}
