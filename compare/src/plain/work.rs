//! What a caller lends to each call: work record, list and store.

use crate::oracle::Key;

/// The work record, and an operation, both as the library is lent them. An insert's value is the store's bytes from..to; a chunk is
/// the base records from..to, and `sum` their value bytes.
pub use crate::leaf_updater::{Entry, Work};

/// The turns of a work. Another number can be lent; it is unsound.
pub const OPEN: u8 = 1;
pub const WAITING: u8 = 2;
pub const DONE: u8 = 3;

/// The kinds of a used entry; 0 is an unused one.
pub const INSERT: u8 = 1;
pub const CHUNK: u8 = 2;

/// What stands in place of an absent key.
pub const NO_KEY: Key = [0; 32];

#[derive(Clone, Debug, Default, PartialEq)]
pub struct State {
    pub work: Work,
    pub list: Vec<Entry>,
    pub store: Vec<u8>,
}

impl Work {
    pub fn cutoff(&self) -> Option<Key> {
        (self.cut != 0).then_some(self.cutoff)
    }

    pub fn last_key(&self) -> Option<Key> {
        (self.taken != 0).then_some(self.last)
    }

    /// "A work that has no base, waits or is done ignores the lent page."
    pub fn regards_page(&self) -> bool {
        self.turn == OPEN && self.based != 0
    }

    /// "The current separator is the override, else the latest base's, also after a cutoff removal, else zeros."
    pub fn separator(&self) -> Key {
        if self.over != 0 {
            self.overriding
        } else {
            self.latest
        }
    }

    pub fn is_in_scope(&self, key: &Key) -> bool {
        self.cutoff().is_none_or(|cutoff| *key < cutoff)
    }

    /// Whether No. 13 lets the key in: not below the floor, and above the last key taken.
    pub fn lets_in(&self, key: &Key) -> bool {
        *key >= self.floor && self.last_key().is_none_or(|last| *key > last)
    }
}

impl State {
    pub fn used_entries(&self) -> &[Entry] {
        &self.list[..self.work.used]
    }

    pub fn list_chunk(&mut self, from: usize, to: usize, sum: usize) {
        let chunk = Entry {
            kind: CHUNK,
            from,
            to,
            sum,
            ..Entry::default()
        };
        self.push(chunk, to - from, sum);
    }

    /// The value stands behind those that the store holds.
    pub fn list_insert(&mut self, key: Key, value: &[u8], flag: bool) {
        let from = self.work.filled;
        let to = from + value.len();
        self.store[from..to].copy_from_slice(value);
        self.work.filled = to;
        let insert = Entry {
            kind: INSERT,
            flag: flag.into(),
            from,
            to,
            sum: 0,
            key,
        };
        self.push(insert, 1, value.len());
    }

    fn push(&mut self, entry: Entry, records: usize, bytes: usize) {
        self.list[self.work.used] = entry;
        self.work.used += 1;
        self.work.count += records;
        self.work.bytes += bytes;
    }

    /// Nothing is listed, and every entry and byte is zero.
    pub fn clear_list(&mut self) {
        self.list.fill(Entry::default());
        self.store.fill(0);
        self.work.used = 0;
        self.work.filled = 0;
        self.work.count = 0;
        self.work.bytes = 0;
    }
}
