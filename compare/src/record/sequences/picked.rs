//! The recorded sequences: document 01's bench trials of a digest, merges in a row, a cutoff removal, and among them calls that must be
//! refused. Keys are named by numbers that rise with them.

use super::{Recorder, STORE};
use crate::oracle::io::PAGE_SIZE;
use crate::pages::made::bytes;
use crate::pages::pointer;
use crate::plain::digest::TICKET;
use crate::plain::page::{build, Record};
use crate::plain::verdict::{
    LIST_FULL, LONG_VALUE, OUT_OF_BOUNDS, OUT_OF_TURN, PAST_CUTOFF, SHORT_AREA, STORE_FULL, TOO_LOW,
};
use crate::sequences::made::{self, opening, Keys};
use crate::vectors::calls::{Base, Call, Change, Instead};

/// What the largest digest here asks for.
const PAGES: usize = 5;

/// A page's keys don't strictly rise.
const KEYS_ASTRAY: u8 = 5;

pub fn all(to: &mut Recorder) {
    let sequences: [fn(&mut Recorder); 7] = [
        three_of_1331,
        five_of_1332,
        inserts_before_a_base,
        empty_base_with_a_cutoff,
        several_merges_in_a_row,
        cutoff_removed,
        list_full,
    ];
    for sequence in sequences {
        to.keys = Keys::new(&mut to.rng);
        sequence(to);
    }
}

/// 4,095 bytes: leaves of 2,730 and 1,365.
fn three_of_1331(to: &mut Recorder) {
    to.open_bare();
    for number in [3, 4, 9] {
        to.put(number, 1331);
    }
    to.put_refused(10, 1333, LONG_VALUE);
    to.put_refused(9, 1, TOO_LOW);
    to.digest(PAGES);
    to.delete_refused(11, OUT_OF_TURN);
}

/// 6,830 bytes: leaves of 2,732, 2,732 and 1,366; four pages asked.
fn five_of_1332(to: &mut Recorder) {
    to.open_bare();
    for number in [0, 1, 2, 30, 31] {
        to.put(number, 1332);
    }
    to.refused(digest(3 * PAGE_SIZE, PAGES * TICKET), SHORT_AREA);
    to.refused(digest(PAGES * PAGE_SIZE, 4 * TICKET - 1), SHORT_AREA);
    to.digest(4);
}

/// Two inserts before a base of three 1,330: leaves of 2,732 and 4,092. Then, on the same page, as many values as the store takes: a
/// body over 7,369.
fn inserts_before_a_base(to: &mut Recorder) {
    let page = to.page(&[(10, 1330, false), (12, 1330, true), (13, 1330, false)]);
    to.open(&page, 0, None);
    for number in [4, 5] {
        to.put(number, 1332);
    }
    to.digest(PAGES);
    to.open(&page, 0, None);
    for number in [1, 11, 14] {
        to.put(number, 1332);
    }
    to.put_refused(15, 1332, STORE_FULL);
    to.digest(PAGES);
}

/// An empty base with a cutoff, 2,047 bytes: a leaf, with the cutoff on its ticket. One byte less: a merge request, and a next base
/// whose flagged second record is deleted first, which is reported; another one gets a new value.
fn empty_base_with_a_cutoff(to: &mut Recorder) {
    let empty = to.page(&[]);
    to.open(&empty, 1, Some(50));
    to.put_refused(0, 5, TOO_LOW);
    to.put(1, 989);
    to.put(7, 990);
    to.put_refused(50, 5, PAST_CUTOFF);
    to.digest(PAGES);
    to.open(&empty, 1, Some(50));
    to.put(1, 989);
    to.put(7, 989);
    to.digest(PAGES);
    to.put_refused(51, 5, OUT_OF_TURN);
    to.refused(to.next(&empty, 49, None), TOO_LOW);
    let page = to.page(&[
        (52, 700, true),
        (55, 20, true),
        (56, 0, false),
        (60, 600, true),
    ]);
    to.next_base(&page, 51, Some(70));
    to.delete(55);
    to.put(56, 1000);
    to.digest(PAGES);
}

/// Small records are kept over two merge requests; the third base is taken up as chunks. The second one's first record is flagged, and
/// its deletion isn't reported.
fn several_merges_in_a_row(to: &mut Recorder) {
    let astray = to.page(&[(4, 1, false), (3, 1, false)]);
    to.refused(opening(Some(to.base(&astray, 2)), None, STORE), KEYS_ASTRAY);
    let page = to.page(&[(2, 30, false)]);
    to.open(&page, 2, Some(20));
    to.put(3, 300);
    to.digest(PAGES);
    let page = to.page(&[(20, 200, true), (21, 0, true), (22, 250, true)]);
    to.next_base(&page, 20, Some(40));
    to.delete(20);
    to.digest(PAGES);
    let numbers: Vec<_> = (41..101)
        .map(|n| (n, 7 + n as usize % 9, n % 4 == 0))
        .collect();
    let page = to.page(&numbers);
    to.next_base(&page, 41, None);
    to.delete(60);
    to.put(80, 40);
    to.digest(PAGES);
}

/// A work that waits goes on without a base.
fn cutoff_removed(to: &mut Recorder) {
    let page = to.page(&[(5, 100, true), (6, 0, false)]);
    to.refused(
        opening(Some(to.base(&page, 5)), Some(to.keys.key(5)), STORE),
        OUT_OF_BOUNDS,
    );
    to.open(&page, 5, Some(30));
    to.put(8, 500);
    to.refused(remove_cutoff(), OUT_OF_TURN);
    to.digest(PAGES);
    to.accepted(remove_cutoff());
    to.put_refused(29, 5, TOO_LOW);
    to.put(30, 1);
    to.digest(PAGES);
}

/// A base of 120 records and one insert: 121 entries' worth, and a body that makes two leaves of chunks.
fn list_full(to: &mut Recorder) {
    let numbers: Vec<_> = (1..121)
        .map(|n| (2 * n, usize::from(n < 15), n % 3 == 0))
        .collect();
    let page = to.page(&numbers);
    to.open(&page, 0, None);
    to.put(51, 0);
    to.put_refused(53, 0, LIST_FULL);
    to.delete(54);
    to.put(55, 3);
    to.digest(PAGES);
}

fn digest(area: usize, tickets: usize) -> Call {
    let instead = Instead::default();
    Call::Digest {
        area,
        tickets,
        instead,
    }
}

fn remove_cutoff() -> Call {
    let instead = Instead::default();
    Call::Uncut { instead }
}

impl Recorder {
    /// A page of records, each a number, the value's length and the flag. Its gap holds random bytes.
    fn page(&mut self, records: &[(u64, usize, bool)]) -> Vec<u8> {
        let mut made = Vec::new();
        for &(number, length, flag) in records {
            made.push(Record {
                key: self.keys.key(number),
                value: bytes(&mut self.rng, length),
                flag,
            });
        }
        let mut page = build(&made);
        let values: usize = made.iter().map(|record| record.value.len()).sum();
        let gap = pointer(made.len())..PAGE_SIZE - values;
        let random = bytes(&mut self.rng, gap.len());
        page[gap].copy_from_slice(&random);
        page
    }

    fn base(&self, page: &[u8], separator: u64) -> Base {
        Base {
            page: page.to_vec(),
            separator: self.keys.key(separator),
        }
    }

    fn open_bare(&mut self) {
        self.accepted(opening(None, None, STORE));
    }

    fn open(&mut self, page: &[u8], separator: u64, cutoff: Option<u64>) {
        let base = self.base(page, separator);
        let cutoff = cutoff.map(|number| self.keys.key(number));
        self.accepted(opening(Some(base), cutoff, STORE));
    }

    fn next(&self, page: &[u8], separator: u64, cutoff: Option<u64>) -> Call {
        Call::Next {
            base: self.base(page, separator),
            cutoff: cutoff.map(|number| self.keys.key(number)),
            instead: Instead::default(),
        }
    }

    fn next_base(&mut self, page: &[u8], separator: u64, cutoff: Option<u64>) {
        let call = self.next(page, separator, cutoff);
        self.accepted(call);
    }

    fn ingest(&self, number: u64, change: Change) -> Call {
        Call::Ingest {
            key: self.keys.key(number),
            change,
            instead: Instead::default(),
        }
    }

    fn put(&mut self, number: u64, length: usize) {
        let change = made::put(&mut self.rng, length);
        self.accepted(self.ingest(number, change));
    }

    fn put_refused(&mut self, number: u64, length: usize, refusal: u8) {
        let change = made::put(&mut self.rng, length);
        self.refused(self.ingest(number, change), refusal);
    }

    fn delete(&mut self, number: u64) {
        self.accepted(self.ingest(number, Change::Delete));
    }

    fn delete_refused(&mut self, number: u64, refusal: u8) {
        self.refused(self.ingest(number, Change::Delete), refusal);
    }

    fn digest(&mut self, pages: usize) {
        self.accepted(digest(pages * PAGE_SIZE, pages * TICKET));
    }
}
