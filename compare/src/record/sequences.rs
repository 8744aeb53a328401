//! The file `sequences`: records of 4,205 bytes, calls on a work in the order in which they are made. List of 121 entries, store of
//! 9,000 bytes; before a digest, area and tickets hold 5a (hex) in every byte, and behind what it gives they must still hold it.
//!
//! Numbers have two bytes, low byte first, and what a record doesn't need is zero.
//!
//! | bytes | what |
//! |---|---|
//! | 0 | 0 page, 1 opening, 2 ingest, 3 digest, 4 next base, 5 cutoff removal, 6 leaf |
//! | 1 | opening: 1 with a base; ingest: 1 with a value, 0 for a deletion |
//! | 2 | opening, next base: 1 with a cutoff; ingest: the value's flag |
//! | 3 to 34 | ingest: the key; opening, next base: the separator |
//! | 35 to 66 | the cutoff |
//! | 67, 68 | ingest: the value's length; digest: the area's; leaf: its ticket's |
//! | 69, 70 | digest: the ticket buffer's length |
//! | 71 | the answer: refusal |
//! | 72 | ingest: 1 where a dropped cell is reported; digest: 1 where it waits for a merge |
//! | 73, 74 | ingest: the cell's offset; digest: how many leaves |
//! | 75, 76 | ingest: the cell's length; digest: the bytes of its tickets |
//! | 77 to 108 | digest: the cutoff for which it waits |
//! | 109 to 4204 | ingest: the value; page: its bytes; leaf: its page, the gap cleared |
//!
//! A page is lent to every call from there on, as base page, or as the new one of an opening or a next base. The leaves of
//! a digest stand right behind it, in their order, each with its ticket in bytes 1 to 65. A call on a work is lent what the last accepted one left.

mod picked;

use super::SEED;
use crate::oracle::updater::Updater;
use crate::oracle::Key;
use crate::plain::side::Plain;
use crate::rng::Rng;
use crate::sequences::made::Keys;
use crate::vectors::answers::Answer;
use crate::vectors::calls::{Call, Change};

pub const RECORD: usize = BODY + 4096;

const STORE: usize = 9000;

const PAGE: u8 = 0;
const OPEN: u8 = 1;
const INGEST: u8 = 2;
const DIGEST: u8 = 3;
const NEXT_BASE: u8 = 4;
const REMOVE_CUTOFF: u8 = 5;
const LEAF: u8 = 6;

const FIRST: usize = 1;
const SECOND: usize = 2;
const KEY: usize = 3;
const CUTOFF: usize = 35;
const LENGTH: usize = 67;
const TICKETS: usize = 69;
const REFUSAL: usize = 71;
const SAID: usize = 72;
const NUMBER: usize = 73;
const SIZE: usize = 75;
const WAIT: usize = 77;
const BODY: usize = 109;

pub fn records() -> Vec<u8> {
    let mut recorder = Recorder::new();
    picked::all(&mut recorder);
    recorder.bytes
}

/// Makes the calls on the Rust, where they aren't to be refused, and on the plain functions, which must agree, and writes them down.
struct Recorder {
    rng: Rng,
    keys: Keys,
    plain: Plain,
    rust: Updater,
    /// The page that is lent.
    page: Vec<u8>,
    bytes: Vec<u8>,
}

impl Recorder {
    fn new() -> Self {
        let mut rng = Rng::new(SEED);
        Recorder {
            keys: Keys::new(&mut rng),
            rng,
            plain: Plain::default(),
            rust: Updater::new(None, None),
            page: Vec::new(),
            bytes: Vec::new(),
        }
    }

    fn accepted(&mut self, call: Call) {
        self.lend(&call);
        let answer = self.rust.answer(&call);
        self.plain_agrees(&call, &answer);
        self.push_call(&call, &answer);
        if let Answer::Leaves { pages, tickets, .. } = &answer {
            self.push_leaves(pages, tickets);
        }
    }

    /// The Rust refuses nothing, so the number is document 01's.
    fn refused(&mut self, call: Call, number: u8) {
        self.lend(&call);
        let answer = Answer::Refused(number);
        self.plain_agrees(&call, &answer);
        self.push_call(&call, &answer);
    }

    fn plain_agrees(&mut self, call: &Call, answer: &Answer) {
        match self.plain.answer(call) {
            Ok(plain) => assert_eq!(plain, *answer, "{}", call.line()),
            Err(damage) => panic!("{}: {}", call.line(), damage.0),
        }
    }

    /// The page that the call needs, where another one is lent. A work that ignores it is lent whatever is there.
    fn lend(&mut self, call: &Call) {
        let regarded = self.plain.state.work.regards_page();
        let needed = match call {
            Call::Open { base, .. } => base.as_ref().map(|base| &base.page),
            Call::Next { base, .. } => Some(&base.page),
            _ => regarded.then_some(&self.plain.page),
        };
        if let Some(page) = needed.filter(|&page| *page != self.page).cloned() {
            let mut record = Record::new(PAGE);
            record.put(BODY, &page);
            self.bytes.extend(record.0);
            self.page = page;
        }
    }

    fn push_call(&mut self, call: &Call, answer: &Answer) {
        let mut record = Record::of(call);
        match answer {
            Answer::Refused(number) => record.put(REFUSAL, &[*number]),
            Answer::Report(Some((offset, length))) => {
                record.put(SAID, &[1]);
                record.put_number(NUMBER, *offset);
                record.put_number(SIZE, *length);
            }
            Answer::Leaves {
                pages,
                tickets,
                wait,
                ..
            } => {
                record.put_number(NUMBER, pages.len());
                record.put_number(SIZE, tickets.len());
                if let Some(cutoff) = wait {
                    record.put(SAID, &[1]);
                    record.put(WAIT, cutoff);
                }
            }
            _ => {}
        }
        self.bytes.extend(record.0);
    }

    fn push_leaves(&mut self, pages: &[Vec<u8>], tickets: &[u8]) {
        let mut rest = tickets;
        for page in pages {
            let length = if rest[0] == 1 { 65 } else { 33 };
            let (ticket, after) = rest.split_at(length);
            let mut record = Record::new(LEAF);
            record.put(FIRST, ticket);
            record.put_number(LENGTH, length);
            record.put(BODY, page);
            self.bytes.extend(record.0);
            rest = after;
        }
    }
}

struct Record([u8; RECORD]);

impl Record {
    fn new(kind: u8) -> Self {
        let mut bytes = [0; RECORD];
        bytes[0] = kind;
        Record(bytes)
    }

    fn put(&mut self, at: usize, bytes: &[u8]) {
        self.0[at..][..bytes.len()].copy_from_slice(bytes);
    }

    fn put_number(&mut self, at: usize, number: usize) {
        let number = u16::try_from(number).expect("a number of two bytes");
        self.put(at, &number.to_le_bytes());
    }

    /// The call with its arguments.
    fn of(call: &Call) -> Self {
        match call {
            Call::Open { base, cutoff, .. } => {
                let mut record = Record::new(OPEN);
                if let Some(base) = base {
                    record.put(FIRST, &[1]);
                    record.put(KEY, &base.separator);
                }
                record.put_cutoff(cutoff);
                record
            }
            Call::Ingest { key, change, .. } => Record::of_ingest(key, change),
            Call::Digest { area, tickets, .. } => {
                let mut record = Record::new(DIGEST);
                record.put_number(LENGTH, *area);
                record.put_number(TICKETS, *tickets);
                record
            }
            Call::Next { base, cutoff, .. } => {
                let mut record = Record::new(NEXT_BASE);
                record.put(KEY, &base.separator);
                record.put_cutoff(cutoff);
                record
            }
            Call::Uncut { .. } => Record::new(REMOVE_CUTOFF),
            _ => unreachable!("not recorded: {}", call.name()),
        }
    }

    fn of_ingest(key: &Key, change: &Change) -> Self {
        let mut record = Record::new(INGEST);
        record.put(KEY, key);
        if let Change::Put { value, flag } = change {
            record.put(FIRST, &[1]);
            record.put(SECOND, &[u8::from(*flag)]);
            record.put_number(LENGTH, value.len());
            record.put(BODY, value);
        }
        record
    }

    fn put_cutoff(&mut self, cutoff: &Option<Key>) {
        if let Some(cutoff) = cutoff {
            self.put(SECOND, &[1]);
            self.put(CUTOFF, cutoff);
        }
    }
}
