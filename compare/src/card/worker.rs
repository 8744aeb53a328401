//! nomt's `run_worker` (ops/update/leaf_stage.rs) over a row: the changes of its share on one leaf after the other, merging to the right where
//! a leaf gets too small. Its calls are those of either side.

use super::row::Row;
use super::Checked;
use crate::oracle::Key;
use crate::plain::digest::{asked, TICKET};
use crate::vectors::answers::Answer;
use crate::vectors::calls::{Base, Call, Change, Instead};
use crate::vectors::{Outcome, Side};

/// What a work may hold beside the changes of one leaf: the base, and what is kept for a merge, each record of at least 34 bytes.
const RECORDS: usize = 120 + 60;
const BYTES: usize = 4094 + 2046;

/// What a worker made of the row.
#[derive(Default, PartialEq)]
pub struct Made {
    /// The separators of the leaves that it worked on.
    pub taken: Vec<Key>,
    pub leaves: Vec<(Key, Vec<u8>)>,
    pub tickets: Vec<u8>,
    /// The overflow cells that were reported as dropped.
    pub dropped: Vec<Vec<u8>>,
    pub next_bases: u64,
    pub merge_requests: u64,
    pub removals: u64,
}

pub struct Worker<'a, S> {
    side: S,
    row: &'a Row,
    /// Where the leaves of the next worker begin.
    high: Option<Key>,
    list: usize,
    store: usize,
    /// The base's page.
    page: &'a [u8],
    made: Made,
}

impl<'a, S: Side> Worker<'a, S> {
    pub fn new(side: S, row: &'a Row, high: Option<Key>) -> Self {
        Worker {
            side,
            row,
            high,
            list: 0,
            store: 0,
            page: &[],
            made: Made::default(),
        }
    }

    /// The changes, in rising order of their keys.
    pub fn run(mut self, changes: &[(Key, Change)]) -> Checked<Made> {
        (self.list, self.store) = room(self.row, changes);
        self.open(&changes[0].0)?;
        for (key, change) in changes {
            while !self.is_in_scope(key)? {
                let next = self.digest()?.unwrap_or(*key);
                self.reset_base(&next)?;
            }
            self.ingest(*key, change)?;
        }
        while let Some(cutoff) = self.digest()? {
            self.reset_base(&cutoff)?;
        }
        Ok(self.made)
    }

    fn call(&mut self, call: Call) -> Checked<Answer> {
        match self.side.run(&call) {
            Outcome::Answered(Answer::Refused(number)) => {
                Err(format!("refused by {number}: {}", call.line()))
            }
            Outcome::Answered(answer) => Ok(answer),
            Outcome::Damaged(damage) => Err(format!("{}: {}", damage.0, call.line())),
        }
    }

    /// Takes a leaf as base: page and separator, and its cutoff.
    fn take(&mut self, (separator, page): (Key, &'a [u8])) -> (Base, Option<Key>) {
        self.made.taken.push(separator);
        self.page = page;
        // a leaf of its own ends where the next worker begins, even if that one has no leaf there any more
        let end = self.high.filter(|high| separator < *high);
        let cutoff = [self.row.after(&separator), end]
            .into_iter()
            .flatten()
            .min();
        let page = page.to_vec();
        (Base { page, separator }, cutoff)
    }

    fn open(&mut self, key: &Key) -> Checked<()> {
        let leaf = self.row.leaf_of(key);
        let leaf = leaf.map(|leaf| self.take(leaf));
        let (base, cutoff) = leaf.map_or((None, None), |(base, cutoff)| (Some(base), cutoff));
        let (list, store) = (self.list, self.store);
        let call = Call::Open {
            every: false,
            base,
            cutoff,
            list,
            store,
        };
        self.call(call).map(drop)
    }

    /// The leaf in which a key belongs, or one that the workers to the right have left. Where they left none, the last leaf of all is
    /// being written.
    fn reset_base(&mut self, key: &Key) -> Checked<()> {
        let leaf = match self.high {
            Some(high) if *key >= high => self.row.first_from(key),
            _ => self.row.leaf_of(key),
        };
        let instead = Instead::default();
        let Some(leaf) = leaf else {
            self.made.removals += 1;
            return self.call(Call::Uncut { instead }).map(drop);
        };
        self.made.next_bases += 1;
        let (base, cutoff) = self.take(leaf);
        let call = Call::Next {
            base,
            cutoff,
            instead,
        };
        self.call(call).map(drop)
    }

    fn is_in_scope(&mut self, key: &Key) -> Checked<bool> {
        let answer = self.call(Call::Scope { key: *key })?;
        Ok(answer == Answer::Truth(true))
    }

    fn ingest(&mut self, key: Key, change: &Change) -> Checked<()> {
        let call = Call::Ingest {
            key,
            change: change.clone(),
            instead: Instead::default(),
        };
        if let Answer::Report(Some((offset, length))) = self.call(call)? {
            let cell = &self.page[offset..][..length];
            self.made.dropped.push(cell.to_vec());
        }
        Ok(())
    }

    /// The cutoff for which the work waits, if it does.
    fn digest(&mut self) -> Checked<Option<Key>> {
        let most = asked(34 * self.list + self.store);
        let call = Call::Digest {
            area: most * 4096,
            tickets: most * TICKET,
            instead: Instead::default(),
        };
        match self.call(call)? {
            Answer::Leaves {
                pages,
                tickets,
                wait,
                ..
            } => {
                self.made
                    .leaves
                    .extend(separators(&tickets).into_iter().zip(pages));
                self.made.tickets.extend(tickets);
                self.made.merge_requests += u64::from(wait.is_some());
                Ok(wait)
            }
            other => Err(format!("not a digest's answer: {other:?}")),
        }
    }
}

/// List and store that take all changes of any leaf.
fn room(row: &Row, changes: &[(Key, Change)]) -> (usize, usize) {
    let (mut records, mut bytes) = (0, 0);
    for of_leaf in changes.chunk_by(|left, right| same_leaf(row, &left.0, &right.0)) {
        let lengths = of_leaf.iter().map(|(_, change)| change.length());
        records = records.max(of_leaf.len());
        bytes = bytes.max(lengths.sum());
    }
    (records + RECORDS, bytes + BYTES)
}

pub fn same_leaf(row: &Row, left: &Key, right: &Key) -> bool {
    let separator = |key| row.leaf_of(key).map(|(separator, _)| separator);
    separator(left) == separator(right)
}

/// The separators of packed tickets.
fn separators(mut tickets: &[u8]) -> Vec<Key> {
    let mut separators = Vec::new();
    while let Some((kind, rest)) = tickets.split_first() {
        let (separator, _) = rest.split_first_chunk().expect("a separator of 32 bytes");
        separators.push(*separator);
        tickets = &rest[if *kind == 1 { 64 } else { 32 }..];
    }
    separators
}
