//! Batches of made-up changes, in rising order of their keys, and the shares of their workers.

use super::row::Row;
use super::worker::same_leaf;
use super::Records;
use crate::oracle::Key;
use crate::pages::made::above;
use crate::rng::Rng;
use crate::sequences::made;
use crate::vectors::calls::Change;
use std::collections::BTreeMap;

/// Changes of a batch, before those that have no room are left out. A short row has smaller ones.
const MOST: usize = 4000;
/// What the changes of one leaf may come to, so that list and store needn't be long.
const RECORDS_OF_LEAF: usize = 200;
const BYTES_OF_LEAF: usize = 20_000;
const WORKERS: usize = 4;

type Changes = BTreeMap<Key, Change>;

pub struct Batch {
    changes: Vec<(Key, Change)>,
    /// Where the share of each worker ends and the next one's leaves begin, rising.
    bounds: Vec<Key>,
}

impl Batch {
    pub fn changes(&self) -> &[(Key, Change)] {
        &self.changes
    }

    /// Each worker's changes, and where the next worker's leaves begin.
    pub fn shares(&self) -> impl DoubleEndedIterator<Item = (&[(Key, Change)], Option<Key>)> {
        let lows = [None].into_iter().chain(self.bounds.iter().map(Some));
        let highs = self.bounds.iter().map(Some).chain([None]);
        let shares: Vec<_> = lows.zip(highs).collect();
        let place = |bound: Option<&Key>, none| {
            bound.map_or(none, |bound| {
                self.changes.partition_point(|(key, _)| key < bound)
            })
        };
        let share = move |(low, high): (Option<&Key>, Option<&Key>)| {
            let changes = &self.changes[place(low, 0)..place(high, self.changes.len())];
            (changes, high.copied())
        };
        shares
            .into_iter()
            .map(share)
            .filter(|(changes, _)| !changes.is_empty())
    }
}

/// A batch of one change at least, on this row of these records.
pub fn make(rng: &mut Rng, row: &Row, records: &Records, grows: bool) -> Batch {
    let mut changes = Changes::new();
    let puts = if grows { 8 } else { 3 };
    let most = (40 + 2 * row.len()).min(MOST);
    for _ in 0..rng.between(1, most) {
        let key = any_key(rng, records);
        let change = if rng.between(0, 9) < puts {
            put(rng, &key)
        } else {
            Change::Delete
        };
        changes.insert(key, change);
    }
    let mut bounds = Vec::new();
    match rng.between(0, 5) {
        0 => wipe_leaves(rng, row, records, &mut changes),
        1 => bounds.extend(wipe_end(rng, row, records, &mut changes)),
        _ => {}
    }
    if changes.is_empty() {
        changes.insert([0; 32], Change::Delete);
    }
    let changes = with_room(row, changes);
    for _ in 1..rng.between(1, WORKERS) {
        let (key, _) = &changes[rng.between(0, changes.len() - 1)];
        bounds.extend(row.leaf_of(key).map(|(separator, _)| separator));
    }
    // nothing lies below the first leaf
    bounds.retain(|bound| *bound != [0; 32]);
    bounds.sort();
    bounds.dedup();
    Batch { changes, bounds }
}

/// A new key, one that is there, or its neighbour. Most begin with a bit that stands for short values, so that some leaves have many records.
fn any_key(rng: &mut Rng, records: &Records) -> Key {
    let mut key = rng.key();
    let region = [0, 0, 0, 1, 1, 1, 2, 3][rng.between(0, 7)];
    key[0] = key[0] & 0x3f | region << 6;
    let there = records.range(key..).next().map(|(there, _)| *there);
    match (rng.between(0, 7), there) {
        (0, Some(there)) => above(&there),
        (1..=4, Some(there)) => there,
        _ => key,
    }
}

fn put(rng: &mut Rng, key: &Key) -> Change {
    let length = made::length(rng, made::SIZES[(key[0] >> 6) as usize]);
    made::put(rng, length)
}

/// All records of some leaves in a row are deleted, or nearly all, from the first leaf on or from any; and nothing new comes there.
fn wipe_leaves(rng: &mut Rng, row: &Row, records: &Records, changes: &mut Changes) {
    let from = [[0; 32], rng.key()][rng.between(0, 1)];
    let leaves = rng.between(1, 6);
    let end = (0..leaves).try_fold(from, |at, _| row.after(&at));
    let within = |key: &Key| *key >= from && end.is_none_or(|end| *key < end);
    changes.retain(|key, _| !within(key));
    let kept = [0, 0, 2, 8][rng.between(0, 3)];
    for (key, _) in records.range(from..).take_while(|(key, _)| within(key)) {
        if rng.between(0, 40) >= kept {
            changes.insert(*key, Change::Delete);
        }
    }
}

/// All records of the last leaves are deleted, and most of the leaf before them, so that it needs a merge and finds no leaf. Where the last
/// leaves begin: they are another worker's.
fn wipe_end(rng: &mut Rng, row: &Row, records: &Records, changes: &mut Changes) -> Option<Key> {
    let separators: Vec<Key> = row.leaves().map(|(separator, _)| separator).collect();
    let at = separators.len().checked_sub(rng.between(1, 4))?;
    let before = separators.get(at.checked_sub(1)?)?;
    let keep = separators.get(at.checked_sub(2)?)?;
    changes.retain(|key, _| key < keep);
    let first = records.range(*before..).next().map(|(key, _)| *key)?;
    for (key, _) in records.range(above(&first)..) {
        changes.insert(*key, Change::Delete);
    }
    Some(separators[at])
}

/// The changes for which a leaf's list and store have room; deletions always have.
fn with_room(row: &Row, changes: Changes) -> Vec<(Key, Change)> {
    let mut kept: Vec<(Key, Change)> = Vec::new();
    let (mut records, mut bytes) = (0, 0);
    for (key, change) in changes {
        if kept
            .last()
            .is_some_and(|(last, _)| !same_leaf(row, last, &key))
        {
            (records, bytes) = (0, 0);
        }
        records += 1;
        bytes += change.length();
        let fits = records <= RECORDS_OF_LEAF && bytes <= BYTES_OF_LEAF;
        if fits || matches!(change, Change::Delete) {
            kept.push((key, change));
        }
    }
    kept
}
