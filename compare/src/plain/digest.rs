//! Document 01, "Digest, step by step".

use super::page::{body, build, Record};
use super::pending;
use super::sound::MERGE_BELOW;
use super::verdict;
use super::work::{State, DONE, NO_KEY, WAITING};
use crate::keys::plain_separate;
use crate::oracle::io::PAGE_SIZE;
use crate::oracle::Key;
use crate::pages::BODY_LIMIT;

/// Above this body, leaves are cut with a target of their own.
const BULK_ABOVE: usize = 7369;
const BULK_TARGET: usize = 3070;
/// Ticket bytes to be lent for a page: kind, separator and cutoff.
pub const TICKET: usize = 65;

/// "B / 2047, rounded up, is the number of pages that digest asks for"
pub fn asked(body: usize) -> usize {
    body.div_ceil(MERGE_BELOW)
}

/// How many leaves were given, and the cutoff for which the work waits, if it isn't done.
#[derive(Debug, PartialEq)]
pub struct Digested {
    pub leaves: usize,
    pub wait: Option<Key>,
}

struct Leaf {
    records: Vec<Record>,
    separator: Key,
    cutoff: Option<Key>,
}

/// What a digest makes of the pending records.
struct Outcome {
    leaves: Vec<Leaf>,
    kept: Vec<Record>,
    /// Where the kept records begin.
    separator: Key,
}

pub fn digest(
    state: &mut State,
    page: &[u8],
    area: &mut [u8],
    tickets: &mut [u8],
) -> Result<Digested, u8> {
    verdict::digest(state, page, area.len(), tickets.len())?;
    let records = pending::records(state, page);
    let outcome = outcome(records, state.work.separator(), state.work.cutoff());
    let leaves = outcome.leaves.len();
    let mut at = 0;
    for (i, leaf) in outcome.leaves.iter().enumerate() {
        area[i * PAGE_SIZE..][..PAGE_SIZE].copy_from_slice(&build(&leaf.records));
        let ticket = ticket(leaf);
        tickets[at..][..ticket.len()].copy_from_slice(&ticket);
        at += ticket.len();
    }
    let wait = after(state, outcome);
    Ok(Digested { leaves, wait })
}

/// "kind 1, then separator and cutoff (65 bytes); kind 2, then separator (33 bytes), no cutoff"
fn ticket(leaf: &Leaf) -> Vec<u8> {
    match leaf.cutoff {
        Some(cutoff) => [&[1], &leaf.separator[..], &cutoff[..]].concat(),
        None => [&[2], &leaf.separator[..]].concat(),
    }
}

/// The work after the digest: waiting with the kept records as inserts, or done. The cutoff that it waits for.
fn after(state: &mut State, outcome: Outcome) -> Option<Key> {
    state.clear_list();
    state.work.low = 0;
    if outcome.kept.is_empty() {
        state.work.turn = DONE;
        state.work.over = 0;
        state.work.overriding = NO_KEY;
        return None;
    }
    for record in &outcome.kept {
        state.list_insert(record.key, &record.value, record.flag);
    }
    state.work.turn = WAITING;
    state.work.over = 1;
    state.work.overriding = outcome.separator;
    // docs/DECISIONS.md, one floor: from now on no key below the cutoff is let in
    state.work.floor = state.work.cutoff;
    state.work.cutoff()
}

fn outcome(records: Vec<Record>, separator: Key, cutoff: Option<Key>) -> Outcome {
    let (mut groups, left) = steps_one_and_two(records);
    // step 4
    let kept = if left.is_empty() {
        left
    } else if body(&left) >= MERGE_BELOW || cutoff.is_none() {
        groups.push(left);
        Vec::new()
    } else {
        left
    };
    step_five(groups, kept, separator, cutoff)
}

/// The leaves that are cut, and the records left.
fn steps_one_and_two(records: Vec<Record>) -> (Vec<Vec<Record>>, Vec<Record>) {
    let body = body(&records);
    if body > BULK_ABOVE {
        cut(records, BULK_TARGET)
    } else if body > BODY_LIMIT {
        // fixed once: the second leaf has the same target
        cut(records, body / 2)
    } else {
        (Vec::new(), records)
    }
}

/// Step 3: leaves as long as one can be cut.
fn cut(mut records: Vec<Record>, target: usize) -> (Vec<Vec<Record>>, Vec<Record>) {
    let mut leaves = Vec::new();
    while let Some(length) = leaf_length(&records, target) {
        let left = records.split_off(length);
        leaves.push(records);
        records = left;
    }
    (leaves, records)
}

/// How many records the next leaf takes. None: "the remaining records don't reach the target and none overfills".
fn leaf_length(records: &[Record], target: usize) -> Option<usize> {
    for taken in 1..=records.len() {
        let body = body(&records[..taken]);
        // "A record that would pass 4,094 is left, and ends the leaf below target."
        if body > BODY_LIMIT {
            return Some(taken - 1);
        }
        if body >= target {
            return Some(taken);
        }
    }
    None
}

/// Step 5: separators and cutoffs.
fn step_five(
    groups: Vec<Vec<Record>>,
    kept: Vec<Record>,
    mut separator: Key,
    cutoff: Option<Key>,
) -> Outcome {
    // the first key behind each leaf; behind the last there may be none
    let behind = groups.iter().skip(1).chain([&kept]);
    let next_keys: Vec<Option<Key>> = behind.map(|group| Some(group.first()?.key)).collect();
    let mut leaves = Vec::new();
    for (records, next) in groups.into_iter().zip(next_keys) {
        let last = records.last().map(|record| record.key);
        let link = last.zip(next);
        let link = link.and_then(|(last, next)| plain_separate(&last, &next));
        leaves.push(Leaf {
            records,
            separator,
            cutoff: link.or(cutoff),
        });
        separator = link.unwrap_or(separator);
    }
    Outcome {
        leaves,
        kept,
        separator,
    }
}
