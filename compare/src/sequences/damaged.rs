//! Works damaged in one field. A damage that no sound work can have must be refused by 8; after any other the call is refused,
//! or the work is sound and the Rust with the same fields agrees.

use super::changed::change_a_bit;
use super::made::{length_towards, put};
use super::pair::{Due, Pair};
use super::refused::lowest_let_in;
use crate::oracle::Key;
use crate::pages::made::{above, below, bytes};
use crate::pages::LONGEST_VALUE;
use crate::plain::page::{build, key_of, records_in};
use crate::plain::pending::regarded;
use crate::plain::side::Plain;
use crate::plain::sound::MERGE_BELOW;
use crate::plain::work::{Entry, Work, CHUNK, DONE, INSERT, NO_KEY, OPEN, WAITING};
use crate::random::{Mismatch, Tally};
use crate::rng::Rng;
use crate::vectors::calls::{Base, Call, Change, Instead};

const BOUNDS: u8 = 6;
const SOUNDNESS: u8 = 8;
const TURN: u8 = 9;

/// Damages a work, and says by which number a call that is lent its page is then refused; None where the work has nothing
/// that could be damaged so.
type Damage = fn(&mut Rng, &mut Plain) -> Option<u8>;

const DAMAGES: [Damage; 21] = [
    unknown_turn,
    unknown_flag,
    low_past_the_base,
    wrong_number,
    absent_key,
    floor_elsewhere,
    unused_entry,
    unused_byte,
    insert_field,
    chunk_field,
    swapped_entries,
    long_insert,
    first_key_below_separator,
    last_listed_key_let_in,
    last_key_at_cutoff,
    last_key_in_the_rest,
    cutoff_at_separator,
    override_without_inserts,
    waiting_without,
    waiting_with_a_leaf,
    other_turn,
];

pub fn run(rng: &mut Rng, plain: &Plain, tally: &mut Tally) -> Result<(), Mismatch> {
    for _ in 0..6 {
        let mut damaged = plain.clone();
        if let Some((call, due)) = call_on_damaged(rng, plain, &mut damaged) {
            Pair::run_on_damaged(&damaged, &call, Some(due), tally)?;
        }
        let mut changed = plain.clone();
        change_a_bit(rng, &mut changed);
        let (call, _) = call(rng, plain, &changed, 0);
        Pair::run_on_damaged(&changed, &call, None, tally)?;
    }
    Ok(())
}

/// Damages a copy of the work; a call on it, and its refusal. None where the work has nothing that could be damaged so.
pub fn call_on_damaged(rng: &mut Rng, plain: &Plain, damaged: &mut Plain) -> Option<(Call, u8)> {
    let damage = DAMAGES[rng.between(0, DAMAGES.len() - 1)];
    let number = damage(rng, damaged)?;
    Some(call(rng, plain, damaged, number))
}

/// A call that the sound work might accept, and its refusal on the damaged one. Next base and cutoff removal are not lent the
/// page, and answer 9 for an open work before they look further.
fn call(rng: &mut Rng, plain: &Plain, damaged: &Plain, number: u8) -> (Call, u8) {
    if rng.between(0, 4) > 1 {
        return (call_with_page(rng, plain), number);
    }
    let number = match damaged.state.work.turn {
        OPEN => TURN,
        _ => SOUNDNESS,
    };
    (call_between_bases(rng, plain), number)
}

fn call_between_bases(rng: &mut Rng, plain: &Plain) -> Call {
    let instead = Instead::default();
    if rng.between(0, 1) == 0 {
        return Call::Uncut { instead };
    }
    Call::Next {
        base: Base {
            page: build(&[]),
            separator: plain.state.work.cutoff,
        },
        cutoff: None,
        instead,
    }
}

fn call_with_page(rng: &mut Rng, plain: &Plain) -> Call {
    let instead = Instead::default();
    match rng.between(0, 2) {
        0 => Call::Twin { index: 0, instead },
        1 => Call::Digest {
            area: 12 * 4096,
            tickets: 12 * 65,
            instead,
        },
        _ => Call::Ingest {
            key: lowest_let_in(&plain.state.work),
            change: match rng.between(0, 1) {
                0 => Change::Delete,
                _ => put(rng, 3),
            },
            instead,
        },
    }
}

/// docs/DECISIONS.md: "Of an unknown turn the page is ignored", so that any bytes are lent.
fn unknown_turn(rng: &mut Rng, plain: &mut Plain) -> Due {
    plain.state.work.turn = [0, 4, 255][rng.between(0, 2)];
    plain.page = bytes(rng, 17);
    Some(SOUNDNESS)
}

/// Flags that say which page and bounds count are damaged only where they are set, so that 1 to 6 stay as they were. The mode is one.
fn unknown_flag(rng: &mut Rng, plain: &mut Plain) -> Due {
    let work = &mut plain.state.work;
    let flag = match rng.between(0, 4) {
        0 => Some(&mut work.based).filter(|flag| **flag == 1),
        1 => Some(&mut work.cut).filter(|flag| **flag == 1),
        2 => Some(&mut work.over),
        3 => Some(&mut work.mode),
        _ => Some(&mut work.taken),
    }?;
    *flag = [2, 255][rng.between(0, 1)];
    Some(SOUNDNESS)
}

fn low_past_the_base(rng: &mut Rng, plain: &mut Plain) -> Due {
    let n = records_in(regarded(&plain.state.work, &plain.page));
    plain.state.work.low = [n + 1, usize::MAX][rng.between(0, 1)];
    Some(SOUNDNESS)
}

/// Entries and bytes in use, count and sum.
fn wrong_number(rng: &mut Rng, plain: &mut Plain) -> Due {
    let work = &mut plain.state.work;
    let numbers = [
        &mut work.used,
        &mut work.filled,
        &mut work.count,
        &mut work.bytes,
    ];
    let number = numbers.into_iter().nth(rng.between(0, 3))?;
    let less = number.wrapping_sub(1);
    *number = [*number + 1, less, usize::MAX][rng.between(0, 2)];
    Some(SOUNDNESS)
}

fn absent_key(rng: &mut Rng, plain: &mut Plain) -> Due {
    let work = &mut plain.state.work;
    let key = match rng.between(0, 2) {
        0 => Some(&mut work.cutoff).filter(|_| work.cut == 0),
        1 => Some(&mut work.overriding).filter(|_| work.over == 0),
        _ => Some(&mut work.last).filter(|_| work.taken == 0),
    }?;
    key[rng.between(0, 31)] = 1;
    Some(SOUNDNESS)
}

fn floor_elsewhere(rng: &mut Rng, plain: &mut Plain) -> Due {
    let work = &mut plain.state.work;
    if work.turn == DONE || (work.turn == OPEN && work.based == 0) {
        return None;
    }
    let floor = [below(&work.floor), above(&work.floor)][rng.between(0, 1)];
    let moved = floor != work.floor;
    work.floor = floor;
    moved.then_some(SOUNDNESS)
}

fn unused_entry(rng: &mut Rng, plain: &mut Plain) -> Due {
    let (used, length) = (plain.state.work.used, plain.state.list.len());
    if used == length {
        return None;
    }
    let place = [used, length - 1, rng.between(used, length - 1)][rng.between(0, 2)];
    let entry = &mut plain.state.list[place];
    match rng.between(0, 5) {
        0 => entry.kind = 1,
        1 => entry.flag = 1,
        2 => entry.from = 1,
        3 => entry.to = 1,
        4 => entry.sum = 1,
        _ => entry.key[rng.between(0, 31)] = 1,
    }
    Some(SOUNDNESS)
}

fn unused_byte(rng: &mut Rng, plain: &mut Plain) -> Due {
    let (filled, length) = (plain.state.work.filled, plain.state.store.len());
    if filled == length {
        return None;
    }
    let place = [filled, length - 1, rng.between(filled, length - 1)][rng.between(0, 2)];
    plain.state.store[place] = 1;
    Some(SOUNDNESS)
}

fn used_of_kind<'a>(rng: &mut Rng, plain: &'a mut Plain, kind: u8) -> Option<&'a mut Entry> {
    let used = plain.state.list[..plain.state.work.used].iter_mut();
    let mut used: Vec<&mut Entry> = used.filter(|entry| entry.kind == kind).collect();
    let at = rng.between(0, used.len().checked_sub(1)?);
    Some(used.swap_remove(at))
}

fn insert_field(rng: &mut Rng, plain: &mut Plain) -> Due {
    let insert = used_of_kind(rng, plain, INSERT)?;
    match rng.between(0, 6) {
        0 => insert.kind = 0,
        1 => insert.kind = 3,
        2 => insert.flag = 2,
        3 => insert.from += 1,
        4 => insert.to += 1,
        5 => insert.to = usize::MAX,
        _ => insert.sum = 1,
    }
    Some(SOUNDNESS)
}

fn chunk_field(rng: &mut Rng, plain: &mut Plain) -> Due {
    let low = plain.state.work.low;
    let chunk = used_of_kind(rng, plain, CHUNK)?;
    match rng.between(0, 7) {
        0 => chunk.kind = 3,
        1 => chunk.flag = 1,
        2 => chunk.key[rng.between(0, 31)] = 1,
        3 => chunk.sum += 1,
        4 => chunk.from = chunk.to,
        5 => chunk.to = low + 1,
        6 => chunk.to = usize::MAX,
        _ => chunk.from += 1,
    }
    Some(SOUNDNESS)
}

fn swapped_entries(rng: &mut Rng, plain: &mut Plain) -> Due {
    let at = rng.between(1, plain.state.work.used.checked_sub(1).filter(|&n| n > 0)?);
    plain.state.list.swap(at - 1, at);
    Some(SOUNDNESS)
}

/// Two inserts in a row share their bytes otherwise: the first is over 1,332, and all counts and sums agree.
fn long_insert(_: &mut Rng, plain: &mut Plain) -> Due {
    let used = &mut plain.state.list[..plain.state.work.used];
    let at = used.windows(2).position(|pair| {
        pair.iter().all(|entry| entry.kind == INSERT) && pair[1].to - pair[0].from > LONGEST_VALUE
    })?;
    let middle = used[at].from + LONGEST_VALUE + 1;
    used[at].to = middle;
    used[at + 1].from = middle;
    Some(SOUNDNESS)
}

fn first_key_below_separator(_: &mut Rng, plain: &mut Plain) -> Due {
    let separator = plain.state.work.separator();
    let first = plain.state.list.first_mut()?;
    if first.kind != INSERT || separator == NO_KEY {
        return None;
    }
    first.key = below(&separator);
    Some(SOUNDNESS)
}

fn last_listed_key_let_in(_: &mut Rng, plain: &mut Plain) -> Due {
    let key = lowest_let_in(&plain.state.work);
    let at = plain.state.work.used.checked_sub(1)?;
    let last = &mut plain.state.list[at];
    if last.kind != INSERT || !plain.state.work.lets_in(&key) {
        return None;
    }
    last.key = key;
    Some(SOUNDNESS)
}

fn last_key_at_cutoff(_: &mut Rng, plain: &mut Plain) -> Due {
    let work = &mut plain.state.work;
    work.last = work.cutoff()?;
    work.taken = 1;
    Some(SOUNDNESS)
}

fn last_key_in_the_rest(rng: &mut Rng, plain: &mut Plain) -> Due {
    let page = regarded(&plain.state.work, &plain.page);
    let last = records_in(page).checked_sub(1)?;
    let low = plain.state.work.low;
    if low > last {
        return None;
    }
    let key: Key = key_of(page, rng.between(low, last));
    plain.state.work.taken = 1;
    plain.state.work.last = key;
    Some(SOUNDNESS)
}

/// docs/DECISIONS.md, 6 has two forms: 6 if the page has a record, 8 if it has none.
fn cutoff_at_separator(_: &mut Rng, plain: &mut Plain) -> Due {
    let n = records_in(regarded(&plain.state.work, &plain.page));
    let work = &mut plain.state.work;
    work.latest = work.cutoff()?;
    work.floor = work.latest;
    Some(if n > 0 { BOUNDS } else { SOUNDNESS })
}

fn override_without_inserts(_: &mut Rng, plain: &mut Plain) -> Due {
    let mut used = plain.state.used_entries().iter();
    if used.any(|entry| entry.kind == INSERT) {
        return None;
    }
    let work = &mut plain.state.work;
    work.over = 1;
    work.overriding = work.latest;
    Some(SOUNDNESS)
}

fn waiting_without(rng: &mut Rng, plain: &mut Plain) -> Due {
    let work = &mut plain.state.work;
    if work.turn != WAITING {
        return None;
    }
    match rng.between(0, 2) {
        0 => work.based = 0,
        1 => (work.cut, work.cutoff) = (0, NO_KEY),
        _ => (work.over, work.overriding) = (0, NO_KEY),
    }
    Some(SOUNDNESS)
}

/// More inserts than a waiting work can have: with them the body is 2,047, where a byte less would do.
fn waiting_with_a_leaf(rng: &mut Rng, plain: &mut Plain) -> Due {
    let state = &mut plain.state;
    let body = |work: &Work| 34 * work.count + work.bytes;
    while state.work.turn == WAITING && body(&state.work) < MERGE_BELOW {
        let key = above(&state.used_entries().last()?.key);
        let length = length_towards(body(&state.work), MERGE_BELOW)?;
        if key >= state.work.cutoff || state.work.filled + length > state.store.len() {
            return None;
        }
        state.list_insert(key, &bytes(rng, length), false);
    }
    (state.work.turn == WAITING).then_some(SOUNDNESS)
}

/// A done work may look like an open one, so that is left out.
fn other_turn(_: &mut Rng, plain: &mut Plain) -> Due {
    let work = &mut plain.state.work;
    work.turn = match work.turn {
        OPEN if work.used + work.low > 0 => DONE,
        WAITING => DONE,
        _ => WAITING,
    };
    Some(SOUNDNESS)
}
