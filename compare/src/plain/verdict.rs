//! Document 01, "Refusals by number": for each call the lowest number that applies, in the order of its table.

use super::digest::{asked, TICKET};
use super::page::{body, good, key_of, records_in, value_bytes};
use super::pending;
use super::sound::sound;
use super::work::{State, DONE, OPEN, WAITING};
use crate::oracle::io::PAGE_SIZE;
use crate::oracle::Key;
pub use crate::ours::keys::EQUAL_KEYS;
pub use crate::ours::pages::{NO_SUCH_INDEX, SHORT_AREA};
use crate::pages::LONGEST_VALUE;
use crate::vectors::answers::Pending;
use crate::vectors::calls::{Base, Change};
use std::ops::RangeInclusive;

pub const OUT_OF_BOUNDS: u8 = 6;
pub const WRONG_LENGTH: u8 = 7;
pub const UNSOUND: u8 = 8;
pub const OUT_OF_TURN: u8 = 9;
pub const LONG_VALUE: u8 = 12;
pub const TOO_LOW: u8 = 13;
pub const PAST_CUTOFF: u8 = 14;
pub const LIST_FULL: u8 = 15;
pub const STORE_FULL: u8 = 16;

pub const LIST_LENGTHS: RangeInclusive<usize> = 121..=4096;
pub const STORE_LENGTHS: RangeInclusive<usize> = 4096..=65536;

/// The lowest refusal, or none.
pub type Verdict = Result<(), u8>;

pub fn unless(holds: bool, refusal: u8) -> Verdict {
    if holds {
        Ok(())
    } else {
        Err(refusal)
    }
}

/// 6 of a lent page: only its keys against its separator and the cutoff.
fn keys_within(page: &[u8], separator: &Key, cutoff: Option<Key>) -> Verdict {
    let within = |key: Key| key >= *separator && cutoff.is_none_or(|cutoff| key < cutoff);
    let all = (0..records_in(page)).all(|i| within(key_of(page, i)));
    unless(all, OUT_OF_BOUNDS)
}

/// 1 to 6 of a new base, which is checked against its own separator and cutoff alone.
fn new_base(base: &Base, cutoff: Option<Key>) -> Verdict {
    good(&base.page)?;
    let above = cutoff.is_none_or(|cutoff| cutoff > base.separator);
    unless(above, OUT_OF_BOUNDS)?;
    keys_within(&base.page, &base.separator, cutoff)
}

/// 7
fn lengths(state: &State) -> Verdict {
    let right =
        LIST_LENGTHS.contains(&state.list.len()) && STORE_LENGTHS.contains(&state.store.len());
    unless(right, WRONG_LENGTH)
}

/// 1 to 8 of a call that is lent the base's page.
fn lent(state: &State, page: &[u8]) -> Verdict {
    let work = &state.work;
    if work.regards_page() {
        good(page)?;
        keys_within(page, &work.latest, work.cutoff())?;
    }
    lengths(state)?;
    unless(sound(state, page), UNSOUND)
}

pub fn open(state: &State, base: Option<&Base>, cutoff: Option<Key>) -> Verdict {
    match base {
        Some(base) => new_base(base, cutoff)?,
        None => unless(cutoff.is_none(), OUT_OF_BOUNDS)?,
    }
    lengths(state)
}

pub fn ingest(state: &State, page: &[u8], key: &Key, change: &Change) -> Verdict {
    lent(state, page)?;
    unless(state.work.turn == OPEN, OUT_OF_TURN)?;
    let new_length = match change {
        Change::Put { value, .. } => Some(value.len()),
        Change::Delete => None,
    };
    unless(
        new_length.is_none_or(|new| new <= LONGEST_VALUE),
        LONG_VALUE,
    )?;
    unless(state.work.lets_in(key), TOO_LOW)?;
    unless(state.work.is_in_scope(key), PAST_CUTOFF)?;
    match new_length {
        Some(new) => room_for_insert(state, page, key, new),
        None => Ok(()),
    }
}

/// 15 and 16, of what is pending after the call: the dropped record is gone.
fn room_for_insert(state: &State, page: &[u8], key: &Key, length: usize) -> Verdict {
    let mut pending = pending::all(state, page);
    pending.retain(|record| record.key != *key);
    room(state, &pending, 1, length)
}

fn room(state: &State, pending: &[Pending], more: usize, bytes: usize) -> Verdict {
    unless(pending.len() + more <= state.list.len(), LIST_FULL)?;
    let bytes = pending::value_bytes(pending) + bytes;
    unless(bytes <= state.store.len(), STORE_FULL)
}

pub fn digest(state: &State, page: &[u8], area: usize, tickets: usize) -> Verdict {
    lent(state, page)?;
    unless(state.work.turn == OPEN, OUT_OF_TURN)?;
    let pages = asked(body(&pending::records(state, page)));
    let enough = area >= pages * PAGE_SIZE && tickets >= pages * TICKET;
    unless(enough, SHORT_AREA)
}

pub fn next_base(state: &State, base: &Base, cutoff: Option<Key>) -> Verdict {
    new_base(base, cutoff)?;
    lengths(state)?;
    let work = &state.work;
    // an open work is refused by 9 without testing 8
    unless(work.turn != OPEN, OUT_OF_TURN)?;
    unless(sound(state, &[]), UNSOUND)?;
    let Some(named) = work.cutoff() else {
        return Err(OUT_OF_TURN);
    };
    unless(matches!(work.turn, WAITING | DONE), OUT_OF_TURN)?;
    unless(base.separator >= named, TOO_LOW)?;
    let n = records_in(&base.page);
    let bytes = value_bytes(&base.page, 0, n);
    room(state, &pending::all(state, &[]), n, bytes)
}

pub fn remove_cutoff(state: &State) -> Verdict {
    lengths(state)?;
    unless(state.work.turn != OPEN, OUT_OF_TURN)?;
    unless(sound(state, &[]), UNSOUND)?;
    unless(state.work.turn == WAITING, OUT_OF_TURN)
}

pub fn twin(state: &State, page: &[u8], index: usize) -> Verdict {
    lent(state, page)?;
    let pending = pending::all(state, page).len();
    unless(index < pending, NO_SUCH_INDEX)
}
