//! Opening, ingest, next base, cutoff removal, twin and part. Each asks its verdict first and changes nothing when refused.

use super::page::{cell, key_of, records_in, value_bytes};
use super::pending::{self, regarded};
use super::verdict::{self, Verdict};
use super::work::{State, Work, NO_KEY, OPEN};
use crate::oracle::Key;
use crate::vectors::answers::Pending;
use crate::vectors::calls::{Base, Change};

/// Offset and length, in the base page, of a dropped overflow cell that is reported.
pub type Report = Option<(usize, usize)>;

/// M-100: "a mode, chosen at opening and kept in the work record".
pub fn open(state: &mut State, every: bool, base: Option<&Base>, cutoff: Option<Key>) -> Verdict {
    verdict::open(state, base, cutoff)?;
    // docs/DECISIONS.md, one floor: without a base the floor is zeros
    let separator = base.map_or(NO_KEY, |base| base.separator);
    state.work = Work {
        turn: OPEN,
        based: base.is_some().into(),
        mode: every.into(),
        latest: separator,
        cut: cutoff.is_some().into(),
        cutoff: cutoff.unwrap_or(NO_KEY),
        floor: separator,
        ..Work::default()
    };
    state.clear_list();
    Ok(())
}

/// "Base records below the key become pending; an equal one is dropped; the new one is pending behind them."
pub fn ingest(state: &mut State, page: &[u8], key: &Key, change: &Change) -> Result<Report, u8> {
    verdict::ingest(state, page, key, change)?;
    let page = regarded(&state.work, page);
    let n = records_in(page);
    let from = state.work.low;
    let to = (from..n).find(|&i| key_of(page, i) >= *key).unwrap_or(n);
    let equal = to < n && key_of(page, to) == *key;
    if from < to {
        state.list_chunk(from, to, value_bytes(page, from, to));
    }
    if let Change::Put { value, flag } = change {
        state.list_insert(*key, value, *flag);
    }
    state.work.low = to + usize::from(equal);
    state.work.taken = 1;
    state.work.last = *key;
    let told = state.work.mode == 1 || from < to;
    Ok(dropped_overflow(page, to, equal && told))
}

/// "only when the dropped record has its flag set and at least one base record was taken up just before it in the same call"; in
/// M-100's mode "every dropped flagged record is reported".
fn dropped_overflow(page: &[u8], to: usize, told: bool) -> Report {
    if !told {
        return None;
    }
    let (offset, length, flag) = cell(page, to);
    flag.then_some((offset, length))
}

/// The pending inserts and the override stay; the new page's records are its rest.
pub fn next_base(state: &mut State, base: &Base, cutoff: Option<Key>) -> Verdict {
    verdict::next_base(state, base, cutoff)?;
    let work = &mut state.work;
    work.turn = OPEN;
    work.based = 1;
    work.latest = base.separator;
    work.cut = cutoff.is_some().into();
    work.cutoff = cutoff.unwrap_or(NO_KEY);
    work.floor = base.separator;
    Ok(())
}

/// "the work is open again with no base"
pub fn remove_cutoff(state: &mut State) -> Verdict {
    verdict::remove_cutoff(state)?;
    let work = &mut state.work;
    work.turn = OPEN;
    work.based = 0;
    work.cut = 0;
    work.cutoff = NO_KEY;
    Ok(())
}

/// Holder, offset, length, key and flag of a pending record.
pub fn twin(state: &State, page: &[u8], index: usize) -> Result<Pending, u8> {
    verdict::twin(state, page, index)?;
    Ok(pending::all(state, page).swap_remove(index))
}

/// The value of a pending record; empty when refused.
pub fn part<'a>(state: &'a State, page: &'a [u8], index: usize) -> &'a [u8] {
    match twin(state, page, index) {
        Ok(place) => pending::part(&place, &state.store, page),
        Err(_) => &[],
    }
}
