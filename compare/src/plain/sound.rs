//! Document 01, "Room and soundness": a function for each clause of its sentence. Where docs/DECISIONS.md settles a choice, it is named.

use super::page::{records_in, value_bytes};
use super::pending::{self, regarded};
use super::work::{Entry, State, Work, CHUNK, DONE, INSERT, NO_KEY, OPEN, WAITING};
use crate::pages::LONGEST_VALUE;
use crate::vectors::answers::Pending;

/// "a body above 0 and under 2,047": what is left with less waits for a merge.
pub const MERGE_BELOW: usize = 2047;

/// `page` has passed 1 to 6 where the work regards it.
pub fn sound(state: &State, page: &[u8]) -> bool {
    let page = regarded(&state.work, page);
    // without these the listed records can't be read
    if !readable(state, page) {
        return false;
    }
    let listed = pending::listed(state, page);
    let rest = pending::rest(&state.work, page);
    listed_records_are_sound(state, page, &listed)
        && pending_records_are_sound(state, &listed, &rest)
        && bounds_are_sound(state)
        && waiting_has_only_inserts_and_a_small_body(state, &listed)
        && done_has_nothing_pending(state)
}

fn readable(state: &State, page: &[u8]) -> bool {
    turn_and_flags_are_listed(&state.work)
        && low_is_in_the_base(&state.work, page)
        && used_entries_are_operations(state)
        && chunks_are_nonempty_and_passed(state)
        && insert_values_stand_without_holes(state)
}

fn listed_records_are_sound(state: &State, page: &[u8], listed: &[Pending]) -> bool {
    unused_entries_are_zero(state)
        && unused_entry_fields_are_zero(state)
        && unused_bytes_are_zero(state)
        && counts_and_sums_agree(state, page, listed)
        && listed_values_are_short(listed)
        && listed_keys_lie_below_those_let_in(&state.work, listed)
}

fn pending_records_are_sound(state: &State, listed: &[Pending], rest: &[Pending]) -> bool {
    let all: Vec<&Pending> = listed.iter().chain(rest).collect();
    pending_fits_list_and_store(state, &all)
        && keys_rise(&all)
        && rest_lies_above_the_last_key(&state.work, rest)
        && pending_keys_are_within_bounds(&state.work, &all)
}

fn bounds_are_sound(state: &State) -> bool {
    let work = &state.work;
    absent_keys_are_zero(work)
        && last_key_is_below_the_cutoff(work)
        && cutoff_comes_with_a_base_above_its_separator(work)
        && override_comes_with_listed_inserts(state)
        && floor_is_where_the_turn_wants_it(work)
}

/// docs/DECISIONS.md: numbers, "a value that isn't listed is unsound".
fn turn_and_flags_are_listed(work: &Work) -> bool {
    let flags = [work.based, work.mode, work.cut, work.over, work.taken];
    [OPEN, WAITING, DONE].contains(&work.turn) && flags.iter().all(|&flag| flag <= 1)
}

/// The passed part is a part of the base. docs/DECISIONS.md: 0 where the page is ignored, which here has no records.
fn low_is_in_the_base(work: &Work, page: &[u8]) -> bool {
    work.low <= records_in(page)
}

/// "Entries are the Rust's operations": an insert or a chunk. docs/DECISIONS.md: kinds and flags are listed numbers.
fn used_entries_are_operations(state: &State) -> bool {
    let operation = |entry: &Entry| matches!(entry.kind, INSERT | CHUNK) && entry.flag <= 1;
    state.work.used <= state.list.len() && state.used_entries().iter().all(operation)
}

/// "chunks are nonempty and lie in the passed part"
fn chunks_are_nonempty_and_passed(state: &State) -> bool {
    let mut chunks = state.used_entries().iter().filter(|e| e.kind == CHUNK);
    chunks.all(|chunk| chunk.from < chunk.to && chunk.to <= state.work.low)
}

/// "Insert values stand in the store from its start, in list order, without holes"
fn insert_values_stand_without_holes(state: &State) -> bool {
    let mut end = 0;
    for insert in state.used_entries().iter().filter(|e| e.kind == INSERT) {
        if insert.from != end || insert.to < insert.from || insert.to > state.store.len() {
            return false;
        }
        end = insert.to;
    }
    end == state.work.filled
}

/// "unused entries .. are zero"
fn unused_entries_are_zero(state: &State) -> bool {
    let unused = &state.list[state.work.used..];
    unused.iter().all(|entry| *entry == Entry::default())
}

/// "unused .. entry fields .. are zero"
fn unused_entry_fields_are_zero(state: &State) -> bool {
    state.used_entries().iter().all(|entry| match entry.kind {
        INSERT => entry.sum == 0,
        _ => entry.flag == 0 && entry.key == NO_KEY,
    })
}

/// "unused .. bytes are zero"
fn unused_bytes_are_zero(state: &State) -> bool {
    state.store[state.work.filled..]
        .iter()
        .all(|&byte| byte == 0)
}

/// "counts and sums agree". Of the listed records, as the Rust's gauge.
fn counts_and_sums_agree(state: &State, page: &[u8], listed: &[Pending]) -> bool {
    let work = &state.work;
    let mut chunks = state.used_entries().iter().filter(|e| e.kind == CHUNK);
    work.count == listed.len()
        && work.bytes == pending::value_bytes(listed)
        && chunks.all(|chunk| chunk.sum == value_bytes(page, chunk.from, chunk.to))
}

/// "listed values are at most 1,332 bytes"
fn listed_values_are_short(listed: &[Pending]) -> bool {
    listed.iter().all(|record| record.length <= LONGEST_VALUE)
}

/// "every listed key lies below each key that No. 13 still lets in". So none of them is let in itself.
fn listed_keys_lie_below_those_let_in(work: &Work, listed: &[Pending]) -> bool {
    !listed.iter().any(|record| work.lets_in(&record.key))
}

/// "Pending records, the base's rest included, may number at most the list's length, and their values at most the store's."
fn pending_fits_list_and_store(state: &State, pending: &[&Pending]) -> bool {
    let bytes: usize = pending.iter().map(|record| record.length).sum();
    pending.len() <= state.list.len() && bytes <= state.store.len()
}

/// "keys rise through the list and on into the base's rest"
fn keys_rise(pending: &[&Pending]) -> bool {
    pending.windows(2).all(|pair| pair[0].key < pair[1].key)
}

/// "that rest lies above the last key taken"
fn rest_lies_above_the_last_key(work: &Work, rest: &[Pending]) -> bool {
    let above = |record: &Pending| work.last_key().is_none_or(|last| record.key > last);
    rest.iter().all(above)
}

/// "every pending key is at or above the current separator and below the cutoff"
fn pending_keys_are_within_bounds(work: &Work, pending: &[&Pending]) -> bool {
    pending
        .iter()
        .all(|record| record.key >= work.separator() && work.is_in_scope(&record.key))
}

/// "`Option<Key>`: a flag beside a key, zeros when absent"
fn absent_keys_are_zero(work: &Work) -> bool {
    (work.cut != 0 || work.cutoff == NO_KEY)
        && (work.over != 0 || work.overriding == NO_KEY)
        && (work.taken != 0 || work.last == NO_KEY)
}

/// "the last key taken is below the cutoff"
fn last_key_is_below_the_cutoff(work: &Work) -> bool {
    work.last_key().is_none_or(|last| work.is_in_scope(&last))
}

/// "a cutoff comes with a base and is above its separator"
fn cutoff_comes_with_a_base_above_its_separator(work: &Work) -> bool {
    let right = |cutoff| work.based != 0 && cutoff > work.latest;
    work.cutoff().is_none_or(right)
}

/// "an override comes with listed inserts"
fn override_comes_with_listed_inserts(state: &State) -> bool {
    let mut entries = state.used_entries().iter();
    state.work.over == 0 || entries.any(|entry| entry.kind == INSERT)
}

/// docs/DECISIONS.md, one floor: the latest separator when open with a base, the cutoff when waiting, and in every turn at or above
/// the current separator. And at or above the latest one, which is the current one again when a digest clears the override: else
/// an open work with no base, override 01, latest separator 09, floor 06 and an insert of 05 is sound, and its digest is not.
fn floor_is_where_the_turn_wants_it(work: &Work) -> bool {
    let of_turn = match work.turn {
        OPEN => work.based == 0 || work.floor == work.latest,
        WAITING => work.floor == work.cutoff,
        _ => true,
    };
    of_turn && work.floor >= work.separator() && work.floor >= work.latest
}

/// "a waiting work has only inserts, an override, a cutoff and a body above 0 and under 2,047"
fn waiting_has_only_inserts_and_a_small_body(state: &State, listed: &[Pending]) -> bool {
    let work = &state.work;
    let body = 34 * listed.len() + pending::value_bytes(listed);
    work.turn != WAITING
        || (state.used_entries().iter().all(|e| e.kind == INSERT)
            && work.over != 0
            && work.cut != 0
            && body > 0
            && body < MERGE_BELOW)
}

/// "a done work has nothing pending"
fn done_has_nothing_pending(state: &State) -> bool {
    state.work.turn != DONE || state.work.used == 0
}
