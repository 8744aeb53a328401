//! The pending records: those of the list, entry by entry, then the base's rest. "The value of a pending record is handed back
//! as a part of whichever of the two holds it, store or base page."

use super::page::{cell, key_of, records_in, Record};
use super::work::{Entry, State, Work, INSERT};
use crate::vectors::answers::{Holder, Pending};

/// The page as the work regards it: no bytes where it is ignored.
pub fn regarded<'a>(work: &Work, page: &'a [u8]) -> &'a [u8] {
    if work.regards_page() {
        page
    } else {
        &[]
    }
}

fn of_base(page: &[u8], i: usize) -> Pending {
    let (offset, length, flag) = cell(page, i);
    Pending {
        holder: Holder::Page,
        offset,
        length,
        flag,
        key: key_of(page, i),
    }
}

fn of_entry(entry: &Entry, page: &[u8]) -> Vec<Pending> {
    if entry.kind != INSERT {
        return (entry.from..entry.to).map(|i| of_base(page, i)).collect();
    }
    vec![Pending {
        holder: Holder::Store,
        offset: entry.from,
        length: entry.to - entry.from,
        flag: entry.flag != 0,
        key: entry.key,
    }]
}

/// The records of the list; `page` as regarded.
pub fn listed(state: &State, page: &[u8]) -> Vec<Pending> {
    let entries = state.used_entries().iter();
    entries.flat_map(|entry| of_entry(entry, page)).collect()
}

/// The base's records that are not passed yet; `page` as regarded.
pub fn rest(work: &Work, page: &[u8]) -> Vec<Pending> {
    (work.low..records_in(page))
        .map(|i| of_base(page, i))
        .collect()
}

/// All pending records of a sound work, in order.
pub fn all(state: &State, page: &[u8]) -> Vec<Pending> {
    let page = regarded(&state.work, page);
    let mut all = listed(state, page);
    all.extend(rest(&state.work, page));
    all
}

/// The bytes of a pending record's value.
pub fn part<'a>(pending: &Pending, store: &'a [u8], page: &'a [u8]) -> &'a [u8] {
    let holder = match pending.holder {
        Holder::Store => store,
        Holder::Page => page,
    };
    &holder[pending.offset..][..pending.length]
}

pub fn records(state: &State, page: &[u8]) -> Vec<Record> {
    let record = |pending: &Pending| Record {
        key: pending.key,
        value: part(pending, &state.store, page).to_vec(),
        flag: pending.flag,
    };
    all(state, page).iter().map(record).collect()
}

pub fn value_bytes(pending: &[Pending]) -> usize {
    pending.iter().map(|record| record.length).sum()
}
