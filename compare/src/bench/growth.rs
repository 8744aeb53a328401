//! `compare growth`: how the times of ingest and digest grow with the records that are listed, the entries of the list and the bytes of the
//! store, each by itself. Rows for tools/plot-growth: the call, what grows, how much of it there is, and both sides' nanoseconds.

use super::works::{area_of, changed, put_call, STORE, VALUE, WORKS};
use super::{medians, UsedUp, ROUNDS, SEED};
use crate::oracle::updater::Updater;
use crate::oracle::Key;
use crate::ours::work::bare;
use crate::pages::made;
use crate::plain::work::State;
use crate::rng::Rng;
use crate::vectors::calls::Base;
use std::cell::RefCell;
use std::hint::black_box;

/// Few enough that the shortest list has room for them and the listed ones.
const BASE_RECORDS: usize = 30;
const LISTED: usize = 50;

const RECORDS: [usize; 10] = [0, 100, 200, 300, 400, 500, 600, 700, 800, 900];
const ROOMY: usize = 1024;
const LISTS: [usize; 8] = [121, 512, 1024, 1536, 2048, 2560, 3328, 4096];
const STORES: [usize; 6] = [4096, 16384, 28672, 40960, 53248, 65536];

/// The key of the ingest that is timed, behind all others.
const LAST: Key = [0xff; 32];

/// Whether every call was accepted and the sides agree.
pub fn run() -> bool {
    println!("# tools/with-nomt tools/compare growth");
    println!("# nanoseconds for a call, median of {ROUNDS} rounds; a base of {BASE_RECORDS} records, values of {VALUE} bytes");
    println!("# axis records: records listed; a list of {ROOMY} entries, a store of {STORE} bytes");
    println!(
        "# axis entries: entries of the list; {LISTED} records listed, a store of {STORE} bytes"
    );
    println!("# axis store: bytes of the store; {LISTED} records listed, a list of 121 entries");
    println!("# columns: call, axis, at, the Rust, ours");
    let mut rng = Rng::new(SEED);
    let base = Base {
        page: made::page_of(&mut rng, BASE_RECORDS, VALUE),
        separator: [0; 32],
    };
    let most = RECORDS.into_iter().max().unwrap_or(0);
    let keys: Vec<Key> = (0..most).map(|_| rng.key()).collect();
    let row = |axis, at, listed, list, store| {
        // a part of them is spread over the base as all of them are
        let mut keys = keys[..listed].to_vec();
        keys.sort();
        let state = changed(&base, &keys, list, store);
        state.is_some_and(|state| grown(&format!("{axis} {at}"), &base, &state))
    };
    RECORDS.iter().all(|&n| row("records", n, n, ROOMY, STORE))
        && LISTS.iter().all(|&n| row("entries", n, LISTED, n, STORE))
        && STORES.iter().all(|&n| row("store", n, LISTED, 121, n))
}

/// A row for each of the two calls on this work.
fn grown(place: &str, base: &Base, state: &State) -> bool {
    ingest(place, base, state) && digest(place, base, state)
}

fn ingest(place: &str, base: &Base, state: &State) -> bool {
    let value = [7; VALUE];
    let call = put_call(LAST, &value);
    if !bare::put(&mut state.clone(), &base.page, &LAST, &value) {
        return false;
    }
    let rust = UsedUp {
        count: WORKS,
        make: || Updater::of(state, &base.page),
        run: |rust: &mut Updater| _ = black_box(rust.answer(&call)),
    };
    let ours = UsedUp {
        count: WORKS,
        make: || state.clone(),
        run: |state: &mut State| _ = black_box(bare::put(state, &base.page, &LAST, &value)),
    };
    let [rust, ours, _] = medians(&rust, &ours, None::<&fn(&mut State)>);
    println!("ingest {place} {rust:.1} {ours:.1}");
    true
}

fn digest(place: &str, base: &Base, state: &State) -> bool {
    let lent = RefCell::new(area_of(state));
    let run_ours = |state: &mut State| {
        let [pages, tickets] = &mut *lent.borrow_mut();
        black_box(bare::digest(state, &base.page, pages, tickets))
    };
    let leaves = Updater::of(state, &base.page).digest_bare();
    if run_ours(&mut state.clone()) != Ok(leaves) {
        return false;
    }
    let rust = UsedUp {
        count: WORKS,
        make: || Updater::of(state, &base.page),
        run: |rust: &mut Updater| _ = black_box(rust.digest_bare()),
    };
    let ours = UsedUp {
        count: WORKS,
        make: || state.clone(),
        run: |state: &mut State| _ = run_ours(state),
    };
    let [rust, ours, _] = medians(&rust, &ours, None::<&fn(&mut State)>);
    println!("digest {place} {rust:.1} {ours:.1}");
    true
}
