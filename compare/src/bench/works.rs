//! Calls on a work. Ours check work, list, store and page at every call, as document 01 demands; the Rust never does. Twin and part have no
//! other side and do little beside the check: their lines say how the check grows with what is lent.

use super::{alone, print_both, report, report_used_up, time, UsedUp, SEED};
use crate::oracle::updater::Updater;
use crate::oracle::Key;
use crate::ours::work::bare;
use crate::pages::{made, LONGEST_VALUE};
use crate::plain::calls::{ingest, open};
use crate::plain::digest::{asked, digest, TICKET};
use crate::plain::page::{build, Record};
use crate::plain::work::{State, WAITING};
use crate::rng::Rng;
use crate::side::unopened;
use crate::vectors::calls::{Base, Call, Change, Instead};
use std::cell::RefCell;
use std::hint::black_box;

const CALLS: usize = 256;
/// Works that are made before a call on each is timed: of ours few, so that most stay in the cache, of the Rust's, whose calls may be
/// short, more.
pub const WORKS: usize = 16;
const RUST_WORKS: usize = 256;
const RECORDS: usize = 100;
pub const VALUE: usize = 4;
const CHANGES: usize = 200;
/// Rounds of which the least times are taken.
const STEP_ROUNDS: usize = 1001;
/// Records of a small base, which asks for a merge.
const SMALL: usize = 30;
/// Lists are the shortest, one that takes all the changes, and the longest; stores the shortest.
const LISTS: [usize; 3] = [121, 512, 4096];
pub const STORE: usize = 4096;
const CUTOFF: Key = [0x80; 32];
const NEXT_CUTOFF: Key = [0xff; 32];
/// Above all others.
const LAST_KEY: Key = [0xff; 32];

/// Whether the sides agree; else nothing is timed.
pub fn run() -> bool {
    let mut rng = Rng::new(SEED);
    let base = Base {
        page: made::page_of(&mut rng, RECORDS, VALUE),
        separator: [0; 32],
    };
    let mut keys: Vec<Key> = (0..CHANGES).map(|_| rng.key()).collect();
    keys.sort();
    let (small, next) = (small_base(0), small_base(CUTOFF[0]));
    bench_opening(&base)
        && bench_ingest(&base, &keys)
        && bench_step(&small, &keys[..SMALL])
        && bench_digests(&base, &small, &keys)
        && bench_next_base(&small, &next)
        && bench_cutoff_removal(&small)
        && bench_twin(&base, &keys)
        && bench_part(&base, &keys)
        && bench_is_in_scope(&small, &keys)
        && bench_separator(&small)
}

/// A base of few records, whose separator is so many times this byte.
fn small_base(byte: u8) -> Base {
    let record = |i| Record {
        key: [byte + i; 32],
        value: vec![i; VALUE],
        flag: false,
    };
    let records: Vec<Record> = (0..SMALL as u8).map(record).collect();
    Base {
        page: build(&records),
        separator: [byte; 32],
    }
}

/// A work with so many new values.
pub fn changed(base: &Base, keys: &[Key], list: usize, store: usize) -> Option<State> {
    changed_under(base, None, keys, list, store)
}

fn changed_under(
    base: &Base,
    cutoff: Option<Key>,
    keys: &[Key],
    list: usize,
    store: usize,
) -> Option<State> {
    let mut state = unopened(list, store);
    open(&mut state, false, Some(base), cutoff).ok()?;
    for key in keys {
        let value = vec![7; VALUE];
        let put = Change::Put { value, flag: false };
        ingest(&mut state, &base.page, key, &put).ok()?;
    }
    Some(state)
}

/// A work that waits for a merge.
fn waiting(base: &Base, list: usize) -> Option<State> {
    let mut state = changed_under(base, Some(CUTOFF), &[], list, STORE)?;
    let (mut area, mut tickets) = (vec![0; 4096], vec![0; 65]);
    digest(&mut state, &base.page, &mut area, &mut tickets).ok()?;
    (state.work.turn == WAITING).then_some(state)
}

fn bench_opening(base: &Base) -> bool {
    LISTS.iter().all(|&list| {
        let mut state = unopened(list, STORE);
        let opened = Updater::new(Some(base), None);
        let rust = || {
            for _ in 0..CALLS {
                black_box(opened.open_bare(base.separator, Some(NEXT_CUTOFF)));
            }
        };
        let mut accepted = true;
        let ours = || {
            for _ in 0..CALLS {
                accepted &= bare::open(black_box(&mut state), base, &NEXT_CUTOFF);
            }
        };
        let inputs = format!("a base of 100 records, list {list}");
        report("opening", &inputs, CALLS, rust, ours);
        accepted
    })
}

/// All changes, one after the other, from an opening on.
fn bench_ingest(base: &Base, keys: &[Key]) -> bool {
    LISTS[1..].iter().all(|&list| {
        let Some(opened) = changed(base, &[], list, STORE) else {
            return false;
        };
        let value = [7; VALUE];
        let calls: Vec<Call> = keys.iter().map(|key| put_call(*key, &value)).collect();
        let rust = || {
            let mut rust = Updater::of(&opened, &base.page);
            for call in &calls {
                black_box(rust.answer(call));
            }
        };
        let mut accepted = true;
        let ours = || {
            let mut state = opened.clone();
            for key in keys {
                accepted &= bare::put(&mut state, &base.page, key, &value);
            }
            black_box(&state.store);
        };
        let inputs = format!("200 changes over 100 records, list {list}");
        report("ingest", &inputs, CHANGES, rust, ours);
        accepted
    })
}

/// An ingest's step: what it takes beyond the check. An ingest that is refused for its value's length has checked all and done nothing,
/// so the step is what an accepted one takes less a refused one. Little is lent, so that the check is short, and least times are
/// taken: of a long check the difference would be noise.
fn bench_step(base: &Base, keys: &[Key]) -> bool {
    let Some(opened) = changed(base, &[], 121, STORE) else {
        return false;
    };
    let value = [7; VALUE];
    let long = [7; LONGEST_VALUE + 1];
    let calls: Vec<Call> = keys.iter().map(|key| put_call(*key, &value)).collect();
    let (mut rust, mut once, mut with_refused) = (f64::INFINITY, f64::INFINITY, f64::INFINITY);
    for _ in 0..STEP_ROUNDS {
        rust = rust.min(time(keys.len(), &mut || {
            let mut rust = Updater::of(&opened, &base.page);
            calls.iter().for_each(|call| {
                black_box(rust.answer(call));
            });
        }));
        once = once.min(time(keys.len(), &mut || {
            let mut state = opened.clone();
            for key in keys {
                bare::put(&mut state, &base.page, key, &value);
            }
            black_box(&state.store);
        }));
        with_refused = with_refused.min(time(keys.len(), &mut || {
            let mut state = opened.clone();
            for key in keys {
                bare::put(&mut state, &base.page, key, &long);
                bare::put(&mut state, &base.page, key, &value);
            }
            black_box(&state.store);
        }));
    }
    let step = once - (with_refused - once);
    print_both("its step", "30 changes over 30 records", rust, step);
    true
}

/// A digest of an untouched base, with and without a cutoff, of one with 200 changes, and of a small one, which answers a merge request.
fn bench_digests(base: &Base, small: &Base, keys: &[Key]) -> bool {
    let untouched = ("an untouched base", base, None, 0);
    let under_cutoff = ("an untouched base, a cutoff", base, Some(NEXT_CUTOFF), 0);
    let changes = ("200 changes over 100 records", base, None, CHANGES);
    let merge = ("30 records, a merge request", small, Some(CUTOFF), 0);
    let cases = [
        (untouched, 121),
        (untouched, 4096),
        (under_cutoff, 121),
        (under_cutoff, 4096),
        (changes, 512),
        (changes, 4096),
        (merge, 121),
        (merge, 4096),
    ];
    cases
        .iter()
        .all(|&((inputs, base, cutoff, changes), list)| {
            let inputs = format!("{inputs}, list {list}");
            let state = changed_under(base, cutoff, &keys[..changes], list, STORE);
            state.is_some_and(|state| bench_digest(&inputs, base, &state))
        })
}

/// Area and tickets, long enough for whatever list and store hold.
pub fn area_of(state: &State) -> [Vec<u8>; 2] {
    let pages = asked(34 * state.list.len() + state.store.len());
    [vec![0; pages * 4096], vec![0; pages * TICKET]]
}

fn bench_digest(inputs: &str, base: &Base, state: &State) -> bool {
    let mut area = area_of(state);
    let [pages, tickets] = &mut area;
    let ours = bare::digest(&mut state.clone(), &base.page, pages, tickets);
    let rust = Updater::of(state, &base.page).digest_bare();
    let long = [7; LONGEST_VALUE + 1];
    let checked = bare::put(&mut state.clone(), &base.page, &LAST_KEY, &long);
    if ours != Ok(rust) || checked {
        return false;
    }
    let lent = RefCell::new(area);
    report_used_up(
        "digest",
        inputs,
        UsedUp {
            count: WORKS,
            make: || Updater::of(state, &base.page),
            run: |rust: &mut Updater| {
                black_box(rust.digest_bare());
            },
        },
        UsedUp {
            count: WORKS,
            make: || state.clone(),
            run: |state: &mut State| {
                let [pages, tickets] = &mut *lent.borrow_mut();
                black_box(bare::digest(state, &base.page, pages, tickets).ok());
            },
        },
        // An ingest that is refused for its value's length has checked all that a digest checks but its area, and done nothing else. A digest
        // that is refused for its area has split the list.
        Some(|state: &mut State| {
            black_box(bare::put(state, &base.page, &LAST_KEY, &long));
        }),
    );
    true
}

fn bench_next_base(small: &Base, next: &Base) -> bool {
    let shared = Updater::new(Some(next), None).node();
    LISTS.iter().all(|&list| {
        let (Some(state), Some(node)) = (waiting(small, list), &shared) else {
            return false;
        };
        if !bare::next_base(&mut state.clone(), next, &NEXT_CUTOFF) {
            return false;
        }
        report_used_up(
            "next base",
            &format!("30 records, 30 pending, list {list}"),
            UsedUp {
                count: RUST_WORKS,
                make: || Updater::of(&state, &[]),
                run: |rust: &mut Updater| {
                    rust.reset_base_bare(node, next.separator, Some(NEXT_CUTOFF));
                },
            },
            UsedUp {
                count: WORKS,
                make: || state.clone(),
                run: |state: &mut State| {
                    black_box(bare::next_base(state, next, &NEXT_CUTOFF));
                },
            },
            None::<fn(&mut State)>,
        );
        true
    })
}

fn bench_cutoff_removal(small: &Base) -> bool {
    LISTS.iter().all(|&list| {
        let Some(state) = waiting(small, list) else {
            return false;
        };
        if !bare::remove_cutoff(&mut state.clone()) {
            return false;
        }
        report_used_up(
            "cutoff removal",
            &format!("30 pending, list {list}"),
            UsedUp {
                count: RUST_WORKS,
                make: || Updater::of(&state, &[]),
                run: Updater::remove_cutoff_bare,
            },
            UsedUp {
                count: WORKS,
                make: || state.clone(),
                run: |state: &mut State| {
                    black_box(bare::remove_cutoff(state));
                },
            },
            None::<fn(&mut State)>,
        );
        true
    })
}

fn bench_twin(base: &Base, keys: &[Key]) -> bool {
    let cases = [
        (0, 121, 4096),
        (CHANGES, 512, 4096),
        (CHANGES, 4096, 4096),
        (CHANGES, 4096, 65536),
    ];
    bench_alone("twin", base, keys, &cases, |state, page| {
        bare::twin(state, page, 0).refusal == 0
    })
}

fn bench_part(base: &Base, keys: &[Key]) -> bool {
    let out = RefCell::new([0; VALUE]);
    let cases = [(0, 121, 4096), (CHANGES, 512, 4096)];
    bench_alone("part", base, keys, &cases, |state, page| {
        bare::part(state, page, 0, &mut *out.borrow_mut()) == VALUE
    })
}

/// A call that only reads and has no other side, on works with so many changes, entries and store bytes. Whether it was accepted.
fn bench_alone(
    call: &str,
    base: &Base,
    keys: &[Key],
    cases: &[(usize, usize, usize)],
    run: impl Fn(&mut State, &[u8]) -> bool,
) -> bool {
    cases.iter().all(|&(changes, list, store)| {
        let Some(mut state) = changed(base, &keys[..changes], list, store) else {
            return false;
        };
        let inputs = format!("{changes} changes, list {list}, store {store}");
        let mut accepted = true;
        alone(call, &inputs, CALLS, || {
            for _ in 0..CALLS {
                accepted &= run(black_box(&mut state), &base.page);
            }
        });
        accepted
    })
}

fn bench_is_in_scope(small: &Base, keys: &[Key]) -> bool {
    let Some(state) = changed_under(small, Some(CUTOFF), &[], 121, STORE) else {
        return false;
    };
    let (work, opened) = (&state.work, Updater::of(&state, &small.page));
    if (keys.iter()).any(|key| bare::is_in_scope(work, key) != opened.is_in_scope_bare(key)) {
        return false;
    }
    let rust = || {
        for key in keys {
            black_box(opened.is_in_scope_bare(black_box(key)));
        }
    };
    let ours = || {
        for key in keys {
            black_box(bare::is_in_scope(black_box(work), black_box(key)));
        }
    };
    let inputs = "reads the work record alone";
    report("is_in_scope", inputs, keys.len(), rust, ours);
    true
}

/// Of a work that waits, so that there is an override.
fn bench_separator(small: &Base) -> bool {
    let Some(state) = waiting(small, 121) else {
        return false;
    };
    let (work, waiting) = (&state.work, Updater::of(&state, &[]));
    let mut out = [0; 32];
    bare::separator(work, &mut out);
    if out != waiting.separator_bare() {
        return false;
    }
    let rust = || {
        for _ in 0..CALLS {
            black_box(black_box(&waiting).separator_bare());
        }
    };
    let ours = || {
        for _ in 0..CALLS {
            bare::separator(black_box(work), &mut out);
            black_box(&out);
        }
    };
    let inputs = "reads the work record alone";
    report("separator", inputs, CALLS, rust, ours);
    true
}

pub fn put_call(key: Key, value: &[u8]) -> Call {
    Call::Ingest {
        key,
        change: Change::Put {
            value: value.to_vec(),
            flag: false,
        },
        instead: Instead::default(),
    }
}
