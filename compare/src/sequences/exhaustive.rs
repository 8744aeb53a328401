//! `compare exhaustive CALLS`: every sequence of up to so many calls over four keys and six value sizes, from five openings in both modes.
//! A refused call changes nothing, so no sequence goes on behind one: what would follow is a shorter sequence.

use super::pair::Pair;
use crate::oracle::Key;
use crate::plain::digest::{asked, TICKET};
use crate::plain::page::{body, build, Record};
use crate::plain::pending;
use crate::random::{Mismatch, Tally};
use crate::vectors::calls::{Base, Call, Change, Instead};

const SIZES: [usize; 6] = [0, 989, 990, 1330, 1331, 1332];
const FIRST_BYTES: [u8; 4] = [0x10, 0x13, 0x80, 0xe0];
const CUTOFF: u8 = 0xf0;
const STORE: usize = 12000;

fn key(first: u8) -> Key {
    let mut key = [0; 32];
    key[0] = first;
    key
}

pub fn run(calls: usize, tally: &mut Tally) -> Result<(), Mismatch> {
    for opening in openings() {
        let mut pair = Pair::new();
        pair.run(opening, None, tally)?;
        go_on(&pair, calls, tally)?;
    }
    Ok(())
}

fn go_on(pair: &Pair, calls: usize, tally: &mut Tally) -> Result<(), Mismatch> {
    for call in next_calls(pair) {
        let mut next = pair.fork();
        if next.run_either(call, tally)? && calls > 1 {
            go_on(&next, calls - 1, tally)?;
        }
    }
    Ok(())
}

/// No base; with and without a cutoff an empty base, and one with two flagged records; each in both modes.
fn openings() -> Vec<Call> {
    let mut bases = vec![(None, None)];
    for records in [vec![], FIRST_BYTES[1..3].iter().map(record).collect()] {
        let page = build(&records);
        for cutoff in [None, Some(key(CUTOFF))] {
            bases.push((Some(page.clone()), cutoff));
        }
    }
    let modes = [false, true].into_iter();
    let both = modes.flat_map(|every| bases.iter().map(move |base| opening(every, base)));
    both.collect()
}

fn opening(every: bool, (page, cutoff): &(Option<Vec<u8>>, Option<Key>)) -> Call {
    let base = page.clone().map(|page| Base {
        page,
        separator: [0; 32],
    });
    Call::Open {
        every,
        base,
        cutoff: *cutoff,
        list: 121,
        store: STORE,
    }
}

fn record(first: &u8) -> Record {
    Record {
        key: key(*first),
        value: vec![*first; 990],
        flag: true,
    }
}

/// Every change of every key, a digest with just the room that it asks for, cutoff removal, and two next bases.
fn next_calls(pair: &Pair) -> Vec<Call> {
    let instead = Instead::default;
    let mut calls = Vec::new();
    for first in FIRST_BYTES {
        let puts = SIZES.map(|size| Change::Put {
            value: vec![first ^ 0x55; size],
            flag: size % 2 == 1,
        });
        for change in puts.into_iter().chain([Change::Delete]) {
            calls.push(Call::Ingest {
                key: key(first),
                change,
                instead: instead(),
            });
        }
    }
    let pages = asked(body(&pending::records(&pair.plain.state, &pair.plain.page)));
    calls.push(Call::Digest {
        area: pages * 4096,
        tickets: pages * TICKET,
        instead: instead(),
    });
    calls.push(Call::Uncut { instead: instead() });
    for (records, cutoff) in [(vec![], Some([0xff; 32])), (vec![record(&CUTOFF)], None)] {
        let (page, separator) = (build(&records), key(CUTOFF));
        calls.push(Call::Next {
            base: Base { page, separator },
            cutoff,
            instead: instead(),
        });
    }
    calls
}
