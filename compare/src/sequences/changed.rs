//! A work changed in one bit: most such works are unsound, some are sound works that no sequence need have reached.

use crate::plain::side::Plain;
use crate::plain::work::Entry;
use crate::rng::Rng;

/// One bit of the work record, of an entry or of the store.
pub fn change_a_bit(rng: &mut Rng, plain: &mut Plain) {
    let state = &mut plain.state;
    let (bit, byte) = (rng.between(0, 7), rng.between(0, 31));
    let work = &mut state.work;
    let numbers = [
        &mut work.low,
        &mut work.used,
        &mut work.filled,
        &mut work.count,
        &mut work.bytes,
    ];
    let flags = [
        &mut work.turn,
        &mut work.based,
        &mut work.cut,
        &mut work.over,
        &mut work.taken,
    ];
    let keys = [
        &mut work.latest,
        &mut work.cutoff,
        &mut work.overriding,
        &mut work.floor,
        &mut work.last,
    ];
    let at = rng.between(0, 4);
    match rng.between(0, 4) {
        0 => *numbers.into_iter().nth(at).expect("five") ^= 1 << bit,
        1 => *flags.into_iter().nth(at).expect("five") ^= 1 << rng.between(0, 1),
        2 => keys.into_iter().nth(at).expect("five")[byte] ^= 1 << bit,
        3 => change_an_entry(rng, state.list.iter_mut().take(work.used + 1)),
        _ => {
            let place = rng.between(0, (work.filled + 1).min(state.store.len() - 1));
            state.store[place] ^= 1 << bit;
        }
    }
}

fn change_an_entry<'a>(rng: &mut Rng, entries: impl Iterator<Item = &'a mut Entry>) {
    let mut entries: Vec<&mut Entry> = entries.collect();
    let at = rng.between(0, entries.len() - 1);
    let entry = &mut entries[at];
    match rng.between(0, 5) {
        0 => entry.kind ^= 1 << rng.between(0, 1),
        1 => entry.flag ^= 1,
        2 => entry.from ^= 1 << rng.between(0, 11),
        3 => entry.to ^= 1 << rng.between(0, 11),
        4 => entry.sum ^= 1 << rng.between(0, 11),
        _ => entry.key[rng.between(0, 31)] ^= 1 << rng.between(0, 7),
    }
}
