//! Works with something off, and random ones. Whatever a work holds already, it can be spoilt further.

use super::pages::random_page;
use crate::lent::Laid;
use crate::pages::made::{self, above, below, bytes};
use crate::plain::side::Plain;
use crate::plain::work::{Entry, State, Work};
use crate::rng::Rng;
use crate::sequences::changed::change_a_bit;

/// Lengths at the limits. The long ones are rare: their calls are slow.
const LISTS: [usize; 6] = [120, 121, 122, 121, 0, 1];
const LONG_LISTS: [usize; 3] = [4095, 4096, 4097];
const STORES: [usize; 6] = [4095, 4096, 4097, 4096, 0, 1];
const LONG_STORES: [usize; 3] = [65535, 65536, 65537];
const LONG_IN: usize = 24;

type Spoil = fn(&mut Rng, &mut Plain);

const SPOILS: [Spoil; 9] = [
    number,
    key,
    byte_of_work,
    entry_number,
    byte_of_entry,
    whole_entry,
    byte_of_store,
    length,
    page,
];

/// A sound work with one thing off, or up to three.
pub fn spoil(rng: &mut Rng, plain: &mut Plain) {
    // a bit is found by way of the work's numbers, which are still right
    if rng.between(0, 3) == 0 {
        change_a_bit(rng, plain);
    } else {
        spoil_further(rng, plain);
    }
    for _ in 0..[0, 0, 0, 1, 2][rng.between(0, 4)] {
        spoil_further(rng, plain);
    }
}

fn spoil_further(rng: &mut Rng, plain: &mut Plain) {
    SPOILS[rng.between(0, SPOILS.len() - 1)](rng, plain);
}

/// One more or less, a limit, or any number.
fn off(rng: &mut Rng, number: usize) -> usize {
    let any = rng.next() as usize;
    let limits = [0, 1, 120, 121, 1332, 1333, 2046, 4096, 65536, usize::MAX];
    match rng.between(0, 5) {
        0 | 1 => number.wrapping_add(1),
        2 => number.wrapping_sub(1),
        3 => limits[rng.between(0, limits.len() - 1)],
        4 => any % 256,
        _ => any,
    }
}

fn number(rng: &mut Rng, plain: &mut Plain) {
    let work = &mut plain.state.work;
    let number = match rng.between(0, 4) {
        0 => &mut work.low,
        1 => &mut work.used,
        2 => &mut work.filled,
        3 => &mut work.count,
        _ => &mut work.bytes,
    };
    *number = off(rng, *number);
}

/// A key of the work record: its neighbour, another key of the record, zeros, or any.
fn key(rng: &mut Rng, plain: &mut Plain) {
    let work = &mut plain.state.work;
    let others = [work.latest, work.cutoff, work.floor, work.last];
    let any = rng.key();
    let key = match rng.between(0, 4) {
        0 => &mut work.latest,
        1 => &mut work.cutoff,
        2 => &mut work.overriding,
        3 => &mut work.floor,
        _ => &mut work.last,
    };
    *key = match rng.between(0, 4) {
        0 => above(key),
        1 => below(key),
        2 => others[rng.between(0, 3)],
        3 => [0; 32],
        _ => any,
    };
}

/// Writes one byte of a struct; one between its fields changes nothing.
fn set_byte<T: Laid>(one: &mut T, at: usize, byte: u8) {
    assert!(at < size_of::<T>());
    let first: *mut u8 = (one as *mut T).cast();
    // SAFETY: within the struct, whose fields are numbers and may hold any bytes.
    unsafe { first.add(at).write(byte) };
}

fn any_byte_of<T: Laid>(rng: &mut Rng, one: &mut T) {
    let at = rng.between(0, size_of::<T>() - 1);
    set_byte(one, at, rng.next() as u8);
}

fn all_bytes_of<T: Laid>(rng: &mut Rng, one: &mut T) {
    for at in 0..size_of::<T>() {
        set_byte(one, at, rng.next() as u8);
    }
}

fn byte_of_work(rng: &mut Rng, plain: &mut Plain) {
    any_byte_of(rng, &mut plain.state.work);
}

/// An entry in use, the first unused one, or any.
fn any_entry<'a>(rng: &mut Rng, plain: &'a mut Plain) -> Option<&'a mut Entry> {
    let last = plain.state.list.len().checked_sub(1)?;
    let used = plain.state.work.used.min(last);
    let at = match rng.between(0, 3) {
        0 => rng.between(0, last),
        _ => rng.between(0, used),
    };
    plain.state.list.get_mut(at)
}

fn entry_number(rng: &mut Rng, plain: &mut Plain) {
    let field = rng.between(0, 2);
    let Some(entry) = any_entry(rng, plain) else {
        return;
    };
    let number = match field {
        0 => &mut entry.from,
        1 => &mut entry.to,
        _ => &mut entry.sum,
    };
    *number = off(rng, *number);
}

fn byte_of_entry(rng: &mut Rng, plain: &mut Plain) {
    if let Some(entry) = any_entry(rng, plain) {
        any_byte_of(rng, entry);
    }
}

/// An entry too many, one too few, one in another's place, or a random one.
fn whole_entry(rng: &mut Rng, plain: &mut Plain) {
    let list = &mut plain.state.list;
    let Some(last) = list.len().checked_sub(1) else {
        return;
    };
    let used = plain.state.work.used.min(last);
    let (at, other) = (rng.between(0, used), rng.between(0, used));
    match rng.between(0, 4) {
        0 => {
            let twice = list[at];
            list.pop();
            list.insert(at, twice);
        }
        1 => {
            list.remove(at);
            list.push(Entry::default());
        }
        2 => list.swap(at, other),
        3 => list[at] = list[other],
        _ => list[at] = random_entry(rng),
    }
}

fn byte_of_store(rng: &mut Rng, plain: &mut Plain) {
    let Some(last) = plain.state.store.len().checked_sub(1) else {
        return;
    };
    let filled = plain.state.work.filled.min(last);
    let at = [filled, last, rng.between(0, last)][rng.between(0, 2)];
    plain.state.store[at] = rng.next() as u8;
}

fn limit(rng: &mut Rng, short: &[usize], long: &[usize]) -> usize {
    let lengths = if rng.between(1, LONG_IN) == 1 {
        long
    } else {
        short
    };
    lengths[rng.between(0, lengths.len() - 1)]
}

/// List or store, longer by zeros or shorter.
fn length(rng: &mut Rng, plain: &mut Plain) {
    let State { list, store, .. } = &mut plain.state;
    let more = rng.between(0, 2);
    if rng.between(0, 1) == 0 {
        let near = (list.len() + more).saturating_sub(1);
        let length = [near, limit(rng, &LISTS, &LONG_LISTS)][rng.between(0, 1)];
        list.resize(length, Entry::default());
    } else {
        let near = (store.len() + more).saturating_sub(1);
        let length = [near, limit(rng, &STORES, &LONG_STORES)][rng.between(0, 1)];
        store.resize(length, 0);
    }
}

/// The lent page isn't the base's: a byte or the length is off, or it is another.
fn page(rng: &mut Rng, plain: &mut Plain) {
    match (rng.between(0, 4), plain.page.len().checked_sub(1)) {
        (0 | 1, Some(last)) => {
            let end = [last, last.min(200)][rng.between(0, 1)];
            plain.page[rng.between(0, end)] = rng.next() as u8;
        }
        (2, Some(_)) if plain.page.len() == 4096 => {
            let mut copies = made::damaged(rng, &plain.page);
            plain.page = copies.swap_remove(rng.between(0, copies.len() - 1));
        }
        (3, _) => plain.page.resize([0, 1, 4095, 4097][rng.between(0, 3)], 0),
        _ => plain.page = random_page(rng),
    }
}

/// Nothing in it comes from a call: bytes of any kind, or numbers of the right size that don't belong together.
pub fn random(rng: &mut Rng) -> Plain {
    let mut plain = Plain::default();
    plain.state.list = vec![Entry::default(); limit(rng, &LISTS, &LONG_LISTS)];
    plain.state.store = vec![0; limit(rng, &STORES, &LONG_STORES)];
    plain.state.work = random_work(rng);
    plain.page = random_page(rng);
    let used = [0, 1, 5, plain.state.list.len()][rng.between(0, 3)];
    for entry in plain.state.list.iter_mut().take(used) {
        *entry = random_entry(rng);
    }
    let filled = [0, 1, 700, plain.state.store.len()][rng.between(0, 3)];
    let filled = filled.min(plain.state.store.len());
    let random = bytes(rng, filled);
    plain.state.store[..filled].copy_from_slice(&random);
    plain
}

fn random_work(rng: &mut Rng) -> Work {
    let mut work = Work::default();
    if rng.between(0, 2) == 0 {
        all_bytes_of(rng, &mut work);
        return work;
    }
    let mut keys = [[0; 32], [0xff; 32], rng.key(), rng.key()];
    keys.sort();
    let mut key = || keys[rng.between(0, 3)];
    (work.latest, work.cutoff, work.floor, work.last) = (key(), key(), key(), key());
    work.overriding = key();
    let mut flag = || rng.between(0, 8).min(1) as u8;
    (work.based, work.cut, work.over, work.taken) = (flag(), flag(), flag(), flag());
    work.mode = [0, 1, 2, 255][rng.between(0, 3)];
    work.turn = rng.between(0, 4) as u8;
    let mut small = || rng.between(0, 6);
    (work.low, work.used, work.count) = (small(), small(), small());
    work.filled = [0, 1, 700][rng.between(0, 2)];
    work.bytes = work.filled;
    work
}

fn random_entry(rng: &mut Rng) -> Entry {
    let mut entry = Entry::default();
    if rng.between(0, 2) == 0 {
        all_bytes_of(rng, &mut entry);
        return entry;
    }
    entry.kind = rng.between(0, 3) as u8;
    entry.flag = rng.between(0, 1) as u8;
    entry.from = rng.between(0, 3);
    entry.to = entry.from + rng.between(0, 700);
    entry.key = [[0; 32], rng.key()][rng.between(0, 1)];
    entry
}
