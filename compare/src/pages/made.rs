//! Made-up pages: good ones of a chosen count and filling, and damaged copies.

use super::{count, key_at, plain_check, pointer, BODY_LIMIT, LONGEST_VALUE, MOST_RECORDS};
use crate::oracle::io::PAGE_SIZE;
use crate::oracle::Key;
use crate::rng::Rng;

/// How many records: the edges, and some in between.
pub const COUNTS: [usize; 12] = [0, 1, 2, 3, 4, 17, 60, 100, 118, 119, 120, 120];

#[derive(Clone, Copy, PartialEq)]
pub enum Filling {
    /// No value has a byte: all offsets are 4,096.
    Empty,
    /// Values of all sizes, the longest among them, as far as they fit.
    Mixed,
    /// As mixed, and the last value is empty.
    EmptyLast,
    /// The values fill the page up to the pointers: no gap.
    Full,
}

pub const FILLINGS: [Filling; 4] = [
    Filling::Empty,
    Filling::Mixed,
    Filling::EmptyLast,
    Filling::Full,
];

pub fn bytes(rng: &mut Rng, length: usize) -> Vec<u8> {
    (0..length).map(|_| rng.next() as u8).collect()
}

/// The next key below and above; the ends stay.
pub fn below(key: &Key) -> Key {
    let mut below = *key;
    for byte in below.iter_mut().rev() {
        *byte = byte.wrapping_sub(1);
        if *byte != 0xff {
            return below;
        }
    }
    *key
}

pub fn above(key: &Key) -> Key {
    let mut above = *key;
    for byte in above.iter_mut().rev() {
        *byte = byte.wrapping_add(1);
        if *byte != 0 {
            return above;
        }
    }
    *key
}

/// Rising keys. Some stand side by side, some share all but a few bits.
fn keys(rng: &mut Rng, n: usize) -> Vec<Key> {
    let mut keys: Vec<Key> = Vec::new();
    while keys.len() < n {
        let key = match (rng.between(0, 3), keys.last()) {
            (0, Some(last)) => above(last),
            (1, Some(last)) => {
                let mut near = *last;
                near[rng.between(0, 31)] ^= 1 << rng.between(0, 7);
                near
            }
            _ => rng.key(),
        };
        if !keys.contains(&key) {
            keys.push(key);
        }
    }
    keys.sort();
    keys
}

/// Value lengths that fit a page of n records.
pub fn lengths(rng: &mut Rng, n: usize, filling: Filling) -> Vec<usize> {
    let mut room = BODY_LIMIT - 34 * n;
    let mut lengths = Vec::new();
    for i in 0..n {
        let most = room.min(LONGEST_VALUE);
        let last = i + 1 == n;
        let length = match filling {
            Filling::Empty => 0,
            Filling::EmptyLast if last => 0,
            Filling::Full if last => most,
            // what the records after this one can't take must stand here
            Filling::Full => (room.saturating_sub((n - 1 - i) * LONGEST_VALUE))
                .max(room / (n - i))
                .min(most),
            _ => [
                0,
                1,
                most,
                LONGEST_VALUE - 1,
                rng.between(0, most),
                rng.between(0, 40),
            ][rng.between(0, 5)]
            .min(most),
        };
        room -= length;
        lengths.push(length);
    }
    lengths
}

/// A good page whose gap holds random bytes.
pub fn page(rng: &mut Rng, n: usize, filling: Filling) -> Vec<u8> {
    let lengths = lengths(rng, n, filling);
    let keys = keys(rng, n);
    laid_out(rng, &keys, &lengths)
}

/// A good page of n values of one length.
pub fn page_of(rng: &mut Rng, n: usize, length: usize) -> Vec<u8> {
    let keys = keys(rng, n);
    laid_out(rng, &keys, &vec![length; n])
}

/// A good page of these keys, which rise, with values of these lengths, which fit.
pub fn laid_out(rng: &mut Rng, keys: &[Key], lengths: &[usize]) -> Vec<u8> {
    let n = lengths.len();
    let mut page = bytes(rng, PAGE_SIZE);
    page[..2].copy_from_slice(&(n as u16).to_le_bytes());
    let mut offset = PAGE_SIZE - lengths.iter().sum::<usize>();
    for (i, (key, length)) in keys.iter().zip(lengths).enumerate() {
        page[pointer(i)..][..32].copy_from_slice(key);
        set_offset(&mut page, i, offset, rng.between(0, 2) == 0);
        offset += length;
    }
    assert_eq!(plain_check(&page), 0, "a made-up page is good");
    page
}

fn set_offset(page: &mut [u8], i: usize, offset: usize, flag: bool) {
    let number = offset as u16 | if flag { 0x8000 } else { 0 };
    page[pointer(i) + 32..][..2].copy_from_slice(&number.to_le_bytes());
}

/// Damages one rule of the page each; not every one breaks it on every page.
type Damage = fn(&mut Rng, &mut Vec<u8>);

const DAMAGES: [Damage; 9] = [
    wrong_length,
    too_many,
    first_too_low,
    offset_falls,
    offset_passes,
    long_value,
    equal_keys,
    swapped_keys,
    any_bit,
];

/// Copies of a page: each damage alone, and some together.
pub fn damaged(rng: &mut Rng, page: &[u8]) -> Vec<Vec<u8>> {
    let mut copies = Vec::new();
    for damage in DAMAGES {
        let mut copy = page.to_vec();
        damage(rng, &mut copy);
        copies.push(copy);
    }
    for _ in 0..4 {
        let mut copy = page.to_vec();
        for _ in 0..rng.between(2, 4) {
            // a page of another length is not damaged further
            if copy.len() == PAGE_SIZE {
                DAMAGES[rng.between(0, DAMAGES.len() - 1)](rng, &mut copy);
            }
        }
        copies.push(copy);
    }
    copies
}

fn wrong_length(rng: &mut Rng, page: &mut Vec<u8>) {
    let lengths = [0, 1, 2, PAGE_SIZE - 1, PAGE_SIZE + 1, 2 * PAGE_SIZE];
    page.resize(lengths[rng.between(0, 5)], 0);
}

fn too_many(rng: &mut Rng, page: &mut Vec<u8>) {
    let counts = [121, 122, 255, 256, 0x8000, 0xffff];
    let n = counts[rng.between(0, 5)] as u16;
    page[..2].copy_from_slice(&n.to_le_bytes());
}

/// A record of the page, where it has one.
fn any_record(rng: &mut Rng, page: &[u8]) -> Option<usize> {
    match count(page) {
        n @ 1..=MOST_RECORDS => Some(rng.between(0, n - 1)),
        _ => None,
    }
}

fn first_too_low(rng: &mut Rng, page: &mut Vec<u8>) {
    if let Some(_) = any_record(rng, page) {
        let lowest = pointer(count(page));
        let offset = [lowest, lowest - 1, 0][rng.between(0, 2)];
        set_offset(page, 0, offset, rng.between(0, 1) == 0);
    }
}

fn offset_falls(rng: &mut Rng, page: &mut Vec<u8>) {
    if let Some(i) = any_record(rng, page) {
        let offset = super::offset_at(page, i).saturating_sub(rng.between(0, 2));
        let next = (i + 1).min(count(page) - 1);
        set_offset(page, next, offset, rng.between(0, 1) == 0);
    }
}

fn offset_passes(rng: &mut Rng, page: &mut Vec<u8>) {
    if let Some(i) = any_record(rng, page) {
        let offset = [PAGE_SIZE, PAGE_SIZE + 1, 0x7fff][rng.between(0, 2)];
        set_offset(page, i, offset, rng.between(0, 1) == 0);
    }
}

/// The first value made as long as allowed, or a byte longer, by taking from the gap.
fn long_value(rng: &mut Rng, page: &mut Vec<u8>) {
    if let Some(_) = any_record(rng, page) {
        let end = if count(page) == 1 {
            PAGE_SIZE
        } else {
            super::offset_at(page, 1).min(PAGE_SIZE)
        };
        let length = LONGEST_VALUE + rng.between(0, 1);
        set_offset(page, 0, end.saturating_sub(length), false);
    }
}

fn equal_keys(rng: &mut Rng, page: &mut Vec<u8>) {
    if let Some(i) = any_record(rng, page) {
        let key = key_at(page, i).to_vec();
        let next = (i + 1).min(count(page) - 1);
        page[pointer(next)..][..32].copy_from_slice(&key);
    }
}

fn swapped_keys(rng: &mut Rng, page: &mut Vec<u8>) {
    if let (Some(i), Some(j)) = (any_record(rng, page), any_record(rng, page)) {
        let (left, right) = (key_at(page, i).to_vec(), key_at(page, j).to_vec());
        page[pointer(i)..][..32].copy_from_slice(&right);
        page[pointer(j)..][..32].copy_from_slice(&left);
    }
}

/// A bit of the count or of a pointer.
fn any_bit(rng: &mut Rng, page: &mut Vec<u8>) {
    let end = pointer(count(page).min(MOST_RECORDS)) - 1;
    page[rng.between(0, end)] ^= 1 << rng.between(0, 7);
}

/// A range for `rebuild`: mostly one that is there.
pub fn range(rng: &mut Rng, n: usize) -> [usize; 3] {
    let mut range = [0; 3].map(|_: usize| rng.between(0, n));
    if rng.between(0, 7) > 0 {
        range.sort();
    }
    if rng.between(0, 15) == 0 {
        range[2] = n + 1;
    }
    range
}
