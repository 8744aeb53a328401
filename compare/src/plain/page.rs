//! A page's records, the page calls, and a page laid out from records.

use super::verdict::{unless, Verdict, EQUAL_KEYS, NO_SUCH_INDEX, SHORT_AREA};
use crate::keys::plain_separate;
use crate::oracle::io::PAGE_SIZE;
use crate::oracle::Key;
use crate::pages::{self, count, offset_at, plain_check, pointer};

#[derive(Clone, Debug, PartialEq)]
pub struct Record {
    pub key: Key,
    pub value: Vec<u8>,
    pub flag: bool,
}

/// "Body size is 34 times n plus all value bytes."
pub fn body(records: &[Record]) -> usize {
    records.iter().map(|record| 34 + record.value.len()).sum()
}

pub fn key_of(page: &[u8], i: usize) -> Key {
    let mut key = [0; 32];
    key.copy_from_slice(pages::key_at(page, i));
    key
}

/// Offset, length and flag of value i of a good page: "a value ends where the next begins, the last at 4,096".
pub fn cell(page: &[u8], i: usize) -> (usize, usize, bool) {
    let start = offset_at(page, i);
    let end = if i + 1 < count(page) {
        offset_at(page, i + 1)
    } else {
        PAGE_SIZE
    };
    (start, end - start, page[pointer(i) + 33] & 0x80 != 0)
}

pub fn value_bytes(page: &[u8], from: usize, to: usize) -> usize {
    (from..to).map(|i| cell(page, i).1).sum()
}

/// How many records, 0 in no bytes at all.
pub fn records_in(page: &[u8]) -> usize {
    if page.is_empty() {
        0
    } else {
        count(page)
    }
}

pub fn records(page: &[u8]) -> Vec<Record> {
    let record = |i| {
        let (offset, length, flag) = cell(page, i);
        Record {
            key: key_of(page, i),
            value: page[offset..offset + length].to_vec(),
            flag,
        }
    };
    (0..records_in(page)).map(record).collect()
}

/// The page of these records, which fit. Its gap is zeros.
pub fn build(records: &[Record]) -> Vec<u8> {
    let mut page = vec![0; PAGE_SIZE];
    page[..2].copy_from_slice(&(records.len() as u16).to_le_bytes());
    let values: usize = records.iter().map(|record| record.value.len()).sum();
    let mut offset = PAGE_SIZE - values;
    for (i, record) in records.iter().enumerate() {
        let number = offset as u16 | if record.flag { 0x8000 } else { 0 };
        page[pointer(i)..][..32].copy_from_slice(&record.key);
        page[pointer(i) + 32..][..2].copy_from_slice(&number.to_le_bytes());
        page[offset..][..record.value.len()].copy_from_slice(&record.value);
        offset += record.value.len();
    }
    page
}

/// Refusals 1 to 5.
pub fn good(page: &[u8]) -> Verdict {
    match plain_check(page) {
        0 => Ok(()),
        number => Err(number),
    }
}

pub fn key(page: &[u8], i: usize) -> Result<Key, u8> {
    good(page)?;
    unless(i < count(page), NO_SUCH_INDEX)?;
    Ok(key_of(page, i))
}

pub fn value(page: &[u8], i: usize) -> Result<(usize, usize, bool), u8> {
    good(page)?;
    unless(i < count(page), NO_SUCH_INDEX)?;
    Ok(cell(page, i))
}

pub fn values_size(page: &[u8], from: usize, to: usize) -> Result<usize, u8> {
    good(page)?;
    unless(from < to && to <= count(page), NO_SUCH_INDEX)?;
    Ok(value_bytes(page, from, to))
}

/// The value of a key, or the position at which it would stand: as many keys are smaller.
pub fn get(page: &[u8], key: &Key) -> Result<Result<(usize, usize, bool), usize>, u8> {
    good(page)?;
    let found = (0..count(page)).find(|&i| key_of(page, i) == *key);
    let smaller = || (0..count(page)).filter(|&i| key_of(page, i) < *key).count();
    Ok(found.map(|i| cell(page, i)).ok_or_else(smaller))
}

/// The page of the records from..to in the first 4,096 bytes of `out`. Where it is built by cells and where by a chunk, `mid` says; the page
/// is the same.
pub fn rebuild(page: &[u8], range: [usize; 3], out: &mut [u8]) -> Verdict {
    good(page)?;
    let [from, mid, to] = range;
    let there = from <= mid && mid <= to && to <= count(page);
    unless(there, NO_SUCH_INDEX)?;
    unless(out.len() >= PAGE_SIZE, SHORT_AREA)?;
    out[..PAGE_SIZE].copy_from_slice(&build(&records(page)[from..to]));
    Ok(())
}

pub fn separate(a: &Key, b: &Key) -> Result<Key, u8> {
    plain_separate(a, b).ok_or(EQUAL_KEYS)
}
