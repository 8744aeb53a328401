//! `compare overflow ROUNDS SEED`: large values split, joined and freed by the library, by nomt's unchanged overflow.rs and by plain functions: the page count of every
//! size, values at every page boundary, and so many rounds of random values and of damaged cells and pages.

mod damaged;

use crate::leaf_updater::{LeafFreed, LeafJoined, LeafPageCount, LeafSplit};
use crate::oracle::io::{PagePool, PAGE_SIZE};
use crate::oracle::{self, Key};
use crate::ours::overflow as ours;
use crate::plain::overflow::{self as plain, clear_tails, count_from, MOST};
use crate::random::{counted, Mismatch, Tally, Whose};
use crate::rng::Rng;
use std::collections::HashSet;
use std::fmt::Debug;
use std::process::ExitCode;

const MOST_PAGES: usize = 257;
/// Bytes at which a page boundary is tried, before it and behind it.
const AROUND: usize = 5;
/// What is lent and not used.
const SPARE: usize = 3;
const NOISE: u8 = 0x5a;

pub fn run(rounds: u64, seed: u64) -> ExitCode {
    counted("overflow", |tally| {
        let mut rng = Rng::new(seed);
        every_count(tally)?;
        for size in boundaries() {
            value_of(size, &mut rng, tally)?;
        }
        for _ in 0..rounds {
            round(&mut rng, tally)?;
        }
        Ok(())
    })
}

/// Values of random sizes, and damage.
pub fn round(rng: &mut Rng, tally: &mut Tally) -> Result<(), Mismatch> {
    let pages = [1, 1, 2, 3, 15, 16, 17, 40][rng.between(0, 7)];
    let size = rng.between(1, capacity(pages));
    count_of(
        [0, 1, size, MOST, MOST + 1, usize::MAX, rng.next() as usize][rng.between(0, 6)],
        tally,
    )?;
    value_of(size, rng, tally)?;
    damaged::round(rng, tally)
}

/// The bytes of a value that fill so many pages.
fn capacity(pages: usize) -> usize {
    pages * 4092 - 4 * pages.saturating_sub(15)
}

fn boundaries() -> impl Iterator<Item = usize> {
    let around = |size: usize| size.saturating_sub(AROUND)..=size + AROUND;
    let sizes = (0..=MOST_PAGES).flat_map(move |pages| around(capacity(pages)));
    let sizes = sizes.chain(around(MOST));
    sizes.filter(|size| (1..=MOST).contains(size))
}

fn every_count(tally: &mut Tally) -> Result<(), Mismatch> {
    let mut due = 1;
    for size in 1..=MOST {
        due = count_from(due, size);
        let rust = oracle::overflow::total_needed_pages(size);
        let reply = LeafPageCount {
            refusal: 0,
            pages: due,
        };
        same(
            "page count",
            &format!("size {size}"),
            (ours::pages(size), rust),
            (reply, due),
        )?;
    }
    tally.agreed_times("page count", MOST as u64);
    for size in [0, MOST + 1, MOST + 2, 1 << 32, 1 << 63, usize::MAX] {
        count_of(size, tally)?;
    }
    Ok(())
}

fn count_of(size: usize, tally: &mut Tally) -> Result<(), Mismatch> {
    let right = (1..=MOST).contains(&size);
    let due = LeafPageCount {
        refusal: if right { 0 } else { plain::OVERFLOW_LENGTH },
        pages: if right { count_from(1, size) } else { 0 },
    };
    same(
        "page count",
        &format!("size {size}"),
        ours::pages(size),
        due,
    )?;
    tally.answered(Whose::Library, "page count", due.refusal);
    Ok(())
}

/// A value with its hash and numbers.
struct Value {
    bytes: Vec<u8>,
    hash: Key,
    numbers: Vec<u32>,
    /// How many pages it takes.
    pages: usize,
}

impl Value {
    /// Random bytes; the numbers are different ones, or all the same, and there are more than are used.
    fn random(rng: &mut Rng, size: usize) -> Value {
        let pages = count_from(1, size);
        let numbers = match rng.between(0, 4) {
            0 => vec![[0, 7, u32::MAX][rng.between(0, 2)]; pages + SPARE],
            _ => different(rng, pages + SPARE),
        };
        let mut bytes: Vec<u8> = (0..size.div_ceil(8))
            .flat_map(|_| rng.next().to_le_bytes())
            .collect();
        bytes.truncate(size);
        let hash = rng.key();
        Value {
            bytes,
            hash,
            numbers,
            pages,
        }
    }

    fn inputs(&self) -> String {
        format!("{} bytes, {} numbers", self.bytes.len(), self.numbers.len())
    }

    /// Cell and pages by the library, which must be those of the plain functions; what lies behind the pages is kept.
    fn split(&self, tally: &mut Tally) -> Result<(Vec<u8>, Vec<u8>), Mismatch> {
        let (cell, mut area) = plain::split(&self.bytes, &self.hash, &self.numbers);
        let before = vec![NOISE; area.len() + SPARE];
        area.resize(before.len(), NOISE);
        let mut padded = [0; 100];
        padded[..cell.len()].copy_from_slice(&cell);
        let due = LeafSplit {
            refusal: 0,
            cell: padded,
            cell_len: cell.len(),
            pages: self.pages,
        };
        let ours = ours::split(&self.bytes, &self.hash, &self.numbers, &before);
        same_lent("split", &self.inputs(), ours, (due, area.clone()))?;
        tally.agreed("split");
        area.truncate(self.pages * PAGE_SIZE);
        Ok((cell, area))
    }

    /// 22, before and behind the limits, and nothing written.
    fn short(&self, tally: &mut Tally) -> Result<(), Mismatch> {
        let area = self.pages * PAGE_SIZE;
        for (numbers, area) in [(self.pages - 1, area), (self.pages, area - 1), (0, 0)] {
            let before = vec![NOISE; area];
            let ours = ours::split(&self.bytes, &self.hash, &self.numbers[..numbers], &before);
            let due = refused_split(plain::SHORT_BUFFER);
            same_lent("split", &self.inputs(), ours, (due, before))?;
            tally.answered(Whose::Library, "split", due.refusal);
        }
        Ok(())
    }
}

fn different(rng: &mut Rng, count: usize) -> Vec<u32> {
    let mut seen = HashSet::new();
    std::iter::repeat_with(|| rng.next() as u32)
        .filter(|&number| seen.insert(number))
        .take(count)
        .collect()
}

fn refused_split(refusal: u8) -> LeafSplit {
    LeafSplit {
        refusal,
        cell: [0; 100],
        cell_len: 0,
        pages: 0,
    }
}

/// A value of so many bytes through both sides, there and back.
fn value_of(size: usize, rng: &mut Rng, tally: &mut Tally) -> Result<(), Mismatch> {
    let value = Value::random(rng, size);
    let inputs = value.inputs();
    let (cell, area) = value.split(tally)?;
    value.short(tally)?;
    let pool = PagePool::new();
    let rust = oracle::overflow::split(&value.bytes, &value.hash, &value.numbers, &pool);
    let mut cleared = rust.pages;
    clear_tails(&mut cleared);
    same(
        "split of the Rust",
        &inputs,
        (&rust.cell, &cleared),
        (&cell, &area),
    )?;
    // ours joined and freed by us, which are the Rust's with cleared tails
    let due = LeafJoined {
        refusal: 0,
        len: size,
    };
    let (before, left) = lent(&value.bytes, SPARE, NOISE);
    same_lent(
        "join",
        &inputs,
        ours::join(&cell, &area, &before),
        (due, left),
    )?;
    let used = &value.numbers[..value.pages];
    let due = LeafFreed {
        refusal: 0,
        numbers: value.pages,
    };
    let (before, left) = lent(used, SPARE, 0x5a5a_5a5a);
    same_lent(
        "free",
        &inputs,
        ours::free(&cell, &area, &before),
        (due, left),
    )?;
    tally.agreed("join");
    tally.agreed("free");
    // and by the Rust, which finds pages by their numbers
    if used.iter().collect::<HashSet<_>>().len() == value.pages {
        let store = oracle::overflow::store(used, &area, &pool);
        same(
            "join by the Rust",
            &inputs,
            oracle::overflow::join(&cell, &store),
            value.bytes.clone(),
        )?;
        same(
            "free by the Rust",
            &inputs,
            oracle::overflow::free(&cell, &store),
            used.to_vec(),
        )?;
    }
    Ok(())
}

/// A buffer of noise, with room for these and more, and what it holds with these in its front.
fn lent<T: Copy>(front: &[T], spare: usize, noise: T) -> (Vec<T>, Vec<T>) {
    let before = vec![noise; front.len() + spare];
    let mut left = front.to_vec();
    left.resize(before.len(), noise);
    (before, left)
}

fn same_lent<T: PartialEq + Debug>(
    call: &'static str,
    inputs: &str,
    ours: Result<T, crate::lent::Damage>,
    due: T,
) -> Result<(), Mismatch> {
    match ours {
        Ok(ours) => same(call, inputs, ours, due),
        Err(damage) => Err(Mismatch::damage(
            call,
            vec![("inputs", inputs.to_string())],
            damage,
        )),
    }
}

fn same<T: PartialEq + Debug>(
    call: &'static str,
    inputs: &str,
    ours: T,
    due: T,
) -> Result<(), Mismatch> {
    if ours == due {
        return Ok(());
    }
    let shown = |what: T| {
        let mut text = format!("{what:?}");
        text.truncate(2000);
        text
    };
    Err(Mismatch {
        call,
        lines: vec![
            ("inputs", inputs.to_string()),
            ("ours", shown(ours)),
            ("due", shown(due)),
        ],
    })
}

#[cfg(test)]
mod tests {
    use super::*;

    #[test]
    fn a_boundary_is_where_the_count_grows() {
        for pages in 1..MOST_PAGES {
            assert_eq!(count_from(1, capacity(pages)), pages);
            assert_eq!(count_from(1, capacity(pages) + 1), pages + 1);
        }
    }

    #[test]
    fn every_refusal_is_met() {
        let mut tally = Tally::default();
        let mut rng = Rng::new(1);
        for _ in 0..60 {
            assert!(round(&mut rng, &mut tally).is_ok());
        }
        assert_eq!(tally.refusals(Whose::Library, "page count"), [21]);
        assert_eq!(tally.refusals(Whose::Library, "split"), [21, 22]);
        assert_eq!(tally.refusals(Whose::Library, "join"), [22, 23]);
        assert_eq!(tally.refusals(Whose::Library, "free"), [22, 23]);
    }
}
