//! The calls on a page alone: good pages, nearly good ones and random bytes, with arguments around their limits.

use crate::hex;
use crate::leaf_updater::{LeafKey, LeafSize};
use crate::lent::Damage;
use crate::ours::pages::{LeafValue, LentPage};
use crate::pages::made::{self, above, below, bytes};
use crate::pages::{agree, count, MOST_RECORDS};
use crate::plain::page;
use crate::random::{Mismatch, Tally, Whose};
use crate::rng::Rng;
use std::fmt::Debug;

/// Rounds of calls on each page.
const ROUNDS: usize = 3;

pub fn run(rng: &mut Rng, tally: &mut Tally) -> Result<(), Mismatch> {
    let page = random_page(rng);
    let lent = LentPage::new(&page);
    let n = match page.len() {
        0 | 1 => 0,
        _ => count(&page).min(MOST_RECORDS),
    };
    let mut on_page = OnPage {
        page: &page,
        n,
        tally,
    };
    let good = page::good(&page);
    on_page.same("page check", "", lent.check(), refusal(good), refusal(good))?;
    for _ in 0..ROUNDS {
        on_page.reads(&lent, rng)?;
        on_page.ranges(&lent, rng)?;
    }
    Ok(())
}

/// A page of any kind: good, damaged, with one byte off, or random.
pub fn random_page(rng: &mut Rng) -> Vec<u8> {
    let n = made::COUNTS[rng.between(0, made::COUNTS.len() - 1)];
    let filling = made::FILLINGS[rng.between(0, made::FILLINGS.len() - 1)];
    let length = [0, 1, 2, 4095, 4096, 4096, 4097, 8192][rng.between(0, 7)];
    match rng.between(0, 7) {
        0 => bytes(rng, length),
        1 => {
            let mut page = bytes(rng, 4096);
            page[..2].copy_from_slice(&(rng.between(0, 122) as u16).to_le_bytes());
            page
        }
        2 => vec![[0, 0xff][rng.between(0, 1)]; length],
        3 => {
            let mut page = made::page(rng, n, filling);
            let end = [4095, 1 + 34 * n.max(1)][rng.between(0, 1)];
            page[rng.between(0, end)] = rng.next() as u8;
            page
        }
        4 | 5 => {
            let page = made::page(rng, n, filling);
            let mut copies = made::damaged(rng, &page);
            copies.swap_remove(rng.between(0, copies.len() - 1))
        }
        _ => made::page(rng, n, filling),
    }
}

struct OnPage<'a> {
    page: &'a [u8],
    /// The number of its records, as far as it has one.
    n: usize,
    tally: &'a mut Tally,
}

impl OnPage<'_> {
    /// Compares an answer with what is due, and counts it by its refusal.
    fn same<T: PartialEq + Debug>(
        &mut self,
        call: &'static str,
        inputs: &str,
        ours: Result<T, Damage>,
        due: T,
        refusal: u8,
    ) -> Result<(), Mismatch> {
        agree(call, self.page, inputs, ours, due)?;
        self.tally.answered(Whose::Library, call, refusal);
        Ok(())
    }

    /// An index at its edges, or any.
    fn index(&self, rng: &mut Rng) -> usize {
        let n = self.n;
        let any = rng.next() as usize;
        [0, n, n.saturating_sub(1), rng.between(0, n), n + 1, any][rng.between(0, 5)]
    }

    fn reads(&mut self, lent: &LentPage, rng: &mut Rng) -> Result<(), Mismatch> {
        let i = self.index(rng);
        let inputs = format!("index {i}");
        let key = page::key(self.page, i);
        let due = LeafKey {
            refusal: refusal(key),
            key: key.unwrap_or_default(),
        };
        self.same("page key", &inputs, lent.key(i), due, due.refusal)?;
        let due = cell(page::value(self.page, i).map(Ok));
        self.same("page value", &inputs, lent.value(i), due, due.refusal)?;
        let near = key.unwrap_or(rng.key());
        let key = [near, near, above(&near), below(&near), rng.key()][rng.between(0, 4)];
        let due = cell(page::get(self.page, &key));
        let inputs = format!("key {}", hex::plain(&key));
        self.same("page get", &inputs, lent.get(&key), due, due.refusal)
    }

    fn ranges(&mut self, lent: &LentPage, rng: &mut Rng) -> Result<(), Mismatch> {
        let (from, to) = (self.index(rng), self.index(rng));
        let size = page::values_size(self.page, from, to);
        let due = LeafSize {
            refusal: refusal(size),
            bytes: size.unwrap_or(0),
        };
        let inputs = format!("from {from}, to {to}");
        let ours = lent.values_size(from, to);
        self.same("page values_size", &inputs, ours, due, due.refusal)?;
        let mut range = made::range(rng, self.n);
        if rng.between(0, 3) == 0 {
            range[rng.between(0, 2)] = self.index(rng);
        }
        let length = [4096, 4096, 4095, 4097, 0][rng.between(0, 4)];
        let before = vec![0x5a; length];
        let mut out = before.clone();
        let number = refusal(page::rebuild(self.page, range, &mut out));
        let inputs = format!("from, mid, to {range:?}, buffer of {length}");
        let ours = lent.rebuild(range, &before);
        self.same("page rebuild", &inputs, ours, (number, out), number)
    }
}

fn refusal<T>(answer: Result<T, u8>) -> u8 {
    answer.err().unwrap_or(0)
}

/// A value as the calls answer it; a refusal's other fields are zeros, and an absent one's but its position.
fn cell(answer: Result<Result<(usize, usize, bool), usize>, u8>) -> LeafValue {
    match answer {
        Err(refusal) => LeafValue {
            refusal,
            ..LeafValue::default()
        },
        Ok(Err(position)) => LeafValue {
            absent: 1,
            position,
            ..LeafValue::default()
        },
        Ok(Ok((offset, len, flag))) => LeafValue {
            flag: flag.into(),
            offset,
            len,
            ..LeafValue::default()
        },
    }
}
