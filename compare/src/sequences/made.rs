//! Made-up parts of a sequence: keys that rise with a number, bases, values, bodies at document 01's edges.

use crate::oracle::Key;
use crate::pages::made::{self, Filling};
use crate::pages::LONGEST_VALUE;
use crate::rng::Rng;
use crate::vectors::calls::{Base, Call, Change, Instead};

/// Bodies on both sides of the digest's limits.
pub const EDGES: [usize; 8] = [2046, 2047, 2048, 4094, 4095, 4096, 7369, 7370];
/// Numbers left free between a base's last record and its cutoff, for records that bring the body to an edge.
pub const FREE: u64 = 16;

/// The keys of one sequence: a number of 8 bytes somewhere in the key, so that `separate` parts them at many bits.
pub struct Keys {
    head: Key,
    at: usize,
    stride: u64,
    tail: bool,
}

impl Keys {
    pub fn new(rng: &mut Rng) -> Self {
        Keys {
            head: [[0; 32], [0xff; 32], rng.key()][rng.between(0, 2)],
            at: rng.between(0, 24),
            stride: 1 << rng.between(0, 40),
            tail: rng.between(0, 2) > 0,
        }
    }

    /// Rises with the number, which stays below 2^20.
    pub fn key(&self, number: u64) -> Key {
        let mut key = [0; 32];
        key[..self.at].copy_from_slice(&self.head[..self.at]);
        key[self.at..self.at + 8].copy_from_slice(&(number * self.stride).to_be_bytes());
        if self.tail {
            let tail = Rng::new(number).key();
            key[self.at + 8..].copy_from_slice(&tail[self.at + 8..]);
        }
        key
    }
}

/// A base and the numbers of its bounds.
pub struct MadeBase {
    pub base: Base,
    pub cutoff: Option<Key>,
    /// The first number behind its records, and that of its cutoff, or of a far key where it has none.
    pub behind: u64,
    pub limit: u64,
}

impl MadeBase {
    pub fn next_call(self) -> Call {
        Call::Next {
            base: self.base,
            cutoff: self.cutoff,
            instead: Instead::default(),
        }
    }
}

/// An opening in the Rust's mode with the shortest list.
pub fn opening(base: Option<Base>, cutoff: Option<Key>, store: usize) -> Call {
    Call::Open {
        every: false,
        base,
        cutoff,
        list: 121,
        store,
    }
}

/// Small bases are the most frequent: they are merged several times in a row.
const COUNTS: [usize; 14] = [0, 0, 1, 1, 1, 2, 2, 3, 5, 17, 60, 118, 119, 120];

/// A base whose separator has the number `from`.
pub fn base(rng: &mut Rng, keys: &Keys, from: u64, cut: bool) -> MadeBase {
    let n = COUNTS[rng.between(0, COUNTS.len() - 1)];
    let lengths = match rng.between(0, 5) {
        0 => made::lengths(rng, n, Filling::Empty),
        1 => made::lengths(rng, n, Filling::Full),
        2 => made::lengths(rng, n, Filling::EmptyLast),
        3 => made::lengths(rng, n, Filling::Mixed),
        _ => made::lengths(rng, n, Filling::Mixed)
            .iter()
            .map(|&length| length.min(rng.between(0, 30)))
            .collect(),
    };
    let most = rng.between(1, 6);
    let mut number = from + rng.between(0, 2) as u64;
    let mut numbers = Vec::new();
    for _ in 0..n {
        numbers.push(keys.key(number));
        number += rng.between(1, most) as u64;
    }
    let limit = number + FREE;
    MadeBase {
        base: Base {
            page: made::laid_out(rng, &numbers, &lengths),
            separator: keys.key(from),
        },
        cutoff: cut.then(|| keys.key(limit)),
        behind: number,
        limit: if cut { limit } else { 1 << 20 },
    }
}

/// How long the values of a sequence are.
#[derive(Clone, Copy)]
pub enum Sizes {
    Tiny,
    Longest,
    Any,
}

pub const SIZES: [Sizes; 4] = [Sizes::Tiny, Sizes::Tiny, Sizes::Longest, Sizes::Any];

pub fn length(rng: &mut Rng, sizes: Sizes) -> usize {
    match sizes {
        Sizes::Tiny => rng.between(0, 20),
        Sizes::Longest => LONGEST_VALUE - rng.between(0, 2),
        Sizes::Any => [
            0,
            1,
            LONGEST_VALUE - 2,
            LONGEST_VALUE,
            rng.between(0, 300),
            rng.between(0, LONGEST_VALUE),
        ][rng.between(0, 5)],
    }
}

pub fn put(rng: &mut Rng, length: usize) -> Change {
    Change::Put {
        value: made::bytes(rng, length),
        flag: rng.between(0, 2) == 0,
    }
}

/// The length of the next record on the way from a body to a greater one, in as few records as can be. None where no
/// record fits.
pub fn length_towards(body: usize, edge: usize) -> Option<usize> {
    let missing = edge.checked_sub(body + 34)?;
    if missing <= LONGEST_VALUE {
        return Some(missing);
    }
    // what then is missing must be a record too
    let left = missing - LONGEST_VALUE;
    Some(if left >= 34 {
        LONGEST_VALUE
    } else {
        LONGEST_VALUE - 34
    })
}
