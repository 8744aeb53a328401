//! `separate` and `prefix_len`.

use super::{report, SEED};
use crate::keys::{random_pair, BITS};
use crate::oracle::{self, Key};
use crate::ours::keys::bare;
use crate::rng::Rng;
use std::hint::black_box;

/// Many, so that the processor cannot learn them by heart; few enough for its caches.
const PAIRS: usize = 4096;

/// Mixes of inputs: shared bits from the first number to the second, evenly.
const MIXES: [(&str, usize, usize); 3] = [
    ("shared bits 0 to 255", 0, BITS - 1),
    ("shared bits 0 to 8", 0, 8),
    ("shared bits 248 to 255", 248, BITS - 1),
];

/// Whether the sides agree; else nothing is timed.
pub fn run() -> bool {
    let mut rng = Rng::new(SEED);
    for (mix, low, high) in MIXES {
        let pairs: Vec<(Key, Key)> = (0..PAIRS)
            .map(|_| {
                let shared = rng.between(low, high);
                random_pair(&mut rng, shared)
            })
            .collect();
        if !sides_agree(&pairs) {
            return false;
        }
        bench_separate(mix, &pairs);
        bench_prefix_len(mix, &pairs);
    }
    true
}

fn sides_agree(pairs: &[(Key, Key)]) -> bool {
    pairs.iter().all(|(a, b)| {
        let mut out = [0; 32];
        let reply = bare::separate(a, b, &mut out);
        let shared = bare::prefix_len(a, b);
        reply == 0 && out == oracle::separate(a, b) && shared == oracle::prefix_len(a, b)
    })
}

fn bench_separate(mix: &str, pairs: &[(Key, Key)]) {
    let mut out = [0; 32];
    let rust = || {
        for (a, b) in pairs {
            black_box(&oracle::separate(black_box(a), black_box(b)));
        }
    };
    let ours = || {
        for (a, b) in pairs {
            black_box(bare::separate(black_box(a), black_box(b), &mut out));
            black_box(&out);
        }
    };
    report("separate", mix, PAIRS, rust, ours);
}

fn bench_prefix_len(mix: &str, pairs: &[(Key, Key)]) {
    let rust = || {
        for (a, b) in pairs {
            black_box(oracle::prefix_len(black_box(a), black_box(b)));
        }
    };
    let ours = || {
        for (a, b) in pairs {
            black_box(bare::prefix_len(black_box(a), black_box(b)));
        }
    };
    report("prefix_len", mix, PAIRS, rust, ours);
}
