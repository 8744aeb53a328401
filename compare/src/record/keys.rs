//! The file `separate`: records of 99 bytes.
//!
//! | bytes | what |
//! |---|---|
//! | 0 to 31 | a |
//! | 32 to 63 | b |
//! | 64 | the reply: 0, or 11 for equal keys |
//! | 65, 66 | `prefix_len`, low byte first; 256 for equal keys |
//! | 67 to 98 | the separator; zeros when refused |

use super::SEED;
use crate::keys::{Fill, Shape, BITS};
use crate::oracle::{self, Key};
use crate::ours::keys::EQUAL_KEYS;
use crate::rng::Rng;

pub const RECORD: usize = 99;

/// Tails beside the random ones, taken in turn: the nearest pairs, the farthest, and those that end alike.
const EVEN_TAILS: [(Fill, Fill); 4] = [
    (Fill::Zeros, Fill::Ones),
    (Fill::Ones, Fill::Zeros),
    (Fill::Zeros, Fill::Zeros),
    (Fill::Ones, Fill::Ones),
];

/// Every count of shared bits, with either key above, with random and with even tails; then equal keys.
pub fn separate_records() -> Vec<u8> {
    let mut rng = Rng::new(SEED);
    let mut bytes = Vec::new();
    for shared in 0..BITS {
        for a_above in [false, true] {
            let even = EVEN_TAILS[shared % EVEN_TAILS.len()];
            for (tail_a, tail_b) in [(Fill::Random, Fill::Random), even] {
                let shape = Shape {
                    shared,
                    a_above,
                    head: Fill::Random,
                    tail_a,
                    tail_b,
                };
                let (a, b) = shape.pair(&mut rng);
                push_separate(&mut bytes, &a, &b);
            }
        }
    }
    for fill in [Fill::Zeros, Fill::Ones]
        .into_iter()
        .chain([Fill::Random; 6])
    {
        let key = fill.key(&mut rng);
        push_separate(&mut bytes, &key, &key);
    }
    bytes
}

fn push_separate(bytes: &mut Vec<u8>, a: &Key, b: &Key) {
    let (reply, separator) = if a == b {
        (EQUAL_KEYS, [0; 32])
    } else {
        (0, oracle::separate(a, b))
    };
    let shared = oracle::prefix_len(a, b) as u16;
    bytes.extend_from_slice(a);
    bytes.extend_from_slice(b);
    bytes.push(reply);
    bytes.extend_from_slice(&shared.to_le_bytes());
    bytes.extend_from_slice(&separator);
}
