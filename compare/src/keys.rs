//! Keys: pairs with a chosen number of shared bits, a plain reference, and the comparison of the key calls.
//! Bits are counted from the top of byte 0, as in document 01.

use crate::hex;
use crate::oracle::{self, Key};
use crate::ours::keys::{self as ours, EQUAL_KEYS};
use crate::random::{Mismatch, Tally};
use crate::rng::Rng;

pub const BITS: usize = 256;

/// What a part of a made-up key is filled with.
#[derive(Clone, Copy)]
pub enum Fill {
    Random,
    Zeros,
    Ones,
}

pub const FILLS: [Fill; 3] = [Fill::Random, Fill::Zeros, Fill::Ones];

impl Fill {
    pub fn key(self, rng: &mut Rng) -> Key {
        match self {
            Fill::Random => rng.key(),
            Fill::Zeros => [0; 32],
            Fill::Ones => [0xff; 32],
        }
    }
}

/// How a pair is made: its shared bits, which key is the higher one, and what stands elsewhere.
#[derive(Clone, Copy)]
pub struct Shape {
    /// Exactly so many leading bits are equal; below `BITS`.
    pub shared: usize,
    /// Whether `a` is the one with bit `shared` set.
    pub a_above: bool,
    pub head: Fill,
    pub tail_a: Fill,
    pub tail_b: Fill,
}

impl Shape {
    pub fn pair(self, rng: &mut Rng) -> (Key, Key) {
        let head = self.head.key(rng);
        let mut a = self.tail_a.key(rng);
        let mut b = self.tail_b.key(rng);
        for at in 0..self.shared {
            set_bit(&mut a, at, bit(&head, at));
            set_bit(&mut b, at, bit(&head, at));
        }
        set_bit(&mut a, self.shared, self.a_above);
        set_bit(&mut b, self.shared, !self.a_above);
        (a, b)
    }
}

/// A pair with so many shared bits; all else is left to chance.
pub fn random_pair(rng: &mut Rng, shared: usize) -> (Key, Key) {
    let shape = Shape {
        shared,
        a_above: rng.between(0, 1) == 1,
        head: Fill::Random,
        tail_a: Fill::Random,
        tail_b: Fill::Random,
    };
    shape.pair(rng)
}

fn bit(key: &Key, at: usize) -> bool {
    key[at / 8] >> (7 - at % 8) & 1 == 1
}

fn set_bit(key: &mut Key, at: usize, on: bool) {
    let mask = 0x80 >> (at % 8);
    if on {
        key[at / 8] |= mask;
    } else {
        key[at / 8] &= !mask;
    }
}

/// Document 01's `prefix_len`, bit by bit: a third opinion, should the two sides share a fault.
fn plain_prefix_len(a: &Key, b: &Key) -> usize {
    (0..BITS).take_while(|&at| bit(a, at) == bit(b, at)).count()
}

/// Document 01's `separate`, bit by bit: b's leading bits, one more than are shared, then zeros.
/// None for equal keys.
pub fn plain_separate(a: &Key, b: &Key) -> Option<Key> {
    let shared = plain_prefix_len(a, b);
    if shared == BITS {
        return None;
    }
    let mut key = [0; 32];
    for at in 0..=shared {
        set_bit(&mut key, at, bit(b, at));
    }
    Some(key)
}

/// Every count of shared bits, either key above, every filling of head and tails; and equal keys.
pub fn round(rng: &mut Rng, tally: &mut Tally) -> Result<(), Mismatch> {
    for shared in 0..BITS {
        for a_above in [false, true] {
            round_of_fills(shared, a_above, rng, tally)?;
        }
    }
    for fill in FILLS {
        for _ in 0..16 {
            let key = fill.key(rng);
            check_equal_keys(&key, &rng.key(), tally)?;
            check_prefix_len(&key, &key, BITS, tally)?;
        }
    }
    Ok(())
}

fn round_of_fills(
    shared: usize,
    a_above: bool,
    rng: &mut Rng,
    tally: &mut Tally,
) -> Result<(), Mismatch> {
    for head in FILLS {
        for tail_a in FILLS {
            for tail_b in FILLS {
                let shape = Shape {
                    shared,
                    a_above,
                    head,
                    tail_a,
                    tail_b,
                };
                let (a, b) = shape.pair(rng);
                check_separate(&a, &b, &rng.key(), tally)?;
                check_prefix_len(&a, &b, shared, tally)?;
            }
        }
    }
    Ok(())
}

/// Document 01 says that equal keys make the Rust panic; ours refuses them for that reason alone.
pub fn equal_keys_make_the_rust_panic(rng: &mut Rng, tally: &mut Tally) -> Result<(), Mismatch> {
    const CALL: &str = "separate of equal keys panics in the Rust";
    for fill in FILLS {
        let key = fill.key(rng);
        if !oracle::separate_panics(&key, &key) {
            let lines = vec![
                ("a and b", hex::plain(&key)),
                ("the Rust", "no panic".into()),
            ];
            return Err(Mismatch { call: CALL, lines });
        }
        tally.agreed(CALL);
    }
    Ok(())
}

fn check_separate(a: &Key, b: &Key, before: &Key, tally: &mut Tally) -> Result<(), Mismatch> {
    const CALL: &str = "separate";
    let ours = ours::separate(a, b, before)
        .map_err(|damage| Mismatch::damage(CALL, separate_inputs(a, b, before), damage))?;
    let rust = oracle::separate(a, b);
    let plain = plain_separate(a, b);
    if ours.reply == 0 && ours.out == rust && plain == Some(rust) {
        tally.agreed(CALL);
        return Ok(());
    }
    let mut lines = separate_inputs(a, b, before);
    lines.push(("ours", answer(&ours)));
    lines.push(("the Rust", hex::plain(&rust)));
    lines.push((
        "bit by bit",
        plain.map_or("refused".into(), |key| hex::plain(&key)),
    ));
    Err(Mismatch { call: CALL, lines })
}

fn check_equal_keys(key: &Key, before: &Key, tally: &mut Tally) -> Result<(), Mismatch> {
    const CALL: &str = "separate of equal keys";
    let ours = ours::separate(key, key, before)
        .map_err(|damage| Mismatch::damage(CALL, separate_inputs(key, key, before), damage))?;
    if ours.reply == EQUAL_KEYS && ours.out == *before {
        tally.agreed(CALL);
        return Ok(());
    }
    let mut lines = separate_inputs(key, key, before);
    lines.push(("ours", answer(&ours)));
    lines.push(("document 01", format!("reply {EQUAL_KEYS}, out unchanged")));
    Err(Mismatch { call: CALL, lines })
}

fn check_prefix_len(a: &Key, b: &Key, shared: usize, tally: &mut Tally) -> Result<(), Mismatch> {
    const CALL: &str = "prefix_len";
    let inputs = || vec![("a", hex::plain(a)), ("b", hex::plain(b))];
    let ours = ours::prefix_len(a, b).map_err(|damage| Mismatch::damage(CALL, inputs(), damage))?;
    let rust = oracle::prefix_len(a, b);
    let plain = plain_prefix_len(a, b);
    if ours == shared && rust == shared && plain == shared {
        tally.agreed(CALL);
        return Ok(());
    }
    let mut lines = inputs();
    lines.push(("ours", ours.to_string()));
    lines.push(("the Rust", rust.to_string()));
    lines.push(("bit by bit", plain.to_string()));
    lines.push(("as made", shared.to_string()));
    Err(Mismatch { call: CALL, lines })
}

fn separate_inputs(a: &Key, b: &Key, before: &Key) -> Vec<(&'static str, String)> {
    vec![
        ("a", hex::plain(a)),
        ("b", hex::plain(b)),
        ("out before", hex::plain(before)),
    ]
}

fn answer(ours: &ours::Separated) -> String {
    format!("reply {}, out {}", ours.reply, hex::plain(&ours.out))
}
