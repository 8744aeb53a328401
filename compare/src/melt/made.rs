//! Rows of leaves with trees of weights in them, made by the updater.

use crate::oracle::io::PAGE_SIZE;
use crate::oracle::Key;
use crate::ours::side::Library;
use crate::plain::digest::{asked, TICKET};
use crate::plain::melt::MOST_WAX;
use crate::plain::page::records;
use crate::rng::Rng;
use crate::vectors::answers::Answer;
use crate::vectors::calls::{Call, Change, Instead};
use std::collections::BTreeMap;

pub type Tree = [u8; 24];
pub type Records = BTreeMap<Key, (Vec<u8>, bool)>;

/// Pages one behind the other, their separators, and the trees that are asked for.
#[derive(Clone)]
pub struct Row {
    pub pages: Vec<u8>,
    pub separators: Vec<Key>,
    pub trees: Vec<Tree>,
}

/// 1, the next float below it, 32, the next above, 15.5, and what is no factor at all.
const FACTORS: [u64; 13] = [
    0x3ff0_0000_0000_0000,
    0x3fef_ffff_ffff_ffff,
    0x4040_0000_0000_0000,
    0x4040_0000_0000_0001,
    0x402f_0000_0000_0000,
    0x7ff8_0000_0000_0000, // NaN
    0xfff8_0000_0000_0000,
    0x7ff0_0000_0000_0000, // infinities
    0xfff0_0000_0000_0000,
    0xbff0_0000_0000_0000, // -1
    0x0000_0000_0000_0001, // a subnormal number
    0x0000_0000_0000_0000,
    0x8000_0000_0000_0000,
];

const WEIGHTS: [u64; 11] = [
    0,
    1,
    u32::MAX as u64 - 1,
    u32::MAX as u64,
    1 << 32,
    MOST_WAX - 1,
    MOST_WAX,
    MOST_WAX + 1,
    1 << 63,
    u64::MAX,
    0x0102_0304_0506_0708,
];

fn value(kind: u8, body: u64) -> Vec<u8> {
    let length = if kind == 1 || kind == 2 { 4 } else { 8 };
    let mut value = vec![kind];
    value.extend(&body.to_le_bytes()[..length]);
    value
}

fn key(tree: &Tree, rest: u64) -> Key {
    let mut key = [0; 32];
    key[..24].copy_from_slice(tree);
    key[24..].copy_from_slice(&rest.to_be_bytes());
    key
}

const TREE: Tree = [0x41; 24];

/// One tree of weights by kind and body.
pub fn tree_of(weights: &[(u8, u64)]) -> Records {
    let weight = |(i, (kind, body)): (usize, &(u8, u64))| {
        (key(&TREE, i as u64), (value(*kind, *body), false))
    };
    weights.iter().enumerate().map(weight).collect()
}

/// A right tree with one value more.
pub fn tree_with(value: &[u8]) -> Records {
    let mut records = tree_of(&[(1, 7), (2, 9), (3, FACTORS[4])]);
    records.insert(key(&TREE, 99), (value.to_vec(), false));
    records
}

/// Every length from 0 to 10 for every kind from 0 to 7, and every edge of a factor and a weight.
pub fn edge_values() -> Vec<Vec<u8>> {
    let mut values = vec![Vec::new()];
    for kind in 0..8 {
        for length in 0..10 {
            values.push([&[kind][..], &vec![0x3f; length]].concat());
        }
    }
    for bits in FACTORS {
        values.push(value(3, bits));
    }
    for wax in WEIGHTS {
        values.extend([value(4, wax), value(5, wax)]);
    }
    values
}

/// Trees at the edges of Nos. 20 and 24, and products with and without a fraction.
pub fn edge_totals() -> Vec<Vec<(u8, u64)>> {
    let factor = |bits| (3, bits);
    let full = vec![(1, u32::MAX.into()); 256];
    let with = |more: &[(u8, u64)]| [&full[..], more].concat();
    let mut trees = vec![
        vec![],
        vec![(2, 0)],
        vec![(2, 0), (2, 0), factor(FACTORS[0])],
        vec![(2, 0), (5, 0), factor(FACTORS[0])],
        vec![(2, 0), factor(FACTORS[0]), factor(FACTORS[0])],
        vec![(1, 5), factor(FACTORS[0])],
        vec![(4, MOST_WAX), (5, 1), factor(FACTORS[2])],
        vec![(4, MOST_WAX), (5, 1), (5, 1), factor(FACTORS[2])],
        vec![(4, MOST_WAX), (5, 1), (9, 1), factor(FACTORS[2])],
        vec![
            (4, MOST_WAX / 2),
            (4, MOST_WAX / 2),
            (2, 1),
            factor(FACTORS[0]),
        ],
        vec![
            (4, MOST_WAX / 2),
            (4, MOST_WAX / 2),
            (2, 0),
            factor(FACTORS[0]),
        ],
        // 256 of 2^32 - 1 are 256 short of 2^40
        with(&[(2, 256), factor(FACTORS[2])]),
        with(&[(2, 257), factor(FACTORS[2])]),
        with(&[(1, u32::MAX.into()), (2, 0), factor(FACTORS[2])]),
        // 3 times a factor whose exact product is 5 + 2^-52
        vec![(2, 3), factor(0x3ffa_aaaa_aaaa_aaab)],
    ];
    for bits in FACTORS
        .into_iter()
        .chain([1.5f64.to_bits(), 2.5f64.to_bits()])
    {
        for wax in [0, 1, 3, u64::from(u32::MAX), MOST_WAX - 1, MOST_WAX] {
            trees.push(vec![(5, wax), factor(bits)]);
        }
    }
    trees
}

/// Rows that are refused whatever their trees are, and the longest one that isn't.
pub fn edge_rows() -> Vec<Row> {
    let empty = |pages: usize, first: u8| Row {
        pages: vec![0; pages * PAGE_SIZE],
        separators: (0..pages).map(|i| [first + i as u8; 32]).collect(),
        trees: vec![TREE],
    };
    // each number of M-101 on a row whose tree earns 19
    let spoilt = |spoil: fn(&mut Row)| {
        let mut row = row(tree_with(&[9]));
        spoil(&mut row);
        row
    };
    vec![
        empty(0, 0),
        empty(16, 0),
        empty(17, 0),
        empty(1, 1),
        spoilt(|row| row.pages.push(0)),
        spoilt(|row| row.separators.push([0xff; 32])),
        spoilt(|row| row.pages[0] = 121),
        spoilt(|row| row.pages[34..36].fill(0)),
        spoilt(long_value),
        spoilt(|row| row.pages[2] = 0xff),
        spoilt(|row| {
            // a further leaf that begins below the first one's keys
            row.pages.extend([0; PAGE_SIZE]);
            row.separators.push([1; 32]);
        }),
        spoilt(|row| row.separators[0][31] = 1),
    ]
}

/// A first page with one value of more than 1,332 bytes.
fn long_value(row: &mut Row) {
    row.pages[..PAGE_SIZE].fill(0);
    row.pages[0] = 1;
    row.pages[35] = 9;
}

/// The row that the updater makes of records.
pub fn row(records: Records) -> Row {
    let mut trees: Vec<Tree> = records
        .keys()
        .map(|key| key[..24].try_into().expect("24 bytes"))
        .collect();
    trees.dedup();
    let bytes: usize = records.values().map(|(value, _)| value.len()).sum();
    let (list, store) = (records.len().max(121), bytes.max(PAGE_SIZE));
    let mut library = Library::default();
    accepted(
        &mut library,
        Call::Open {
            every: true,
            base: None,
            cutoff: None,
            list,
            store,
        },
    );
    let count = records.len();
    for (key, (value, flag)) in records {
        let change = Change::Put { value, flag };
        let instead = Instead::default();
        accepted(
            &mut library,
            Call::Ingest {
                key,
                change,
                instead,
            },
        );
    }
    let pages = asked(34 * count + bytes);
    let digest = Call::Digest {
        area: pages * PAGE_SIZE,
        tickets: pages * TICKET,
        instead: Instead::default(),
    };
    let Answer::Leaves { pages, tickets, .. } = accepted(&mut library, digest) else {
        panic!("a digest gives leaves");
    };
    Row {
        pages: pages.concat(),
        separators: separators(&tickets),
        trees,
    }
}

fn accepted(library: &mut Library, call: Call) -> Answer {
    match library.answer(&call) {
        Ok(answer) if answer.refusal() == 0 => answer,
        other => panic!("{}: {other:?}", call.line()),
    }
}

fn separators(mut tickets: &[u8]) -> Vec<Key> {
    let mut separators = Vec::new();
    while let Some((kind, rest)) = tickets.split_first() {
        separators.push(rest[..32].try_into().expect("32 bytes"));
        tickets = &rest[if *kind == 1 { 64 } else { 32 }..];
    }
    separators
}

/// Some trees, neighbours by their last byte among them, over several leaves, mostly right ones, with other records between.
pub fn any(rng: &mut Rng) -> Row {
    let mut records = Records::new();
    let mut tree: Tree = rng.key()[..24].try_into().expect("24 bytes");
    for _ in 0..rng.between(1, 5) {
        fill(rng, &tree, &mut records);
        match rng.between(0, 2) {
            0 => tree[23] = tree[23].wrapping_add(1),
            1 => tree[0] = tree[0].wrapping_add(1),
            _ => tree = rng.key()[..24].try_into().expect("24 bytes"),
        }
    }
    row(records)
}

fn fill(rng: &mut Rng, tree: &Tree, records: &mut Records) {
    let mut put = |rng: &mut Rng, value: Vec<u8>, flag| {
        records.insert(key(tree, rng.next()), (value, flag));
    };
    let few = rng.between(0, 9) > 0;
    for _ in 0..rng.between(0, if few { 12 } else { 100 }) {
        let piece = weight(rng, [1, 4]);
        put(rng, piece, false);
    }
    let sprue = weight(rng, [2, 5]);
    put(rng, sprue, false);
    let span = FACTORS[2] - FACTORS[0];
    let factor = value(3, FACTORS[0] + rng.next() % (span + 1));
    put(rng, factor, false);
    // what is flagged is skipped, whatever it is
    for _ in 0..rng.between(0, 3) {
        let length = rng.between(0, 60);
        let value = vec![rng.next() as u8; length];
        put(rng, value, true);
    }
    match rng.between(0, 11) {
        0 => put(rng, value(9, 1), false),
        1 => put(rng, value(2, 1), false),
        2 => put(rng, value(3, FACTORS[4]), false),
        _ => {}
    }
}

/// A piece or a sprue: small, of any size, or at the edge of 32 bits.
fn weight(rng: &mut Rng, kinds: [u8; 2]) -> Vec<u8> {
    let kind = kinds[rng.between(0, 1)];
    let wax = match rng.between(0, 7) {
        0 => u32::MAX.into(),
        1 => rng.next() >> rng.between(24, 63),
        _ => rng.next() % 100_000,
    };
    value(
        kind,
        if kind < 3 {
            wax.min(u32::MAX.into())
        } else {
            wax
        },
    )
}

impl Row {
    /// A copy with a byte changed, a page or a separator too few, separators swapped, or one above zero at the start.
    pub fn spoilt(&self, rng: &mut Rng) -> Row {
        let mut row = self.clone();
        let pages = row.separators.len();
        match rng.between(0, 5) {
            0 => {
                row.separators.pop();
            }
            1 if pages > 1 => row.separators.swap(0, pages - 1),
            2 => row.separators[0][31] = 1,
            3 => {
                // count, flags and offsets lie here
                let at = rng.between(0, 80);
                row.pages[at] = rng.next() as u8;
            }
            4 => {
                let at = rng.between(0, row.pages.len() - 1);
                row.pages[at] ^= 1 << rng.between(0, 7);
            }
            _ => long_value(&mut row),
        }
        row
    }

    /// The row that the updater makes where records of kinds 1 and 2 become 4 and 5: all of them, or some.
    pub fn rewritten(&self, rng: &mut Rng) -> Row {
        let every = rng.between(0, 1) == 0;
        let mut rewritten = Records::new();
        for mut record in self.pages.chunks(PAGE_SIZE).flat_map(records) {
            let kind = record.value.first().copied().unwrap_or(0);
            if !record.flag
                && (kind == 1 || kind == 2)
                && record.value.len() == 5
                && (every || rng.between(0, 1) == 0)
            {
                record.value[0] = kind + 3;
                record.value.extend([0; 4]);
            }
            rewritten.insert(record.key, (record.value, record.flag));
        }
        row(rewritten)
    }
}
