//! Page calls. Ours check the page at every call, as document 01 demands; the Rust never does. Its side of the check's own
//! line is document 01's rule as `pages::plain_check` has it.

use super::{report, SEED};
use crate::oracle::beatree::leaf::node::{LeafBuilder, LeafNode};
use crate::oracle::io::{PagePool, PAGE_SIZE};
use crate::oracle::Key;
use crate::ours::pages::bare;
use crate::pages::{build, made, node_of, plain_check};
use crate::rng::Rng;
use std::hint::black_box;

const CALLS: usize = 1024;
/// As many records as the timings in the Rust's own benchmarks have: values of 4 bytes, the page nearly full.
const RECORDS: usize = 100;
const VALUE: usize = 4;

/// Whether the sides agree; else nothing is timed.
pub fn run() -> bool {
    let mut rng = Rng::new(SEED);
    let pool = PagePool::new();
    let page = made::page_of(&mut rng, RECORDS, VALUE);
    let node = node_of(&pool, &page);
    let range = [0, RECORDS, RECORDS];
    let mut out = vec![0; PAGE_SIZE];
    let built = bare::rebuild(&page, 0, RECORDS, RECORDS, &mut out) == 0;
    let indices: Vec<usize> = (0..CALLS).map(|_| rng.between(0, RECORDS - 1)).collect();
    if !built
        || out != build(&pool, &node, range)
        || bare::check(&page) != plain_check(&page)
        || !reads_agree(&page, &node, &indices)
    {
        return false;
    }
    bench_check(&page);
    bench_reads(&page, &node, &indices);
    bench_get(&page, &node, &mut rng);
    bench_build(&page, &node, &pool, &mut out);
    true
}

fn bench_check(page: &[u8]) {
    let rust = || {
        for _ in 0..CALLS {
            black_box(plain_check(black_box(page)));
        }
    };
    let ours = || {
        for _ in 0..CALLS {
            black_box(bare::check(black_box(page)));
        }
    };
    report(
        "page check",
        "100 records; against the plain rule",
        CALLS,
        rust,
        ours,
    );
}

// The Rust's reads, calls as ours are.

#[inline(never)]
fn rust_key(node: &LeafNode, i: usize) -> Key {
    node.key(i)
}

#[inline(never)]
fn rust_value(node: &LeafNode, i: usize) -> (&[u8], bool) {
    node.value(i)
}

#[inline(never)]
fn rust_values_size(node: &LeafNode, from: usize, to: usize) -> usize {
    node.values_size(from, to)
}

fn reads_agree(page: &[u8], node: &LeafNode, indices: &[usize]) -> bool {
    indices.iter().all(|&i| {
        let (key, value) = (bare::key(page, i), bare::value(page, i));
        let (rust_value, rust_flag) = rust_value(node, i);
        let size = bare::values_size(page, i, RECORDS);
        (key.refusal, key.key) == (0, rust_key(node, i))
            && (value.refusal, value.flag != 0) == (0, rust_flag)
            && &page[value.offset..][..value.len] == rust_value
            && (size.refusal, size.bytes) == (0, rust_values_size(node, i, RECORDS))
    })
}

fn bench_reads(page: &[u8], node: &LeafNode, indices: &[usize]) {
    bench_read(
        "page key",
        indices,
        |i| _ = black_box(rust_key(black_box(node), i)),
        |i| _ = black_box(bare::key(black_box(page), i)),
    );
    bench_read(
        "page value",
        indices,
        |i| _ = black_box(rust_value(black_box(node), i)),
        |i| _ = black_box(bare::value(black_box(page), i)),
    );
    bench_read(
        "values_size",
        indices,
        |i| _ = black_box(rust_values_size(black_box(node), i, RECORDS)),
        |i| _ = black_box(bare::values_size(black_box(page), i, RECORDS)),
    );
}

fn bench_read(call: &str, indices: &[usize], rust: impl Fn(usize), ours: impl Fn(usize)) {
    report(
        call,
        "100 records; ours checks the page",
        indices.len(),
        || indices.iter().for_each(|&i| rust(i)),
        || indices.iter().for_each(|&i| ours(i)),
    );
}

#[inline(never)]
fn rust_get<'a>(node: &'a LeafNode, key: &Key) -> Option<(&'a [u8], bool)> {
    node.get(key)
}

fn bench_get(page: &[u8], node: &LeafNode, rng: &mut Rng) {
    let keys: Vec<Key> = (0..CALLS)
        .map(|_| node.key(rng.between(0, RECORDS - 1)))
        .collect();
    let rust = || {
        for key in &keys {
            black_box(rust_get(black_box(node), key));
        }
    };
    let ours = || {
        for key in &keys {
            black_box(bare::get(black_box(page), key));
        }
    };
    report(
        "page get",
        "100 records; ours checks the page",
        CALLS,
        rust,
        ours,
    );
}

#[inline(never)]
fn rust_cells(pool: &PagePool, node: &LeafNode) -> LeafNode {
    let mut builder = LeafBuilder::new(pool, RECORDS, RECORDS * VALUE);
    for i in 0..RECORDS {
        let (value, flag) = node.value(i);
        builder.push_cell(node.key(i), value, flag);
    }
    builder.finish()
}

#[inline(never)]
fn rust_chunk(pool: &PagePool, node: &LeafNode) -> LeafNode {
    let mut builder = LeafBuilder::new(pool, RECORDS, RECORDS * VALUE);
    builder.push_chunk(node, 0, RECORDS);
    builder.finish()
}

fn bench_build(page: &[u8], node: &LeafNode, pool: &PagePool, out: &mut [u8]) {
    for (mid, inputs) in [
        (RECORDS, "100 cells; ours checks the page"),
        (0, "a chunk of 100; ours checks the page"),
    ] {
        let rust = || {
            for _ in 0..CALLS {
                if mid == 0 {
                    black_box(&rust_chunk(pool, black_box(node)).inner[0]);
                } else {
                    black_box(&rust_cells(pool, black_box(node)).inner[0]);
                }
            }
        };
        let ours = || {
            for _ in 0..CALLS {
                black_box(bare::rebuild(black_box(page), 0, mid, RECORDS, out));
                black_box(&out);
            }
        };
        report("build", inputs, CALLS, rust, ours);
    }
}
