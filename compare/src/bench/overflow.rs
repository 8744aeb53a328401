//! A large value split and joined, beside a plain copy loop of the Rust's `chunk` and `read_blocking`: their bodies with the pages in one area, without allocator and store.

use super::{report, SEED};
use crate::oracle::io::PAGE_SIZE;
use crate::oracle::Key;
use crate::ours::overflow::bare;
use crate::rng::Rng;
use std::cell::RefCell;
use std::hint::black_box;

const CALLS: usize = 8;
const SIZES: [(&str, usize); 3] = [
    ("5,000 bytes, 2 pages", 5000),
    ("100,000 bytes, 25 pages", 100_000),
    ("1,048,576 bytes, 257 pages", 1_048_576),
];

/// Whether the sides agree; else nothing is timed.
pub fn run() -> bool {
    let mut rng = Rng::new(SEED);
    for (inputs, size) in SIZES {
        let value: Vec<u8> = (0..size).map(|_| rng.next() as u8).collect();
        let numbers: Vec<u32> = (0..257).map(|_| rng.next() as u32).collect();
        let hash = rng.key();
        let mut area = vec![0; 257 * PAGE_SIZE];
        let reply = bare::split(&value, &hash, &numbers, &mut area);
        let pages = reply.pages;
        let mut copied = vec![0; 257 * PAGE_SIZE];
        let cell = chunk(&value, &hash, &numbers[..pages], &mut copied);
        let (mut joined, mut read) = (vec![0; size], vec![0; size]);
        let length = bare::join(&reply.cell[..reply.cell_len], &area, &mut joined);
        read_pages(&copied, pages, &mut read);
        let cells_agree = cell[..] == reply.cell[..reply.cell_len];
        if reply.refusal != 0
            || length.refusal != 0
            || area != copied
            || !cells_agree
            || joined != value
            || read != value
        {
            return false;
        }
        bench_split(inputs, &value, &hash, &numbers, pages);
        bench_join(inputs, &reply.cell[..reply.cell_len], &area, pages, size);
    }
    true
}

// Both sides write to the same memory, so that where it lies makes no difference.

fn bench_split(inputs: &str, value: &[u8], hash: &Key, numbers: &[u32], pages: usize) {
    let area = RefCell::new(vec![0; 257 * PAGE_SIZE]);
    let rust = || {
        for _ in 0..CALLS {
            let area = &mut *area.borrow_mut();
            black_box(chunk(black_box(value), hash, &numbers[..pages], area));
        }
    };
    let ours = || {
        for _ in 0..CALLS {
            let area = &mut *area.borrow_mut();
            black_box(bare::split(black_box(value), hash, numbers, area));
        }
    };
    report("overflow split", inputs, CALLS, rust, ours);
}

fn bench_join(inputs: &str, cell: &[u8], area: &[u8], pages: usize, size: usize) {
    let value = RefCell::new(vec![0; size]);
    let rust = || {
        for _ in 0..CALLS {
            let value = &mut *value.borrow_mut();
            read_pages(black_box(area), pages, black_box(value));
        }
    };
    let ours = || {
        for _ in 0..CALLS {
            let value = &mut *value.borrow_mut();
            black_box(bare::join(black_box(cell), black_box(area), value));
        }
    };
    report("overflow join", inputs, CALLS, rust, ours);
}

/// The loop of `chunk` over lent pages, and `encode_cell`. Never inlined, so that it is a call as ours is.
#[inline(never)]
fn chunk(value: &[u8], hash: &Key, numbers: &[u32], area: &mut [u8]) -> Vec<u8> {
    let in_cell = numbers.len().min(15);
    let mut cell = (value.len() as u64).to_le_bytes().to_vec();
    cell.extend(hash);
    cell.extend(
        numbers[..in_cell]
            .iter()
            .flat_map(|number| number.to_le_bytes()),
    );
    let mut to_write = numbers[in_cell..].iter();
    let mut value = value;
    for page in area.chunks_exact_mut(PAGE_SIZE).take(numbers.len()) {
        let mut written = 0;
        while written < 1023 {
            let Some(number) = to_write.next() else { break };
            let start = 4 + written * 4;
            page[start..start + 4].copy_from_slice(&number.to_le_bytes());
            written += 1;
        }
        let bytes = value.len().min(4092 - written * 4);
        page[0..2].copy_from_slice(&(written as u16).to_le_bytes());
        page[2..4].copy_from_slice(&(bytes as u16).to_le_bytes());
        let start = 4 + written * 4;
        page[start..start + bytes].copy_from_slice(&value[..bytes]);
        page[start + bytes..].fill(0);
        value = &value[bytes..];
    }
    cell
}

/// The loop of `read_blocking` over lent pages.
#[inline(never)]
fn read_pages(area: &[u8], pages: usize, value: &mut [u8]) {
    let mut at = 0;
    for page in area.chunks_exact(PAGE_SIZE).take(pages) {
        let word = |at: usize| usize::from(u16::from_le_bytes([page[at], page[at + 1]]));
        let (numbers, bytes) = (word(0), word(2));
        let start = 4 + numbers * 4;
        value[at..at + bytes].copy_from_slice(&page[start..start + bytes]);
        at += bytes;
    }
}
