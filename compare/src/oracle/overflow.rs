//! The Rust's overflow pages over an allocator and a store in memory.

use super::beatree::ops::overflow::{self, inside};
use super::io::store::{IoHandle, PageNumber, StoreReader, SyncAllocator};
use super::io::{PagePool, PAGE_SIZE};
use super::Key;
use std::cell::Cell;

/// A value's cell and its pages one behind the other, in the order in which they were written.
pub struct Written {
    pub cell: Vec<u8>,
    pub pages: Vec<u8>,
}

pub fn total_needed_pages(size: usize) -> usize {
    inside::total_needed_pages(size)
}

/// `chunk` and `encode_cell`. A page's tail holds what the pool's page held.
pub fn split(value: &[u8], hash: &Key, numbers: &[u32], pool: &PagePool) -> Written {
    let allocator = SyncAllocator {
        numbers: numbers.to_vec(),
        used: Cell::new(0),
    };
    let io = IoHandle::default();
    let (cell, _) = overflow::chunk(value, &allocator, pool, &io).expect("there is no disk");
    let written = io.written.into_inner();
    Written {
        cell: overflow::encode_cell(value.len(), *hash, &cell),
        pages: written.into_iter().flat_map(|(_, page)| page).collect(),
    }
}

/// A store in which page i has number i.
pub fn store(numbers: &[u32], pages: &[u8], pool: &PagePool) -> StoreReader {
    let pages = pages.chunks_exact(PAGE_SIZE).map(<[u8]>::to_vec);
    StoreReader {
        pages: numbers.iter().copied().zip(pages).collect(),
        pool: pool.clone(),
    }
}

/// `read_blocking`.
pub fn join(cell: &[u8], store: &StoreReader) -> Vec<u8> {
    overflow::read_blocking(cell, store)
}

/// `delete`.
pub fn free(cell: &[u8], store: &StoreReader) -> Vec<u32> {
    let mut freed = Vec::new();
    overflow::delete(cell, store, &mut freed);
    freed.into_iter().map(|PageNumber(number)| number).collect()
}
