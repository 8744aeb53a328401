//! The calls on large values: cells and overflow pages.

use super::stack::metered;
use crate::leaf_updater::{
    leaf_overflow_free, leaf_overflow_join, leaf_overflow_pages, leaf_overflow_split, LeafFreed,
    LeafJoined, LeafPageCount, LeafSplit,
};
use crate::lent::{Damage, Laid, Lent};
use crate::oracle::Key;

impl Laid for u32 {
    unsafe fn put(&self, at: *mut Self) {
        at.write(*self);
    }
}

/// The calls as they are, with nothing around them.
pub mod bare {
    use super::{Key, LeafJoined, LeafSplit};

    // SAFETY of both: pointers and the lengths that belong to them.

    #[inline(always)]
    pub fn split(value: &[u8], hash: &Key, numbers: &[u32], area: &mut [u8]) -> LeafSplit {
        unsafe {
            super::leaf_overflow_split(
                value.as_ptr(),
                value.len(),
                hash,
                numbers.as_ptr(),
                numbers.len(),
                area.as_mut_ptr(),
                area.len(),
            )
        }
    }

    #[inline(always)]
    pub fn join(cell: &[u8], pages: &[u8], value: &mut [u8]) -> LeafJoined {
        unsafe {
            super::leaf_overflow_join(
                cell.as_ptr(),
                cell.len(),
                pages.as_ptr(),
                pages.len(),
                value.as_mut_ptr(),
                value.len(),
            )
        }
    }
}

// SAFETY of all calls below: each pointer is to as many elements as the length behind it says.

pub fn pages(len: usize) -> LeafPageCount {
    metered("leaf_overflow_pages", || unsafe {
        leaf_overflow_pages(len)
    })
}

/// The reply, and what an area that held `before` holds after the call.
pub fn split(
    value: &[u8],
    hash: &Key,
    numbers: &[u32],
    before: &[u8],
) -> Result<(LeafSplit, Vec<u8>), Damage> {
    let (lent_value, lent_hash) = (Lent::new(value), Lent::new(hash));
    let (lent_numbers, mut area) = (Lent::structs(numbers), Lent::new(before));
    let numbers_before = lent_numbers.bytes();
    let out = area.ptr_mut();
    let reply = metered("leaf_overflow_split", || unsafe {
        leaf_overflow_split(
            lent_value.ptr(),
            value.len(),
            lent_hash.ptr().cast(),
            lent_numbers.ptr().cast(),
            numbers.len(),
            out,
            before.len(),
        )
    });
    lent_value.kept("value", value)?;
    lent_hash.kept("hash", hash)?;
    lent_numbers.kept("numbers", &numbers_before)?;
    Ok((reply, area.after_call("area")?.to_vec()))
}

/// The reply, and what a buffer that held `before` holds after the call.
pub fn join(cell: &[u8], pages: &[u8], before: &[u8]) -> Result<(LeafJoined, Vec<u8>), Damage> {
    let (lent_cell, lent_pages) = (Lent::new(cell), Lent::new(pages));
    let mut value = Lent::new(before);
    let out = value.ptr_mut();
    let reply = metered("leaf_overflow_join", || unsafe {
        leaf_overflow_join(
            lent_cell.ptr(),
            cell.len(),
            lent_pages.ptr(),
            pages.len(),
            out,
            before.len(),
        )
    });
    lent_cell.kept("cell", cell)?;
    lent_pages.kept("pages", pages)?;
    Ok((reply, value.after_call("value")?.to_vec()))
}

/// The reply, and what a list that held `before` holds after the call.
pub fn free(cell: &[u8], pages: &[u8], before: &[u32]) -> Result<(LeafFreed, Vec<u32>), Damage> {
    let (lent_cell, lent_pages) = (Lent::new(cell), Lent::new(pages));
    let mut numbers = Lent::structs(before);
    let out = numbers.ptr_mut();
    let reply = metered("leaf_overflow_free", || unsafe {
        leaf_overflow_free(
            lent_cell.ptr(),
            cell.len(),
            lent_pages.ptr(),
            pages.len(),
            out.cast(),
            before.len(),
        )
    });
    lent_cell.kept("cell", cell)?;
    lent_pages.kept("pages", pages)?;
    Ok((reply, numbers.structs_after_call("numbers")?))
}
