//! Cells and pages that no splitting writes, and buffers that are too short, against the plain functions.

use super::{lent, refused_split, same_lent, Value, NOISE, SPARE};
use crate::leaf_updater::{LeafFreed, LeafJoined};
use crate::oracle::io::PAGE_SIZE;
use crate::ours::overflow as ours;
use crate::plain::overflow::{self as plain, counts, MOST};
use crate::random::{Mismatch, Tally, Whose};
use crate::rng::Rng;

/// Damaged copies of each value.
const COPIES: usize = 24;

pub fn round(rng: &mut Rng, tally: &mut Tally) -> Result<(), Mismatch> {
    wrong_lengths(rng, tally)?;
    let size = [1, 100, 4092, 4093, 8184, 61380, 61381, 70000][rng.between(0, 7)];
    let value = Value::random(rng, size);
    let (cell, pages) = value.split(tally)?;
    read(&cell, &pages, size + SPARE, value.pages + SPARE, tally)?;
    for _ in 0..COPIES {
        let (mut cell, mut pages) = (cell.clone(), pages.clone());
        for _ in 0..rng.between(1, 2) {
            damage(rng, &mut cell, &mut pages);
        }
        let room = [size, size, size, size - 1, 0, size + SPARE][rng.between(0, 5)];
        let places = [value.pages, value.pages, value.pages, value.pages - 1, 0][rng.between(0, 4)];
        read(&cell, &pages, room, places, tally)?;
    }
    Ok(())
}

/// 21 comes first, whatever else is lent.
fn wrong_lengths(rng: &mut Rng, tally: &mut Tally) -> Result<(), Mismatch> {
    let long = vec![1; MOST + 1];
    for value in [&[][..], &long] {
        for area in [0, 2 * PAGE_SIZE] {
            let (before, numbers) = (vec![NOISE; area], vec![9; area / 2048]);
            let ours = ours::split(value, &rng.key(), &numbers, &before);
            let due = refused_split(plain::OVERFLOW_LENGTH);
            same_lent(
                "split",
                &format!("{} bytes", value.len()),
                ours,
                (due, before),
            )?;
            tally.answered(Whose::Library, "split", due.refusal);
        }
    }
    Ok(())
}

/// One thing off: a cell's size or length, a page's head or tail, a byte anywhere, pages in another order, or too few of them.
fn damage(rng: &mut Rng, cell: &mut Vec<u8>, pages: &mut Vec<u8>) {
    let count = pages.len() / PAGE_SIZE;
    let page = rng.between(0, count.max(1) - 1) * PAGE_SIZE;
    match rng.between(0, 9) {
        0 if cell.len() >= 8 => {
            let size = u64::from_le_bytes(cell[..8].try_into().expect("8 bytes"));
            let most = MOST as u64;
            let sizes = [
                0,
                most,
                most + 1,
                1 << 63,
                u64::MAX,
                size ^ 1,
                size ^ 3,
                size | 1 << 32,
            ];
            cell[..8].copy_from_slice(&sizes[rng.between(0, 7)].to_le_bytes());
        }
        1 => cell.resize(rng.between(0, 108), 0),
        2 => cell.resize(
            [0, 7, 8, 39, 40, 43, 44, cell.len() + 4][rng.between(0, 7)],
            1,
        ),
        3 if count > 0 => {
            let at = page + rng.between(0, 3);
            pages[at] = pages[at].wrapping_add([1, 0xff][rng.between(0, 1)]);
        }
        4 | 5 if count > 0 => {
            // a byte behind the bytes of the last page, where zeros stand
            let last = (count - 1) * PAGE_SIZE;
            let (n, b) = counts(&pages[last..]);
            let first = (4 + 4 * n + b).min(PAGE_SIZE - 1);
            let at =
                last + [first, PAGE_SIZE - 1, rng.between(first, PAGE_SIZE - 1)][rng.between(0, 2)];
            pages[at] ^= 1;
        }
        6 if count > 1 => {
            let other = rng.between(0, count - 1) * PAGE_SIZE;
            let (low, high) = (page.min(other), page.max(other));
            if low < high {
                let (front, back) = pages.split_at_mut(high);
                front[low..low + PAGE_SIZE].swap_with_slice(&mut back[..PAGE_SIZE]);
            }
        }
        7 => pages.truncate(
            pages
                .len()
                .saturating_sub([1, PAGE_SIZE, 4095][rng.between(0, 2)]),
        ),
        8 if count > 0 => {
            let at = page + rng.between(0, PAGE_SIZE - 1);
            pages[at] = rng.next() as u8;
        }
        _ if !cell.is_empty() => {
            let at = rng.between(0, cell.len() - 1);
            cell[at] ^= 1 << rng.between(0, 7);
        }
        _ => cell.push(0),
    }
}

/// Joined and freed, into so many bytes and places, as the plain functions do it.
fn read(
    cell: &[u8],
    pages: &[u8],
    room: usize,
    places: usize,
    tally: &mut Tally,
) -> Result<(), Mismatch> {
    let inputs = format!(
        "cell {cell:?}, {} bytes of pages, {room} bytes, {places} places",
        pages.len()
    );
    let joined = plain::read(cell, pages, |size, _| size <= room);
    let (due, left) = match &joined {
        Ok((value, _)) => {
            let (_, left) = lent(value, room - value.len(), NOISE);
            (
                LeafJoined {
                    refusal: 0,
                    len: value.len(),
                },
                left,
            )
        }
        &Err(refusal) => (LeafJoined { refusal, len: 0 }, vec![NOISE; room]),
    };
    same_lent(
        "join",
        &inputs,
        ours::join(cell, pages, &vec![NOISE; room]),
        (due, left),
    )?;
    tally.answered(Whose::Library, "join", due.refusal);
    let freed = plain::read(cell, pages, |_, count| count <= places);
    let (due, left) = match &freed {
        Ok((_, numbers)) => {
            let (_, left) = lent(numbers, places - numbers.len(), 5);
            (
                LeafFreed {
                    refusal: 0,
                    numbers: numbers.len(),
                },
                left,
            )
        }
        &Err(refusal) => (
            LeafFreed {
                refusal,
                numbers: 0,
            },
            vec![5; places],
        ),
    };
    same_lent(
        "free",
        &inputs,
        ours::free(cell, pages, &vec![5; places]),
        (due, left),
    )?;
    tally.answered(Whose::Library, "free", due.refusal);
    Ok(())
}
