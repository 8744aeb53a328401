//! Document 02, M-105, written plainly: the page count by trying, splitting as it stands, and of what is read whether splitting it again writes it.

use crate::oracle::Key;

const PAGE: usize = 4096;
const BODY: usize = 4092;
const NUMBERS_OF_A_PAGE: usize = 1023;
const NUMBERS_OF_A_CELL: usize = 15;
pub const MOST: usize = 1_048_576;

pub const OVERFLOW_LENGTH: u8 = 21;
pub const SHORT_BUFFER: u8 = 22;
pub const BAD_OVERFLOW: u8 = 23;

/// "the smallest t for which t times 4,092 holds the value and 4 bytes for each page beyond the fifteenth", t tried from `from` on.
pub fn count_from(from: usize, size: usize) -> usize {
    let holds = |t: &usize| t * BODY >= size + 4 * t.saturating_sub(NUMBERS_OF_A_CELL);
    (from..).find(holds).expect("some count holds it")
}

pub fn split(value: &[u8], hash: &Key, numbers: &[u32]) -> (Vec<u8>, Vec<u8>) {
    let t = count_from(1, value.len());
    let used = &numbers[..t];
    let (in_cell, mut others) = used.split_at(t.min(NUMBERS_OF_A_CELL));
    let mut cell = (value.len() as u64).to_le_bytes().to_vec();
    cell.extend(hash);
    cell.extend(in_cell.iter().flat_map(|number| number.to_le_bytes()));
    let (mut area, mut value) = (Vec::new(), value);
    for _ in 0..t {
        let (here, later) = others.split_at(others.len().min(NUMBERS_OF_A_PAGE));
        let (bytes, behind) = value.split_at(value.len().min(BODY - 4 * here.len()));
        let start = area.len();
        area.extend((here.len() as u16).to_le_bytes());
        area.extend((bytes.len() as u16).to_le_bytes());
        area.extend(here.iter().flat_map(|number| number.to_le_bytes()));
        area.extend(bytes);
        area.resize(start + PAGE, 0);
        (others, value) = (later, behind);
    }
    (cell, area)
}

/// What a cell and its pages hold, where splitting it writes them; `fits` says of size and page count whether what is lent for the answer is long enough.
pub fn read(
    cell: &[u8],
    pages: &[u8],
    fits: impl FnOnce(usize, usize) -> bool,
) -> Result<(Vec<u8>, Vec<u32>), u8> {
    let size = cell.get(..8).map_or(0, |bytes| {
        u64::from_le_bytes(bytes.try_into().expect("8 bytes")) as usize
    });
    if size == 0 || size > MOST {
        return Err(BAD_OVERFLOW);
    }
    let t = count_from(1, size);
    if cell.len() != 40 + 4 * t.min(NUMBERS_OF_A_CELL) {
        return Err(BAD_OVERFLOW);
    }
    if !fits(size, t) || pages.len() < PAGE * t {
        return Err(SHORT_BUFFER);
    }
    let number = |bytes: &[u8]| u32::from_le_bytes(bytes.try_into().expect("4 bytes"));
    let mut numbers: Vec<u32> = cell[40..].chunks_exact(4).map(number).collect();
    let mut value = Vec::new();
    for page in pages.chunks_exact(PAGE).take(t) {
        let (n, b) = counts(page);
        let body = page[4..].get(..4 * n + b).ok_or(BAD_OVERFLOW)?;
        numbers.extend(body[..4 * n].chunks_exact(4).map(number));
        value.extend(&body[4 * n..]);
    }
    let hash: Key = cell[8..40].try_into().expect("32 bytes");
    if value.len() != size || numbers.len() != t {
        return Err(BAD_OVERFLOW);
    }
    let (again, area) = split(&value, &hash, &numbers);
    if again != cell || area != pages[..PAGE * t] {
        return Err(BAD_OVERFLOW);
    }
    Ok((value, numbers))
}

/// How many numbers and bytes a page says that it has.
pub fn counts(page: &[u8]) -> (usize, usize) {
    let word = |at: usize| usize::from(page[at]) + 256 * usize::from(page[at + 1]);
    (word(0), word(2))
}

/// Zeros behind the bytes of each page.
pub fn clear_tails(pages: &mut [u8]) {
    for page in pages.chunks_exact_mut(PAGE) {
        let (n, b) = counts(page);
        page[4 + 4 * n + b..].fill(0);
    }
}
