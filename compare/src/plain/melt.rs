//! Document 02's melt sheet, written plainly: M-104, and M-106's weights of 64 bits. What refuses a row is M-101's.

use super::page::records;
use crate::oracle::io::PAGE_SIZE;
use crate::oracle::Key;
use crate::ours::melt::LeafMelt;
use crate::pages::plain_check;

/// "each at most 2 to the 40th", and the total's limit.
pub const MOST_WAX: u64 = 1 << 40;
const MOST_PAGES: usize = 16;

enum Weight {
    Piece(u64),
    Sprue(u64),
    Factor(f64),
}

/// A value's kind byte and fixed body; none where it is neither a weight nor a factor from 1 to 32.
fn read(value: &[u8]) -> Option<Weight> {
    let (kind, body) = value.split_first()?;
    let short = || {
        body.try_into()
            .ok()
            .map(|body| u32::from_le_bytes(body).into())
    };
    let long = || body.try_into().ok().map(u64::from_le_bytes);
    let limited = || long().filter(|wax| *wax <= MOST_WAX);
    match kind {
        1 => short().map(Weight::Piece),
        2 => short().map(Weight::Sprue),
        3 => {
            let factor = f64::from_bits(long()?);
            (1.0..=32.0)
                .contains(&factor)
                .then_some(Weight::Factor(factor))
        }
        4 => limited().map(Weight::Piece),
        5 => limited().map(Weight::Sprue),
        _ => None,
    }
}

/// Nos. 1 to 6 and 18 of a row.
fn row_verdict(pages: &[u8], separators: &[Key]) -> u8 {
    if pages.len() != separators.len() * PAGE_SIZE {
        return 1;
    }
    let leaf = |i: usize| {
        let page = &pages[i * PAGE_SIZE..][..PAGE_SIZE];
        let number = plain_check(page);
        if number != 0 {
            return number;
        }
        let next = separators.get(i + 1);
        let inside = |key: &Key| separators[i] <= *key && next.is_none_or(|next| key < next);
        let keys = records(page).iter().all(|record| inside(&record.key));
        if keys && inside(&separators[i]) {
            0
        } else {
            6
        }
    };
    let numbers = (0..separators.len()).map(leaf);
    match numbers.filter(|number| *number != 0).min() {
        Some(number) => number,
        None if separators.len() > MOST_PAGES => 18,
        None if separators.first().is_some_and(|first| *first != [0; 32]) => 18,
        None => 0,
    }
}

fn refused(refusal: u8) -> LeafMelt {
    LeafMelt {
        refusal,
        ..LeafMelt::default()
    }
}

pub fn melt(pages: &[u8], separators: &[Key], tree: &[u8; 24]) -> LeafMelt {
    let number = row_verdict(pages, separators);
    if number != 0 {
        return refused(number);
    }
    let (mut total, mut sprues, mut factors, mut bad) = (0u64, 0, Vec::new(), false);
    for record in pages.chunks(PAGE_SIZE).flat_map(records) {
        if record.flag || record.key[..24] != tree[..] {
            continue;
        }
        match read(&record.value) {
            Some(Weight::Piece(wax)) => total += wax,
            Some(Weight::Sprue(wax)) => {
                total += wax;
                sprues += 1;
            }
            Some(Weight::Factor(factor)) => factors.push(factor),
            None => bad = true,
        }
    }
    match (bad, sprues, &factors[..]) {
        (true, _, _) => refused(19),
        (false, 1, [_]) if total > MOST_WAX => refused(24),
        (false, 1, [factor]) => {
            let product = total as f64 * factor;
            LeafMelt {
                refusal: 0,
                total,
                factor: *factor,
                product,
                melt: product.ceil() as u64,
            }
        }
        _ => refused(20),
    }
}
