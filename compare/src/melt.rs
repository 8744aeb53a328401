//! Melt sheets: rows of leaves that the updater made, some of them spoilt, and in them trees of weights. Reply against the plain sheet bit for bit,
//! and of each accepted one the bound of one part in 2^53 and the least whole milligrams in 128-bit integers, from the factor's bits.

mod made;

use crate::hex;
use crate::oracle::Key;
use crate::ours::melt::{melt, LeafMelt};
use crate::plain;
use crate::random::{Mismatch, Tally, Whose};
use crate::rng::Rng;
use made::{Row, Tree};

const CALL: &str = "leaf_melt";

/// A round: every edge of a value, of a total and of a row, and made-up rows.
pub fn round(rng: &mut Rng, tally: &mut Tally) -> Result<(), Mismatch> {
    for value in made::edge_values() {
        let records = made::tree_with(&value);
        row_of(&made::row(records), tally)?;
    }
    for weights in made::edge_totals() {
        row_of(&made::row(made::tree_of(&weights)), tally)?;
    }
    for row in made::edge_rows() {
        row_of(&row, tally)?;
    }
    for _ in 0..16 {
        let row = made::any(rng);
        row_of(&row, tally)?;
        rewritten(rng, &row, tally)?;
        for _ in 0..4 {
            row_of(&row.spoilt(rng), tally)?;
        }
    }
    Ok(())
}

/// So many rows of trees, for `compare melt`.
pub fn run(rounds: u64, rng: &mut Rng, tally: &mut Tally) -> Result<(), Mismatch> {
    for _ in 0..rounds {
        round(rng, tally)?;
    }
    Ok(())
}

/// All trees of a row, and one that isn't there.
fn row_of(row: &Row, tally: &mut Tally) -> Result<(), Mismatch> {
    for tree in row.trees.iter().chain([&[0xee; 24]]) {
        let ours = sheet(row, tree)?;
        let due = plain::melt::melt(&row.pages, &row.separators, tree);
        if !same(&ours, &due) {
            return Err(mismatch(row, tree, format!("{ours:?}"), format!("{due:?}")));
        }
        if ours.refusal == 0 && !(is_near(&ours) && is_least(&ours)) {
            let due = "within one part in 2^53, and the least whole number".to_string();
            return Err(mismatch(row, tree, format!("{ours:?}"), due));
        }
        tally.answered(Whose::Library, CALL, ours.refusal);
    }
    Ok(())
}

/// M-106: the same sheets where records of kinds 1 and 2 are rewritten as 4 and 5.
fn rewritten(rng: &mut Rng, row: &Row, tally: &mut Tally) -> Result<(), Mismatch> {
    let other = row.rewritten(rng);
    for tree in &row.trees {
        let (before, after) = (sheet(row, tree)?, sheet(&other, tree)?);
        if !same(&before, &after) {
            return Err(mismatch(
                &other,
                tree,
                format!("{after:?}"),
                format!("{before:?}"),
            ));
        }
        tally.answered(Whose::Library, CALL, after.refusal);
    }
    Ok(())
}

fn sheet(row: &Row, tree: &Tree) -> Result<LeafMelt, Mismatch> {
    let reply = melt(&row.pages, &row.separators, tree);
    reply.map_err(|damage| mismatch(row, tree, damage.0, "what is lent stays".to_string()))
}

fn mismatch(row: &Row, tree: &Tree, ours: String, due: String) -> Mismatch {
    let separators: Vec<String> = row
        .separators
        .iter()
        .map(|key: &Key| hex::plain(key))
        .collect();
    let lines = vec![
        ("pages", hex::write(&row.pages)),
        ("separators", separators.join(" ")),
        ("tree", hex::plain(tree)),
        ("ours", ours),
        ("due", due),
    ];
    Mismatch { call: CALL, lines }
}

/// Bit for bit.
fn same(a: &LeafMelt, b: &LeafMelt) -> bool {
    let bits = |m: &LeafMelt| {
        (
            m.refusal,
            m.total,
            m.factor.to_bits(),
            m.product.to_bits(),
            m.melt,
        )
    };
    bits(a) == bits(b)
}

/// A factor or a product at or above 1, as a whole number of parts of 2^-52. Read from the bits: digits and the place of the point.
fn parts(x: f64) -> u128 {
    let bits = x.to_bits();
    let digits = u128::from((1 << 52) | (bits & ((1 << 52) - 1)));
    digits << ((bits >> 52) - 1023)
}

/// |product - exact| * 2^53 <= exact, all times 2^52.
fn is_near(m: &LeafMelt) -> bool {
    let exact = u128::from(m.total) * parts(m.factor);
    let product = if m.total == 0 { 0 } else { parts(m.product) };
    let away = product.abs_diff(exact).checked_mul(1 << 53);
    away.is_some_and(|away| away <= exact)
}

/// product <= melt, and not product <= melt - 1.
fn is_least(m: &LeafMelt) -> bool {
    let product = if m.total == 0 { 0 } else { parts(m.product) };
    let melt = u128::from(m.melt) << 52;
    product <= melt && melt < product + (1 << 52)
}

#[cfg(test)]
mod tests {
    use super::*;

    #[test]
    fn a_round_meets_every_refusal() {
        let mut tally = Tally::default();
        assert!(round(&mut Rng::new(1), &mut tally).is_ok());
        let refusals = tally.refusals(Whose::Library, CALL);
        assert_eq!(refusals, [1, 2, 3, 4, 5, 6, 18, 19, 20, 24]);
        assert!(tally.accepted(CALL) > 100);
    }

    #[test]
    fn the_paper_s_tree() {
        let weights = [(1, 1200), (1, 1300), (2, 2500), (3, 15.5f64.to_bits())];
        let row = made::row(made::tree_of(&weights));
        let due = LeafMelt {
            refusal: 0,
            total: 5000,
            factor: 15.5,
            product: 77_500.0,
            melt: 77_500,
        };
        assert_eq!(melt(&row.pages, &row.separators, &row.trees[0]), Ok(due));
    }

    #[test]
    fn a_product_that_is_a_bit_off_is_not_near() {
        let mut m = plain::melt::melt(&[], &[], &[0; 24]);
        (m.total, m.factor, m.product) = (3, 1.1, 3.0 * 1.1);
        assert!(is_near(&m));
        m.product = f64::from_bits(m.product.to_bits() + 1);
        assert!(!is_near(&m));
    }
}
