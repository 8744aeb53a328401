//! A row of leaves: their pages by their separators. A leaf's cutoff is the next one's separator; the first separator is zeros.

use super::worker::Made;
use super::Checked;
use crate::hex;
use crate::oracle::Key;
use std::collections::BTreeMap;

#[derive(Default)]
pub struct Row(BTreeMap<Key, Vec<u8>>);

impl Row {
    pub fn len(&self) -> usize {
        self.0.len()
    }

    pub fn leaves(&self) -> impl Iterator<Item = (Key, &[u8])> {
        self.0
            .iter()
            .map(|(separator, page)| (*separator, &page[..]))
    }

    /// The leaf in which a key belongs; none in an empty row.
    pub fn leaf_of(&self, key: &Key) -> Option<(Key, &[u8])> {
        let (separator, page) = self.0.range(..=*key).next_back()?;
        Some((*separator, page))
    }

    /// The first leaf whose separator is at or above a key.
    pub fn first_from(&self, key: &Key) -> Option<(Key, &[u8])> {
        let (separator, page) = self.0.range(*key..).next()?;
        Some((*separator, page))
    }

    /// The separator behind a leaf's.
    pub fn after(&self, separator: &Key) -> Option<Key> {
        let mut from = self.0.range(*separator..).map(|(separator, _)| *separator);
        from.find(|next| next > separator)
    }

    /// New leaves in place of those that a worker took.
    pub fn apply(&mut self, made: Made) -> Checked<()> {
        for separator in &made.taken {
            self.0.remove(separator);
        }
        for (separator, page) in made.leaves {
            if self.0.insert(separator, page).is_some() {
                let separator = hex::plain(&separator);
                return Err(format!("two leaves with the separator {separator}"));
            }
        }
        Ok(())
    }

    /// As nomt's `enforce_first_leaf_separator`: whichever leaf is the first now, its separator is zeros.
    pub fn lower_first(&mut self) {
        if let Some((_, page)) = self.0.pop_first() {
            self.0.insert([0; 32], page);
        }
    }

    /// Every separator and page.
    pub fn same(&self, other: &Row) -> Checked<()> {
        if self.0 == other.0 {
            return Ok(());
        }
        let mut pairs = self.0.iter().zip(&other.0);
        let first = pairs.find(|(left, right)| left != right);
        let at = first.map_or("the end".to_string(), |((key, _), _)| hex::plain(key));
        Err(format!("the rows differ from {at} on"))
    }
}
