//! The melt sheet of a tree in a row of leaves.

use super::stack::metered;
use crate::leaf_updater::leaf_melt;
use crate::lent::{Damage, Lent};
use crate::oracle::Key;

pub use crate::leaf_updater::LeafMelt;

/// The reply; none of what is lent may change.
pub fn melt(pages: &[u8], separators: &[Key], tree: &[u8; 24]) -> Result<LeafMelt, Damage> {
    let keys = separators.concat();
    let (lent_pages, lent_keys, lent_tree) = (Lent::new(pages), Lent::new(&keys), Lent::new(tree));
    // SAFETY: pointers to as many bytes and keys as the lengths say, and to 24 bytes.
    let reply = metered("leaf_melt", || unsafe {
        leaf_melt(
            lent_pages.ptr(),
            pages.len(),
            lent_keys.ptr().cast(),
            separators.len(),
            lent_tree.ptr().cast(),
        )
    });
    lent_pages.kept("pages", pages)?;
    lent_keys.kept("separators", &keys)?;
    lent_tree.kept("tree", tree)?;
    Ok(reply)
}
