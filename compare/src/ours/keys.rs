//! The key calls.

use super::stack::metered;
use crate::leaf_updater::{leaf_prefix_len, leaf_separate};
use crate::lent::{Damage, Lent};
use crate::oracle::Key;

/// Document 01, refusal 11: `separate` of equal keys.
pub const EQUAL_KEYS: u8 = 11;

/// The calls as they are, with nothing around them.
pub mod bare {
    use super::Key;

    #[inline(always)]
    pub fn separate(a: &Key, b: &Key, out: &mut Key) -> u8 {
        // SAFETY: three places of 32 bytes, as the declaration asks; `out` is apart from `a` and `b`.
        unsafe { super::leaf_separate(a, b, out) }
    }

    #[inline(always)]
    pub fn prefix_len(a: &Key, b: &Key) -> usize {
        // SAFETY: two places of 32 bytes, as the declaration asks.
        unsafe { super::leaf_prefix_len(a, b) }
    }
}

/// What `separate` answered, and what `out` held after it.
pub struct Separated {
    pub reply: u8,
    pub out: Key,
}

/// `separate` between red zones, lent an `out` that holds `before`.
pub fn separate(a: &Key, b: &Key, before: &Key) -> Result<Separated, Damage> {
    let (lent_a, lent_b) = (Lent::new(a), Lent::new(b));
    let mut lent_out = Lent::new(before);
    let (a_ptr, b_ptr, out) = (lent_a.ptr(), lent_b.ptr(), lent_out.ptr_mut());
    // SAFETY: each pointer is to 32 bytes of its own; around them lie bytes of the same allocation.
    let call = || unsafe { leaf_separate(a_ptr.cast(), b_ptr.cast(), out.cast()) };
    let reply = metered("leaf_separate", call);
    lent_a.kept("a", a)?;
    lent_b.kept("b", b)?;
    let mut out = [0; 32];
    out.copy_from_slice(lent_out.after_call("out")?);
    Ok(Separated { reply, out })
}

/// `prefix_len` between red zones.
pub fn prefix_len(a: &Key, b: &Key) -> Result<usize, Damage> {
    let (lent_a, lent_b) = (Lent::new(a), Lent::new(b));
    let (a_ptr, b_ptr) = (lent_a.ptr(), lent_b.ptr());
    // SAFETY: as in `separate`.
    let call = || unsafe { leaf_prefix_len(a_ptr.cast(), b_ptr.cast()) };
    let shared = metered("leaf_prefix_len", call);
    lent_a.kept("a", a)?;
    lent_b.kept("b", b)?;
    Ok(shared)
}
