//! The calls that read a leaf page, and the one that builds a page anew from a page's records.

use super::stack::metered;
use crate::leaf_updater::{
    leaf_page_check, leaf_page_get, leaf_page_key, leaf_page_rebuild, leaf_page_value,
    leaf_page_values_size, LeafKey, LeafSize,
};
use crate::lent::{Damage, Lent};
use crate::oracle::Key;

pub use crate::leaf_updater::LeafValue;

/// Document 01, refusal 10: no such index, or an empty or too long range.
pub const NO_SUCH_INDEX: u8 = 10;
/// Document 01, refusal 17: the lent area is too short.
pub const SHORT_AREA: u8 = 17;

/// The calls as they are, with nothing around them.
pub mod bare {
    use super::{Key, LeafKey, LeafSize, LeafValue};

    // SAFETY of all: a pointer and the length that belongs to it, and places of 32 bytes for keys.

    #[inline(always)]
    pub fn check(page: &[u8]) -> u8 {
        unsafe { super::leaf_page_check(page.as_ptr(), page.len()) }
    }

    #[inline(always)]
    pub fn key(page: &[u8], i: usize) -> LeafKey {
        unsafe { super::leaf_page_key(page.as_ptr(), page.len(), i) }
    }

    #[inline(always)]
    pub fn value(page: &[u8], i: usize) -> LeafValue {
        unsafe { super::leaf_page_value(page.as_ptr(), page.len(), i) }
    }

    #[inline(always)]
    pub fn values_size(page: &[u8], from: usize, to: usize) -> LeafSize {
        unsafe { super::leaf_page_values_size(page.as_ptr(), page.len(), from, to) }
    }

    #[inline(always)]
    pub fn get(page: &[u8], key: &Key) -> LeafValue {
        unsafe { super::leaf_page_get(page.as_ptr(), page.len(), key) }
    }

    #[inline(always)]
    pub fn rebuild(page: &[u8], from: usize, mid: usize, to: usize, out: &mut [u8]) -> u8 {
        unsafe {
            super::leaf_page_rebuild(
                page.as_ptr(),
                page.len(),
                from,
                mid,
                to,
                out.as_mut_ptr(),
                out.len(),
            )
        }
    }
}

/// A page that is lent to many calls, between red zones; none of them may change it.
pub struct LentPage<'a> {
    page: &'a [u8],
    lent: Lent,
}

impl<'a> LentPage<'a> {
    pub fn new(page: &'a [u8]) -> Self {
        let lent = Lent::new(page);
        LentPage { page, lent }
    }

    /// A call on the page, which must be as it was.
    fn reading<T>(
        &self,
        name: &'static str,
        call: impl FnOnce(*const u8, usize) -> T,
    ) -> Result<T, Damage> {
        let (page, length) = (self.lent.ptr(), self.page.len());
        let reply = metered(name, || call(page, length));
        self.lent.kept("page", self.page)?;
        Ok(reply)
    }

    // SAFETY of all calls: the pointer is to as many bytes as the length says.

    pub fn check(&self) -> Result<u8, Damage> {
        self.reading("leaf_page_check", |page, length| unsafe {
            leaf_page_check(page, length)
        })
    }

    pub fn key(&self, i: usize) -> Result<LeafKey, Damage> {
        self.reading("leaf_page_key", |page, length| unsafe {
            leaf_page_key(page, length, i)
        })
    }

    pub fn value(&self, i: usize) -> Result<LeafValue, Damage> {
        self.reading("leaf_page_value", |page, length| unsafe {
            leaf_page_value(page, length, i)
        })
    }

    pub fn values_size(&self, from: usize, to: usize) -> Result<LeafSize, Damage> {
        self.reading("leaf_page_values_size", |page, length| unsafe {
            leaf_page_values_size(page, length, from, to)
        })
    }

    pub fn get(&self, key: &Key) -> Result<LeafValue, Damage> {
        let lent_key = Lent::new(key);
        let key_ptr = lent_key.ptr();
        let reply = self.reading("leaf_page_get", |page, length| unsafe {
            leaf_page_get(page, length, key_ptr.cast())
        })?;
        lent_key.kept("key", key)?;
        Ok(reply)
    }

    /// The reply, and what a buffer that held `before` holds after the call.
    pub fn rebuild(&self, range: [usize; 3], before: &[u8]) -> Result<(u8, Vec<u8>), Damage> {
        let [from, mid, to] = range;
        let mut lent_out = Lent::new(before);
        let out = lent_out.ptr_mut();
        let reply = self.reading("leaf_page_rebuild", |page, length| unsafe {
            leaf_page_rebuild(page, length, from, mid, to, out, before.len())
        })?;
        Ok((reply, lent_out.after_call("out")?.to_vec()))
    }
}
