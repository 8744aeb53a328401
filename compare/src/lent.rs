//! What is lent to the library, between two red zones that it must not touch.

use std::hint::black_box;

/// Bytes in each red zone. Odd, so that bytes that are lent start at an odd address: no alignment is promised for them.
const ZONE: usize = 61;
/// What the bytes between the fields of a lent struct hold.
const BETWEEN: u8 = 0xa7;

/// What the library did to bytes that it must leave alone, in words.
#[derive(Debug, PartialEq)]
pub struct Damage(pub String);

/// A plain struct as C lays it out.
pub trait Laid: Copy {
    /// Writes the fields alone: the bytes between them keep what they hold.
    ///
    /// # Safety
    ///
    /// `at` is aligned, and there is room for a `Self`.
    unsafe fn put(&self, at: *mut Self);
}

pub struct Lent {
    // red zone, the bytes lent, red zone
    all: Vec<u8>,
    // bytes before the first red zone, for the alignment of structs
    skip: usize,
}

impl Lent {
    pub fn new(bytes: &[u8]) -> Self {
        let mut lent = Lent::room(bytes.len(), 1);
        let first = lent.skip + ZONE;
        lent.all[first..first + bytes.len()].copy_from_slice(bytes);
        lent
    }

    /// Structs, which must be aligned.
    pub fn structs<T: Laid>(structs: &[T]) -> Self {
        let mut lent = Lent::room(size_of_val(structs), align_of::<T>());
        let first: *mut T = lent.ptr_mut().cast();
        for (i, one) in structs.iter().enumerate() {
            // SAFETY: there is room for all of them, and the first one is aligned.
            unsafe { one.put(first.add(i)) };
        }
        lent
    }

    fn room(bytes: usize, align: usize) -> Self {
        let mut all = vec![BETWEEN; align + ZONE + bytes + ZONE];
        let skip = all.as_ptr().wrapping_add(ZONE).align_offset(align);
        all.truncate(skip + ZONE + bytes + ZONE);
        for place in 0..ZONE {
            all[skip + place] = zone_byte(place);
            all[skip + ZONE + bytes + place] = zone_byte(place);
        }
        Lent { all, skip }
    }

    // Both pointers are made from the whole allocation's: a stray write into a red zone stays inside it.
    pub fn ptr(&self) -> *const u8 {
        self.all.as_ptr().wrapping_add(self.skip + ZONE)
    }

    pub fn ptr_mut(&mut self) -> *mut u8 {
        self.all.as_mut_ptr().wrapping_add(self.skip + ZONE)
    }

    /// The bytes lent, after the call; damage if a red zone was touched.
    pub fn after_call(&self, name: &str) -> Result<&[u8], Damage> {
        // What stands in memory counts, not what the compiler believes to stand there.
        let all = &black_box(self.all.as_slice())[self.skip..];
        let (before, rest) = all.split_at(ZONE);
        let (bytes, after) = rest.split_at(rest.len() - ZONE);
        // Places are counted from the first byte lent.
        let before = touched(before).map(|at| at as isize - ZONE as isize);
        let after = touched(after).map(|at| (bytes.len() + at) as isize);
        match before.or(after) {
            None => Ok(bytes),
            Some(place) => Err(Damage(format!("wrote outside `{name}`, at byte {place}"))),
        }
    }

    /// The structs lent, after the call.
    pub fn structs_after_call<T: Laid>(&self, name: &str) -> Result<Vec<T>, Damage> {
        let bytes = self.after_call(name)?;
        let first: *const T = bytes.as_ptr().cast();
        // SAFETY: so many were put there, and a struct of numbers may hold any bytes.
        let read = |i| unsafe { first.add(i).read() };
        Ok((0..bytes.len() / size_of::<T>()).map(read).collect())
    }

    /// Damage unless the bytes lent are still `bytes` and the red zones stand.
    pub fn kept(&self, name: &str, bytes: &[u8]) -> Result<(), Damage> {
        let now = self.after_call(name)?;
        if now == bytes {
            return Ok(());
        }
        let now = crate::hex::write(now);
        Err(Damage(format!("changed `{name}` to {now}")))
    }

    /// The bytes lent, to be held against what a call leaves of them; those between fields are among them.
    pub fn bytes(&self) -> Vec<u8> {
        let bytes = &self.all[self.skip + ZONE..self.all.len() - ZONE];
        bytes.to_vec()
    }
}

fn zone_byte(place: usize) -> u8 {
    0xc3 ^ place as u8
}

/// The first place of a red zone that does not hold what it held.
fn touched(zone: &[u8]) -> Option<usize> {
    (0..ZONE).find(|&place| zone[place] != zone_byte(place))
}

#[cfg(test)]
mod tests {
    use super::*;
    use crate::leaf_updater::Entry;

    #[test]
    fn a_write_just_outside_is_damage() {
        for place in [ZONE - 1, ZONE + 32, 0, ZONE + 32 + ZONE - 1] {
            let mut lent = Lent::new(&[7; 32]);
            assert_eq!(lent.kept("x", &[7; 32]), Ok(()));
            lent.all[place] ^= 1;
            assert!(lent.kept("x", &[7; 32]).is_err());
        }
    }

    #[test]
    fn bytes_start_at_an_odd_address() {
        assert_eq!(Lent::new(&[7; 32]).ptr() as usize % 2, 1);
    }

    #[test]
    fn structs_are_aligned_and_come_back() {
        for length in 0..9 {
            let entry = |i: usize| Entry {
                kind: i as u8,
                from: i * 257,
                key: [i as u8; 32],
                ..Entry::default()
            };
            let entries: Vec<Entry> = (0..length).map(entry).collect();
            let lent = Lent::structs(&entries);
            assert_eq!(lent.ptr() as usize % align_of::<Entry>(), 0);
            assert_eq!(lent.structs_after_call("x"), Ok(entries));
        }
    }

    /// A byte between fields belongs to what is only read.
    #[test]
    fn a_changed_byte_between_fields_is_damage() {
        let mut lent = Lent::structs(&[Entry::default()]);
        let before = lent.bytes();
        let between = std::mem::offset_of!(Entry, from) - 1;
        assert_eq!(before[between], BETWEEN);
        unsafe { *lent.ptr_mut().add(between) ^= 1 };
        assert!(lent.kept("x", &before).is_err());
    }

    #[test]
    fn a_changed_byte_is_damage() {
        let mut lent = Lent::new(&[7; 32]);
        unsafe { *lent.ptr_mut().add(31) = 8 };
        assert!(lent.kept("x", &[7; 32]).is_err());
        assert_eq!(lent.after_call("x").map(|bytes| bytes[31]), Ok(8));
    }
}
