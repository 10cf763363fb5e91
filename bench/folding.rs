//! The hash of the plain programs, `ratio.rs` and `length.rs`.

use std::hash::{BuildHasherDefault, Hasher};

/// A hash that folds the product of each word with a constant: the search uses one of this kind, which is faster than that of the
/// standard library.
#[derive(Default)]
pub struct Folding(u64);

pub type Folded = BuildHasherDefault<Folding>;

impl Hasher for Folding {
    #[inline]
    fn write(&mut self, bytes: &[u8]) {
        for part in bytes.chunks(8) {
            let mut word = [0; 8];
            word[..part.len()].copy_from_slice(part);
            self.write_u64(u64::from_le_bytes(word));
        }
    }

    #[inline]
    fn write_u32(&mut self, word: u32) {
        self.write_u64(u64::from(word));
    }

    #[inline]
    fn write_u64(&mut self, word: u64) {
        let product = u128::from(self.0 ^ word ^ 0x243f_6a88_85a3_08d3) * 0x9e37_79b9_7f4a_7c15;
        self.0 = (product >> 64) as u64 ^ product as u64;
    }

    #[inline]
    fn write_usize(&mut self, word: usize) {
        self.write_u64(word as u64);
    }

    #[inline]
    fn finish(&self) -> u64 {
        self.0
    }
}
