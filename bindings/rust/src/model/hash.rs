//! Hashes of situations: of 64 bits, the same in every run.

use std::hash::{Hash, Hasher};

/// Odd numbers without a pattern, the first digits of pi.
const A: u64 = 0x243f_6a88_85a3_08d3;
const B: u64 = 0x1319_8a2e_0370_7345;
const C: u64 = 0xa409_3822_299f_31d1;

/// Both halves of a product: each bit of the factors counts for all bits of the answer.
fn fold(left: u64, right: u64) -> u64 {
    let product = u128::from(left) * u128::from(right);
    product as u64 ^ (product >> 64) as u64
}

/// The hash of two, whose order counts.
pub(super) fn mix(left: u64, right: u64) -> u64 {
    fold(fold(left ^ A, B) ^ right, C)
}

/// The hash of a value.
pub(super) fn hash_of(value: &impl Hash) -> u64 {
    let mut mixer = Mixer(A);
    value.hash(&mut mixer);
    fold(mixer.0 ^ B, C)
}

struct Mixer(u64);

impl Mixer {
    fn add(&mut self, word: u64) {
        self.0 = fold(self.0 ^ word, C).wrapping_add(B);
    }
}

impl Hasher for Mixer {
    fn write(&mut self, bytes: &[u8]) {
        for chunk in bytes.chunks(8) {
            let mut word = [0; 8];
            word[..chunk.len()].copy_from_slice(chunk);
            self.add(u64::from_le_bytes(word) ^ (chunk.len() as u64) << 56);
        }
    }

    fn write_u8(&mut self, value: u8) {
        self.add(u64::from(value));
    }

    fn write_u16(&mut self, value: u16) {
        self.add(u64::from(value));
    }

    fn write_u32(&mut self, value: u32) {
        self.add(u64::from(value));
    }

    fn write_u64(&mut self, value: u64) {
        self.add(value);
    }

    fn write_usize(&mut self, value: usize) {
        self.add(value as u64);
    }

    fn finish(&self) -> u64 {
        self.0
    }
}

#[cfg(test)]
mod tests {
    use super::{hash_of, mix};
    use std::collections::HashSet;

    #[test]
    fn no_two_small_pairs_have_one_hash() {
        let mixed: HashSet<u64> = (0..300u64).flat_map(|a| (0..300u64).map(move |b| mix(a, b))).collect();
        assert_eq!(mixed.len(), 90_000);
        let hashed: HashSet<u64> = (0..300u64).flat_map(|a| (0..300u32).map(move |b| hash_of(&(a, b)))).collect();
        assert_eq!(hashed.len(), 90_000);
    }

    #[test]
    fn the_order_of_two_counts() {
        assert_ne!(mix(1, 2), mix(2, 1));
        assert_ne!(hash_of(&(1u8, 2u8)), hash_of(&(2u8, 1u8)));
    }
}
