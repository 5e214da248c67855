//! The hash of what calls leave.

use crate::left::Left;

/// Takes in one word; the same as `step` of host/blocks.c. Other words give other states, and other states with the same word
/// again other states: where a single word differs, the hash does for certain.
fn step(state: u64, word: u64) -> u64 {
    let state = state.wrapping_add(word.wrapping_mul(0x9E37_79B1_85EB_CA87));
    state.rotate_left(31).wrapping_mul(0xC2B2_AE3D_27D4_EB4F)
}

/// The hash of what some calls leave, in this order.
pub fn hash(all: impl Iterator<Item = Left>) -> u64 {
    all.fold(0, |state, left| left.words().fold(state, step))
}

#[cfg(test)]
mod tests {
    use super::*;
    use crate::left::LENT;
    use std::collections::HashSet;

    /// What two calls leave.
    const SIZE: usize = 2 * (12 + LENT);

    /// No two bytes are the same, so that every change of places is another sequence.
    fn bytes() -> [u8; SIZE] {
        std::array::from_fn(|place| (place * 2) as u8)
    }

    fn left(bytes: &[u8]) -> Left {
        let number = |at: usize| u32::from_le_bytes(std::array::from_fn(|k| bytes[at + k]));
        Left {
            number: number(0),
            count: number(4),
            missing: number(8),
            lent: std::array::from_fn(|k| bytes[12 + k]),
        }
    }

    fn hash_of(bytes: &[u8; SIZE]) -> u64 {
        hash(bytes.chunks(SIZE / 2).map(left))
    }

    /// Every sequence has a hash of its own.
    fn told_apart(sequences: Vec<[u8; SIZE]>) -> bool {
        let hashes: HashSet<u64> = sequences.iter().map(hash_of).collect();
        let sequences: HashSet<_> = sequences.into_iter().collect();
        sequences.len() > 1 && hashes.len() == sequences.len()
    }

    #[test]
    fn altered_bits() {
        let mut all = vec![bytes()];
        for bit in 0..8 * bytes().len() {
            let mut altered = bytes();
            altered[bit / 8] ^= 1 << (bit % 8);
            all.push(altered);
        }
        assert!(told_apart(all));
    }

    #[test]
    fn swapped_bytes() {
        let mut all = vec![bytes()];
        for high in 1..bytes().len() {
            for low in 0..high {
                let mut swapped = bytes();
                swapped.swap(low, high);
                all.push(swapped);
            }
        }
        assert!(told_apart(all));
    }

    #[test]
    fn moved_bytes() {
        let mut all = vec![bytes()];
        for to in 1..bytes().len() {
            for from in 0..to {
                let mut moved = bytes();
                moved[from..=to].rotate_left(1);
                all.push(moved);
            }
        }
        assert!(told_apart(all));
    }

    /// One byte among zeros, at every place.
    #[test]
    fn lone_bytes() {
        let alone = |place| std::array::from_fn(|k| (k == place) as u8);
        assert!(told_apart((0..SIZE).map(alone).collect()));
    }
}
