//! Inputs by their number, and blocks of them. A number is a pass and the first three bytes: each pass has all 2^24 choices of
//! these, the fourth byte running through all values as they go on, and all 256 passes together have every input once.

use crate::hash::hash;
use crate::kind::Kind;
use crate::left::Left;

/// So many blocks, and so many inputs in each.
pub const BLOCKS: usize = 1 << 16;
pub const INPUTS: usize = 1 << 16;

/// The blocks in the order in which they are compared: pass by pass.
pub fn order() -> impl Iterator<Item = u16> {
    0..=u16::MAX
}

/// The four bytes of an input.
pub fn bytes(input: u32) -> [u8; 4] {
    let [pass, a, b, c] = input.to_be_bytes();
    let fourth = pass.wrapping_add(a).wrapping_add(b).wrapping_add(c);
    [a, b, c, fourth]
}

/// The first input of a block.
pub fn first(block: u16) -> u32 {
    (block as u32) << 16
}

/// All inputs of a block.
pub fn inputs(block: u16) -> impl Iterator<Item = u32> {
    (0..INPUTS as u32).map(move |k| first(block) + k)
}

/// The hash that the original gives a block.
pub fn by_original(kind: Kind, block: u16) -> u64 {
    hash(inputs(block).map(|input| Left::by_original(kind, input)))
}

#[cfg(test)]
mod tests {
    use super::*;
    use std::collections::BTreeSet;

    /// Behind three bytes each of the 256 passes has another fourth, and in a pass it changes with each of the three.
    #[test]
    fn every_fourth_byte() {
        for three in [0x00_00_00, 0xDD_36_80, 0xFF_FF_FF] {
            let fourths: BTreeSet<u8> =
                (0..=255).map(|pass| bytes(pass << 24 | three)[3]).collect();
            assert_eq!(fourths.len(), 256);
        }
        assert_eq!(bytes(0x01_DD_CB_05), [0xDD, 0xCB, 0x05, 0xAE]);
    }

    /// The blocks' inputs, one block behind the other, are all inputs.
    #[test]
    fn every_input_once() {
        for block in [0, 1, 0x7FFF, 0xFFFE, 0xFFFF] {
            let begin = block as u32 * INPUTS as u32;
            let end = begin + (INPUTS as u32 - 1);
            assert!(inputs(block).eq(begin..=end));
        }
        assert_eq!(BLOCKS * INPUTS, 1 << 32);
    }
}
