//! How many bytes a Short input lacks in a mode, as document 02 says in P3. The original has no such number: the decoder is asked
//! for every choice of the bytes that might follow.

use super::{decoded, Mode, LARGEST_INPUT};
use crate::answer::Refusal;

/// The fewest bytes that, for some choice of them behind a Short input, make the decode succeed; 0 for every other input.
pub fn missing(mode: Mode, ins: &[u8]) -> usize {
    match decoded(mode, ins) {
        Err(Refusal::Short) => fewest(mode, ins),
        _ => 0,
    }
}

/// One byte is tried in every choice, then two and so on, so that no fewer would do.
fn fewest(mode: Mode, ins: &[u8]) -> usize {
    let mut counts = 1..LARGEST_INPUT;
    let fewest = counts.find(|count| some_choice_succeeds(mode, ins, *count));
    fewest.expect("four bytes are never refused")
}

/// Whether the decode succeeds with some choice of so many bytes behind these: all are tried until one does.
fn some_choice_succeeds(mode: Mode, ins: &[u8], count: usize) -> bool {
    let mut behind = (0..=0xFF).map(|next| [ins, &[next]].concat());
    match count {
        0 => decoded(mode, ins).is_ok(),
        _ => behind.any(|ins| some_choice_succeeds(mode, &ins, count - 1)),
    }
}

#[cfg(test)]
mod tests {
    use super::*;

    /// In the Rust's mode, and in the chip's.
    #[test]
    fn by_hand() {
        let cases: [(&[u8], usize, usize); 16] = [
            (&[0xDD], 3, 1),
            (&[0xFD, 0x23], 2, 0),
            (&[0xDD, 0x23, 0x00], 1, 0),
            (&[0xDD, 0x66], 2, 1),
            (&[0xFD, 0x36], 2, 2),
            (&[0xDD, 0xCB], 2, 2),
            (&[0xDD, 0xCB, 0x05], 1, 1),
            (&[0xED], 1, 1),
            (&[0xED, 0x43], 2, 2),
            (&[0xED, 0x43, 0x34], 1, 1),
            (&[0xED, 0x00], 2, 0), // an undefined code
            (&[0xCB], 1, 1),
            (&[0x21], 2, 2),
            (&[0x00], 0, 0),    // Done
            (&[], 0, 0),        // Nothing
            (&[0x00; 5], 0, 0), // Long
        ];
        for (ins, rust, chip) in cases {
            assert_eq!(missing(Mode::Rust, ins), rust, "{ins:02X?}");
            assert_eq!(missing(Mode::Chip, ins), chip, "{ins:02X?}");
        }
    }

    /// No choice of one or two bytes will do behind DD; behind ED some do and some do not.
    #[test]
    fn every_choice_is_tried() {
        let decoded = |ins: &[u8]| decoded(Mode::Rust, ins);
        assert_eq!(
            [1, 2, 3].map(|count| some_choice_succeeds(Mode::Rust, &[0xDD], count)),
            [false, false, true]
        );
        assert!(decoded(&[0xED, 0x00]).is_err() && decoded(&[0xED, 0x44]).is_ok());
        assert!(some_choice_succeeds(Mode::Rust, &[0xED], 1));
    }
}
