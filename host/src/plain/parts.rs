//! The parts of a row's text, as document 02 says in P4. The original has two texts and no parts: they are cut out of those two.

use crate::arguments::{BYTES, FULL, INSTRUCTION, TIMES};
use crate::original::OpCode;

/// The parts of one row, each with the tabs or the space that it owns.
struct Parts {
    bytes: String,
    instruction: String,
    times: String,
}

/// The bytes are what the full text has before the plain one, the T-states the plain text from its last bracket on with the space
/// before that, and the instruction is the rest.
fn parts(opcode: &OpCode) -> Parts {
    let (plain, full) = (format!("{opcode}"), format!("{opcode:?}"));
    let bytes = full
        .strip_suffix(&plain)
        .expect("the full text ends as the plain one");
    let bracket = plain.rfind(" [").expect("the T-states stand in brackets");
    let (instruction, times) = plain.split_at(bracket);
    Parts {
        bytes: bytes.into(),
        instruction: instruction.into(),
        times: times.into(),
    }
}

/// Whether a number adds up parts, each of them once at most.
pub fn is_choice(number: u8) -> bool {
    number <= FULL
}

/// The chosen parts, in the order in which the full text has them.
pub fn chosen(choice: u8, opcode: &OpCode) -> String {
    let Parts {
        bytes,
        instruction,
        times,
    } = parts(opcode);
    let all = [(BYTES, bytes), (INSTRUCTION, instruction), (TIMES, times)];
    let present = all.into_iter().filter(|(part, _)| choice & part != 0);
    present.map(|(_, text)| text).collect()
}

#[cfg(test)]
mod tests {
    use super::*;
    use crate::pages::{edged, ED_BEHIND, PAGES};
    use crate::plain::{decoded, Mode, MODES};

    /// By choice, a tab written as >.
    #[test]
    fn by_hand() {
        let load = [
            "",
            "21 34 12 >>",
            "LD>HL, 1234",
            "21 34 12 >>LD>HL, 1234",
            " [4, 3, 3, 0, 0, 0]",
            "21 34 12 >> [4, 3, 3, 0, 0, 0]",
            "LD>HL, 1234 [4, 3, 3, 0, 0, 0]",
            "21 34 12 >>LD>HL, 1234 [4, 3, 3, 0, 0, 0]",
        ];
        let idle = [
            "",
            "00 >>",
            "NOP>",
            "00 >>NOP>",
            " [4, 0, 0, 0, 0, 0]",
            "00 >> [4, 0, 0, 0, 0, 0]",
            "NOP> [4, 0, 0, 0, 0, 0]",
            "00 >>NOP> [4, 0, 0, 0, 0, 0]",
        ];
        for (ins, texts) in [(&[0x21, 0x34, 0x12][..], load), (&[0x00], idle)] {
            let opcode = decoded(Mode::Rust, ins).unwrap();
            let found = [0, 1, 2, 3, 4, 5, 6, 7].map(|choice| chosen(choice, &opcode));
            assert_eq!(found, texts.map(|text| text.replace('>', "\t")));
        }
    }

    /// On every page the two that the original has are its own, byte for byte, and no text of a choice is longer than this, in
    /// either mode.
    #[test]
    fn on_every_page() {
        for mode in MODES {
            let pages = PAGES.iter().chain(&ED_BEHIND);
            let mut longest = [0; 8];
            for ins in pages.flat_map(|prefix| edged(prefix, 4)) {
                let opcode = decoded(mode, &ins).unwrap();
                assert_eq!(chosen(6, &opcode), format!("{opcode}"));
                assert_eq!(chosen(7, &opcode), format!("{opcode:?}"));
                for (choice, longest) in (0..).zip(&mut longest) {
                    *longest = chosen(choice, &opcode).len().max(*longest);
                }
            }
            assert_eq!(longest, [0, 14, 19, 33, 19, 33, 38, 52], "{mode:?}");
        }
    }

    #[test]
    fn choices() {
        assert!((0..=7).all(is_choice));
        assert!(!(8..=255).any(is_choice));
    }
}
