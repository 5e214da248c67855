//! The row times of a record, as document 02 says in P5, with the most of P2. The original has none.

use super::flow::{has_condition, repeats};
use crate::original::Instruction::*;
use crate::original::OpCode;

/// The least and the most that a row takes.
#[derive(Debug, PartialEq, Eq, Clone, Copy)]
pub struct RowTimes {
    pub least: u8,
    pub most: u8,
}

/// Those of a decoded row, whose T-states add up to no more than a byte holds.
pub fn row_times(record: &OpCode) -> RowTimes {
    let sum = record.tstates.iter().sum();
    RowTimes {
        least: least(record, sum),
        most: most(record, sum),
    }
}

/// JR cc 7, DJNZ 8, CALL cc 10, RET cc 5, the repeating eight 16, every other row its sum.
fn least(record: &OpCode, sum: u8) -> u8 {
    match record.ins {
        JR if has_condition(record) => 7,
        DJNZ => 8,
        CALL if has_condition(record) => 10,
        RET if has_condition(record) => 5,
        _ if repeats(record) => 16,
        _ => sum,
    }
}

/// The sum; a repeating row takes five more where it repeats.
fn most(record: &OpCode, sum: u8) -> u8 {
    match repeats(record) {
        true => sum + 5,
        false => sum,
    }
}

#[cfg(test)]
mod tests {
    use super::*;
    use crate::original::disas;
    use crate::pages::{edged, ED_BEHIND, PAGES};
    use crate::plain::{decoded, MODES};

    /// What UM0080 says of the rows at each of some codes, each with the same bytes before and behind.
    fn check(before: &[u8], codes: &[u8], behind: &[u8], least: u8, most: u8) {
        for code in codes {
            let row = [before, &[*code], behind].concat();
            let record = disas(&row).unwrap();
            assert_eq!(row_times(&record), RowTimes { least, most }, "{record:?}");
        }
    }

    /// The eight codes of a row with a condition, from that with NZ on.
    fn by_condition(first: u8) -> [u8; 8] {
        std::array::from_fn(|cc| first + 8 * cc as u8)
    }

    #[test]
    fn relative_jumps() {
        check(&[], &[0x20, 0x28, 0x30, 0x38], &[0x05], 7, 12); // JR cc
        check(&[], &[0x18], &[0x05], 12, 12); // JR
        check(&[], &[0x10], &[0x05], 8, 13); // DJNZ
    }

    #[test]
    fn jumps_calls_and_returns() {
        check(&[], &by_condition(0xC2), &[0x34, 0x12], 10, 10); // JP cc
        check(&[], &[0xC3], &[0x34, 0x12], 10, 10); // JP
        check(&[], &[0xE9], &[], 4, 4); // JP HL
        check(&[], &by_condition(0xC4), &[0x34, 0x12], 10, 17); // CALL cc
        check(&[], &[0xCD], &[0x34, 0x12], 17, 17); // CALL
        check(&[], &by_condition(0xC0), &[], 5, 11); // RET cc
        check(&[], &[0xC9], &[], 10, 10); // RET
        check(&[], &by_condition(0xC7), &[], 11, 11); // RST
        check(&[0xED], &[0x45, 0x4D], &[], 14, 14); // RETN, RETI
    }

    #[test]
    fn blocks() {
        let repeating = [0xB0, 0xB1, 0xB2, 0xB3, 0xB8, 0xB9, 0xBA, 0xBB];
        check(&[0xED], &repeating, &[], 16, 21);
        let single = repeating.map(|code| code - 0x10); // LDI and the like
        check(&[0xED], &single, &[], 16, 16);
    }

    #[test]
    fn rows_of_one_figure() {
        check(&[], &[0x00, 0x76], &[], 4, 4); // NOP, HALT
        check(&[], &[0x2A], &[0x34, 0x12], 16, 16); // LD HL, (1234)
        check(&[0xDD, 0xCB, 0x05], &[0xC6], &[], 23, 23); // SET 00, (IX+5)
    }

    /// A NOP with the leftovers of JR cc, DJNZ, CALL cc, RET cc and LDIR has the sum of what is left.
    #[test]
    fn leftovers_keep_their_sum() {
        for prefix in [0xDD, 0xFD] {
            check(&[prefix], &[0x20], &[0x00, 0x00], 12, 12);
            check(&[prefix], &[0x10], &[0x00, 0x00], 13, 13);
            check(&[prefix], &[0xC4], &[0x34, 0x12], 17, 17);
            check(&[prefix], &[0xC0], &[0x00, 0x00], 11, 11);
            check(&[prefix, 0xED], &[0xB0], &[0x00], 16, 16);
        }
    }

    /// On every page in both modes, with document 01's bounds of a row time.
    #[test]
    fn least_never_exceeds_most() {
        let pages = PAGES.iter().chain(&ED_BEHIND);
        for row in pages.flat_map(|prefix| edged(prefix, 4)) {
            for mode in MODES {
                let RowTimes { least, most } = row_times(&decoded(mode, &row).unwrap());
                assert!(4 <= least && least <= most && most <= 23, "{row:02X?}");
            }
        }
    }
}
