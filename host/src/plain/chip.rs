//! The chip's own reading of a row, as document 02 says in P11. Where it says 'all else is as in the Rust mode' the original is
//! asked, with zeros behind a row that has its own bytes but not the four that the original wants.

use super::LARGEST_INPUT;
use crate::original::Instruction::{DEC, INC, LD, NOP, PUSH};
use crate::original::{disas, OpCode, Operand, Reg16};

/// The record of one to four bytes; none where they are too few for the row that they begin.
pub fn row(ins: &[u8]) -> Option<OpCode> {
    match *ins {
        [0xDD | 0xFD] => None,
        [0xDD | 0xFD, next, ..] => behind_prefix(next, ins),
        [0xED, _, ..] => behind_ed(ins),
        _ => disas(ins),
    }
}

/// A prefix that changes nothing is a NOP of one byte, and so is one before ED, DD, FD or EB; two bytes decide that. A row that it
/// changes is decided as soon as its own bytes are there.
fn behind_prefix(next: u8, ins: &[u8]) -> Option<OpCode> {
    let changed = padded_row(ins);
    if matches!(next, 0xED | 0xDD | 0xFD | 0xEB) || is_nop_of_one(&changed) {
        return Some(idle(1, ins));
    }
    (changed.length as usize <= ins.len()).then(|| in_chip_order(changed))
}

/// An undefined ED code is a NOP of two bytes, decided from these.
fn behind_ed(ins: &[u8]) -> Option<OpCode> {
    match is_nop_of_one(&padded_row(ins)) {
        true => Some(idle(2, ins)),
        false => disas(ins),
    }
}

/// What the original makes of the bytes with zeros behind them, up to the four that it never refuses.
fn padded_row(ins: &[u8]) -> OpCode {
    disas(&padded(ins)).expect("four bytes are never refused")
}

fn padded(ins: &[u8]) -> [u8; LARGEST_INPUT] {
    std::array::from_fn(|place| *ins.get(place).unwrap_or(&0))
}

/// What the original gives where it takes no row: behind DD and FD one that they do not change, behind ED an undefined code.
fn is_nop_of_one(record: &OpCode) -> bool {
    record.ins == NOP && record.length == 1
}

/// A NOP without operands that has so many bytes, each fetched in four T-states.
fn idle(length: u8, ins: &[u8]) -> OpCode {
    let mut tstates = [0; 6];
    tstates[..length as usize].fill(4);
    OpCode {
        length,
        ins: NOP,
        op1: None,
        op2: None,
        op3: None,
        data: padded(ins),
        tstates,
        mcycles: length,
    }
}

/// INC, DEC and LD SP with IX or IY give [4,6], PUSH [4,5,3,3]; the original has the prefix's cycle behind the first one.
fn in_chip_order(mut changed: OpCode) -> OpCode {
    let first = changed.op1;
    changed.tstates = match changed.ins {
        INC | DEC if is_index(first) => [4, 6, 0, 0, 0, 0],
        LD if first == Some(Operand::Reg16(Reg16::SP)) => [4, 6, 0, 0, 0, 0],
        PUSH => [4, 5, 3, 3, 0, 0],
        _ => changed.tstates,
    };
    changed
}

fn is_index(operand: Option<Operand>) -> bool {
    matches!(operand, Some(Operand::Reg16(Reg16::IX | Reg16::IY)))
}

#[cfg(test)]
mod tests {
    use super::*;
    use crate::original::Reg8;
    use crate::pages::{edged, ED_BEHIND, PAGES};

    /// A row's bytes, its length, and its text, a tab written as >.
    const ROWS: [(&[u8], u8, &str); 24] = [
        (&[0xDD, 0x01], 1, "NOP> [4, 0, 0, 0, 0, 0]"),
        (&[0xDD, 0x01, 0x34, 0x12], 1, "NOP> [4, 0, 0, 0, 0, 0]"),
        (&[0xFD, 0xC3, 0x34, 0x12], 1, "NOP> [4, 0, 0, 0, 0, 0]"),
        (&[0xDD, 0xDD], 1, "NOP> [4, 0, 0, 0, 0, 0]"),
        (&[0xDD, 0xFD, 0x23], 1, "NOP> [4, 0, 0, 0, 0, 0]"),
        (&[0xFD, 0xEB], 1, "NOP> [4, 0, 0, 0, 0, 0]"),
        (&[0xDD, 0xED, 0x62], 1, "NOP> [4, 0, 0, 0, 0, 0]"),
        (&[0xDD, 0xED], 1, "NOP> [4, 0, 0, 0, 0, 0]"),
        (&[0xED, 0x00], 2, "NOP> [4, 4, 0, 0, 0, 0]"),
        (&[0xED, 0xDD, 0x23, 0x00], 2, "NOP> [4, 4, 0, 0, 0, 0]"),
        (&[0xED, 0x44], 2, "NEG> [4, 4, 0, 0, 0, 0]"),
        (&[0xDD, 0x23], 2, "INC>IX [4, 6, 0, 0, 0, 0]"),
        (&[0xFD, 0x2B, 0x00], 2, "DEC>IY [4, 6, 0, 0, 0, 0]"),
        (&[0xDD, 0xF9], 2, "LD>SP, IX [4, 6, 0, 0, 0, 0]"),
        (&[0xFD, 0xE5], 2, "PUSH>IY [4, 5, 3, 3, 0, 0]"),
        (&[0xDD, 0xE1], 2, "POP>IX [4, 4, 3, 3, 0, 0]"),
        (&[0xDD, 0x24], 2, "INC>IXh [4, 4, 0, 0, 0, 0]"),
        (&[0xDD, 0x34, 0x80], 3, "INC>(IX-128) [4, 4, 3, 5, 4, 3]"),
        (&[0xDD, 0x66, 0x05], 3, "LD>H, (IX+5) [4, 4, 3, 5, 3, 0]"),
        (&[0xFD, 0x26, 0x05], 3, "LD>IYh, 05 [4, 4, 3, 0, 0, 0]"),
        (
            &[0xDD, 0x21, 0x34, 0x12],
            4,
            "LD>IX, 1234 [4, 4, 3, 3, 0, 0]",
        ),
        (
            &[0xDD, 0x36, 0x80, 0x07],
            4,
            "LD>(IX-128), 07 [4, 4, 3, 5, 3, 0]",
        ),
        (
            &[0xFD, 0xCB, 0x7F, 0xC6],
            4,
            "SET>00, (IY+127) [4, 4, 3, 5, 4, 3]",
        ),
        (&[0xDD, 0xE9], 2, "JP>IX [4, 4, 0, 0, 0, 0]"),
    ];

    #[test]
    fn by_hand() {
        for (ins, length, text) in ROWS {
            let record = row(ins).unwrap();
            assert_eq!(record.to_string(), text.replace('>', "\t"), "{ins:02X?}");
            assert_eq!((record.length, record.data), (length, padded(ins)));
            let filled = record.tstates.iter().filter(|time| **time > 0).count();
            assert_eq!(record.mcycles as usize, filled, "{ins:02X?}");
        }
    }

    #[test]
    fn short_by_hand() {
        let short: [&[u8]; 10] = [
            &[0xDD],
            &[0xED],
            &[0xCB],
            &[0xDD, 0x66],
            &[0xDD, 0x21, 0x34],
            &[0xFD, 0x36, 0x80],
            &[0xDD, 0xCB],
            &[0xFD, 0xCB, 0x05],
            &[0xED, 0x43, 0x34],
            &[0x21, 0x34],
        ];
        for ins in short {
            assert_eq!(row(ins), None, "{ins:02X?}");
        }
    }

    /// Whether a prefix has something to rename in the row behind it: HL, H, L or (HL).
    fn names_hl(record: &OpCode) -> bool {
        let operands = [record.op1, record.op2, record.op3];
        operands.into_iter().flatten().any(|operand| {
            matches!(
                operand,
                Operand::Reg16(Reg16::HL)
                    | Operand::RegAddr(Reg16::HL)
                    | Operand::Reg8(Reg8::H | Reg8::L)
            )
        })
    }

    /// A prefix changes a row that names HL, H, L or (HL), and one behind CB; by the original's own operands of every plain code.
    #[test]
    fn prefixes_that_change_nothing() {
        for next in 0..=0xFF {
            let changes = match next {
                0xCB => true,
                0xED | 0xDD | 0xFD | 0xEB => false,
                _ => names_hl(&disas(&[next, 0x00, 0x00]).unwrap()),
            };
            for prefix in [0xDD, 0xFD] {
                let ins = [prefix, next, 0x05, 0x05];
                assert_eq!(row(&ins) != Some(idle(1, &ins)), changes, "{ins:02X?}");
            }
        }
    }

    /// Of four bytes all is as with the original but for what document 02 names: those rows, and no others.
    #[test]
    fn departures() {
        let pages = PAGES.iter().chain(&ED_BEHIND);
        for ins in pages.flat_map(|prefix| edged(prefix, 4)) {
            let (original, chip) = (disas(&ins).unwrap(), row(&ins).unwrap());
            let moved = match ins[..] {
                [0xDD | 0xFD, 0x23 | 0x2B | 0xE5 | 0xF9, ..] => true,
                [0xDD | 0xFD, 0xED, ..] | [0xED, ..] => original != chip && chip.ins == NOP,
                _ => original.ins == NOP && original != chip && chip == idle(1, &ins),
            };
            assert_eq!(original != chip, moved, "{ins:02X?}");
        }
    }

    /// What one to three bytes decide stays decided: bytes behind them alter only data.
    #[test]
    fn decided_once() {
        let pages = PAGES.iter().chain(&ED_BEHIND);
        for ins in pages.flat_map(|prefix| edged(prefix, 4)) {
            let whole = row(&ins).unwrap();
            for length in 1..4 {
                let Some(mut record) = row(&ins[..length]) else {
                    assert!(length < (whole.length as usize).max(2), "{ins:02X?}");
                    continue;
                };
                record.data = whole.data;
                assert_eq!(record, whole, "{:02X?}", &ins[..length]);
            }
        }
    }
}
