//! Where control goes from a row, as document 01's 'Marks and walks' says.

use crate::original::Instruction::*;
use crate::original::{OpCode, Operand};

/// The next places of the row at an address; all addresses count modulo 65,536.
pub fn next_places(address: u16, record: &OpCode) -> impl Iterator<Item = u16> {
    let after = after(address, record);
    let target = target(address, record);
    let itself = repeats(record).then_some(address);
    [after, target, itself].into_iter().flatten()
}

/// The place after the record, except for JP nn, JR e, RET without condition, RETI, RETN and JP HL/IX/IY.
fn after(address: u16, record: &OpCode) -> Option<u16> {
    let goes_on = match record.ins {
        JP | JR | RET => has_condition(record),
        RETI | RETN => false,
        _ => true,
    };
    goes_on.then(|| address.wrapping_add(record.length as u16))
}

/// The target of JP, JR, DJNZ, CALL, RST. A relative target is the row's address plus the operand; a register is none.
fn target(address: u16, record: &OpCode) -> Option<u16> {
    if !matches!(record.ins, JP | JR | DJNZ | CALL | RST) {
        return None;
    }
    let operand = match has_condition(record) {
        true => record.op2,
        false => record.op1,
    };
    match operand? {
        Operand::Imm16(place) => Some(place),
        Operand::Imm8(place) => Some(place as u16),
        Operand::RelAddr(way) => Some(address.wrapping_add_signed(way)),
        _ => None,
    }
}

pub fn has_condition(record: &OpCode) -> bool {
    matches!(record.op1, Some(Operand::FlagCondition(_)))
}

/// The rows that have themselves among their next places.
pub fn repeats(record: &OpCode) -> bool {
    matches!(
        record.ins,
        LDIR | LDDR | CPIR | CPDR | INIR | INDR | OTIR | OTDR
    )
}

#[cfg(test)]
mod tests {
    use super::*;
    use crate::original::disas;

    fn next(address: u16, bytes: &[u8]) -> Vec<u16> {
        let record = disas(bytes).unwrap();
        next_places(address, &record).collect()
    }

    #[test]
    fn rows_that_just_go_on() {
        assert_eq!(next(0x1000, &[0x00]), [0x1001]);
        assert_eq!(next(0x1000, &[0x76]), [0x1001]); // HALT
        assert_eq!(next(0x1000, &[0x3E, 0x05]), [0x1002]);
        assert_eq!(next(0x1000, &[0x21, 0x34, 0x12]), [0x1003]);
        assert_eq!(next(0x1000, &[0xDD, 0x36, 0x80, 0x07]), [0x1004]);
        assert_eq!(next(0x1000, &[0xED, 0xA0]), [0x1002]); // LDI
        assert_eq!(next(0xFFFF, &[0x00]), [0x0000]);
        assert_eq!(next(0xFFFE, &[0xDD, 0x36, 0x80, 0x07]), [0x0002]);
    }

    #[test]
    fn jumps() {
        assert_eq!(next(0x1000, &[0xC3, 0x34, 0x12]), [0x1234]);
        for code in [0xC2, 0xCA, 0xD2, 0xDA, 0xE2, 0xEA, 0xF2, 0xFA] {
            assert_eq!(next(0x1000, &[code, 0x34, 0x12]), [0x1003, 0x1234]);
        }
        assert_eq!(next(0xFFFD, &[0xC2, 0x34, 0x12]), [0x0000, 0x1234]);
    }

    #[test]
    fn register_jumps_end() {
        assert_eq!(next(0x1000, &[0xE9]), []);
        assert_eq!(next(0x1000, &[0xDD, 0xE9, 0x34, 0x12]), []);
        assert_eq!(next(0x1000, &[0xFD, 0xE9, 0x34, 0x12]), []);
    }

    /// The signed byte counts from the place after the two bytes.
    #[test]
    fn relative_jumps() {
        assert_eq!(next(0x1000, &[0x18, 0x05]), [0x1007]);
        assert_eq!(next(0x1000, &[0x18, 0xFE]), [0x1000]);
        assert_eq!(next(0x1000, &[0x18, 0x7F]), [0x1081]);
        assert_eq!(next(0x1000, &[0x18, 0x80]), [0x0F82]);
        for code in [0x20, 0x28, 0x30, 0x38, 0x10] {
            assert_eq!(next(0x1000, &[code, 0x05]), [0x1002, 0x1007]);
            assert_eq!(next(0x1000, &[code, 0xFF]), [0x1002, 0x1001]);
        }
    }

    #[test]
    fn relative_jumps_wrap() {
        assert_eq!(next(0xFFFE, &[0x18, 0x00]), [0x0000]);
        assert_eq!(next(0xFFF0, &[0x18, 0x7F]), [0x0071]);
        assert_eq!(next(0x0000, &[0x18, 0xFD]), [0xFFFF]);
        assert_eq!(next(0x0001, &[0x10, 0x80]), [0x0003, 0xFF83]);
        assert_eq!(next(0xFFFE, &[0x20, 0x7F]), [0x0000, 0x007F]);
    }

    #[test]
    fn calls_and_restarts() {
        assert_eq!(next(0x1000, &[0xCD, 0x34, 0x12]), [0x1003, 0x1234]);
        for code in [0xC4, 0xCC, 0xD4, 0xDC, 0xE4, 0xEC, 0xF4, 0xFC] {
            assert_eq!(next(0x1000, &[code, 0x34, 0x12]), [0x1003, 0x1234]);
        }
        for k in 0..8 {
            assert_eq!(next(0x1000, &[0xC7 + 8 * k]), [0x1001, 8 * k as u16]);
        }
    }

    #[test]
    fn returns() {
        assert_eq!(next(0x1000, &[0xC9]), []);
        for code in [0xC0, 0xC8, 0xD0, 0xD8, 0xE0, 0xE8, 0xF0, 0xF8] {
            assert_eq!(next(0x1000, &[code]), [0x1001]);
        }
        for code in [0x45, 0x4D, 0x55, 0x5D, 0x65, 0x6D, 0x75, 0x7D] {
            assert_eq!(next(0x1000, &[0xED, code]), []);
        }
    }

    #[test]
    fn repeating_rows() {
        for code in [0xB0, 0xB1, 0xB2, 0xB3, 0xB8, 0xB9, 0xBA, 0xBB] {
            assert_eq!(next(0x1000, &[0xED, code]), [0x1002, 0x1000]);
        }
    }

    /// DD before JP, CALL, JR, DJNZ, RST, RET, LDIR, RETN is a NOP of one byte, whatever its operands are.
    #[test]
    fn leftovers_are_not_followed() {
        for prefix in [0xDD, 0xFD] {
            for code in [0xC3, 0xDA, 0xCD, 0xCC, 0x18, 0x38, 0x10, 0xFF, 0xC9, 0xD8] {
                assert_eq!(next(0x1000, &[prefix, code, 0x34, 0x12]), [0x1001]);
            }
            for code in [0xB0, 0xBB, 0x45, 0x4D] {
                assert_eq!(next(0x1000, &[prefix, 0xED, code, 0x00]), [0x1001]);
            }
        }
    }
}
