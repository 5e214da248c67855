//! A record as the 24 bytes that pass to a host: 22 are the original's, and two its row times by document 02.

use super::row_times::{row_times, RowTimes};
use crate::answer::RECORD_SIZE;
use crate::original::{Instruction, OpCode, Operand, RegI};

/// The empty record, which goes with a refusal: NOP, and all else zero.
pub const EMPTY: [u8; RECORD_SIZE] = {
    let mut bytes = [0; RECORD_SIZE];
    bytes[1] = Instruction::NOP as u8;
    bytes
};

/// The bytes of a decoded row's record.
pub fn record(opcode: OpCode) -> [u8; RECORD_SIZE] {
    let times = row_times(&opcode);
    timed_record(opcode, times)
}

/// Those of a record whose row times are given; the instruction is its place in the original's enum.
pub fn timed_record(opcode: OpCode, times: RowTimes) -> [u8; RECORD_SIZE] {
    let mut bytes = [0; RECORD_SIZE];
    bytes[0] = opcode.length;
    bytes[1] = opcode.ins as u8;
    bytes[2..5].copy_from_slice(&place(opcode.op1));
    bytes[5..8].copy_from_slice(&place(opcode.op2));
    bytes[8..11].copy_from_slice(&place(opcode.op3));
    bytes[11..15].copy_from_slice(&opcode.data);
    bytes[15..21].copy_from_slice(&opcode.tstates);
    bytes[21] = opcode.mcycles;
    bytes[22] = times.least;
    bytes[23] = times.most;
    bytes
}

/// An operand place: its kind (0 empty, then the original's order), its value low and high.
fn place(operand: Option<Operand>) -> [u8; 3] {
    let (kind, value) = match operand {
        None => (0, 0),
        Some(Operand::Imm8(n)) => (1, n as u16),
        Some(Operand::Imm16(nn)) => (2, nn),
        Some(Operand::RelAddr(e)) => (3, e as u16),
        Some(Operand::Address(nn)) => (4, nn),
        Some(Operand::IOAddress(n)) => (5, n as u16),
        Some(Operand::RegI(index)) => (6, index_value(index)),
        Some(Operand::Reg8(r)) => (7, r as u16),
        Some(Operand::Reg16(rr)) => (8, rr as u16),
        Some(Operand::RegAddr(rr)) => (9, rr as u16),
        Some(Operand::RegIOAddr(r)) => (10, r as u16),
        Some(Operand::FlagCondition(cc)) => (11, cc as u16),
        Some(Operand::IgnoreIO) => (12, 0),
    };
    let [low, high] = u16::to_le_bytes(value);
    [kind, low, high]
}

/// An index operand's value: the displacement byte, above it 0 for IX and 1 for IY.
fn index_value(index: RegI) -> u16 {
    let register = match index {
        RegI::IX(_) => 0,
        RegI::IY(_) => 1,
    };
    u16::from_le_bytes([index.offset() as u8, register])
}
