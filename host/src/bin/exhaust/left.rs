//! What a call leaves in the places lent to it, and what the original, in the chip's mode the plain reading, has it leave.

use crate::block::bytes;
use crate::kind::Kind;
use host::answer::Refusal;
use host::answer::RECORD_SIZE;
use host::answer::TEXT_MAX;
use host::function::Function;
use host::original::OpCode;
use host::plain::decoded;
use host::plain::said::write;
use std::fmt;

/// The bytes that are looked at: the room lent, and some behind it.
pub const LENT: usize = 60;

/// What stands in every byte before a call; only what is answered may alter it.
const FILL: u8 = 0xA5;

/// A number that was not written.
const NONE: u32 = u32::from_le_bytes([FILL; 4]);

/// The number answered, the count, the missing bytes, and the buffer with what stands behind the room.
#[derive(Debug, PartialEq, Eq, Clone, Copy)]
pub struct Left {
    pub number: u32,
    pub count: u32,
    pub missing: u32,
    pub lent: [u8; LENT],
}

impl Left {
    /// What the original has a call leave, on the four bytes of a number, the highest first. Those are never refused, so none are
    /// missing, and a refusal is one for room, which writes nothing.
    pub fn by_original(kind: Kind, input: u32) -> Left {
        let (function, decoded) = (kind.function, decoded(kind.mode, &bytes(input)));
        match decoded.and_then(|opcode| Left::written(function, opcode)) {
            Ok(left) => left,
            Err(refusal) => Left::new(function, refusal as u32, 0, [FILL; LENT]),
        }
    }

    /// What the original says of a decoded row, at the front of the buffer.
    fn written(function: Function, opcode: OpCode) -> Result<Left, Refusal> {
        let (mut lent, room) = ([FILL; LENT], room(function));
        let mut rest = &mut lent[..room];
        let written = write(function, opcode, &mut rest);
        let count = room - rest.len();
        match written {
            Ok(()) => Ok(Left::new(function, 0, count as u32, lent)),
            Err(_) => Err(Refusal::NoRoom),
        }
    }

    /// A record has no count.
    fn new(function: Function, number: u32, count: u32, lent: [u8; LENT]) -> Left {
        let count = match function {
            Function::Record => NONE,
            Function::Text(_) => count,
        };
        Left {
            number,
            count,
            missing: 0,
            lent,
        }
    }

    /// All of it, as it lies in memory on the archive's side, low byte first.
    pub fn words(&self) -> impl Iterator<Item = u64> + '_ {
        let (front, behind) = self.lent.split_at(4);
        let front = u32::from_le_bytes(front.try_into().expect("four bytes"));
        let numbers = word(self.number, self.count);
        let missing = word(self.missing, front);
        let (behind, _) = behind.as_chunks();
        let behind = behind.iter().map(|bytes| u64::from_le_bytes(*bytes));
        [numbers, missing].into_iter().chain(behind)
    }
}

/// Two numbers as one, the first of them low.
fn word(low: u32, high: u32) -> u64 {
    low as u64 | (high as u64) << 32
}

/// What is lent: room for a record, or for the longest text.
fn room(function: Function) -> usize {
    match function {
        Function::Record => RECORD_SIZE,
        Function::Text(_) => TEXT_MAX,
    }
}

/// The number, the missing bytes where there are any, and the buffer up to where the fill begins: as bytes, or as text behind its
/// count.
impl fmt::Display for Left {
    fn fmt(&self, f: &mut fmt::Formatter) -> fmt::Result {
        let count = self.count;
        let number = match self.missing {
            0 => format!("{}", self.number),
            missing => format!("{}, missing {missing}", self.number),
        };
        let last = self.lent.iter().rposition(|byte| *byte != FILL);
        let lent = &self.lent[..last.map_or(0, |last| last + 1)];
        match count {
            NONE => write!(f, "{number}, {lent:02X?}"),
            _ => write!(f, "{number}, count {count}, \"{}\"", lent.escape_ascii()),
        }
    }
}

#[cfg(test)]
mod tests {
    use super::*;
    use crate::kind::KINDS;
    use host::function::FULL_TEXT;
    use host::plain::Mode;

    /// These bytes at the front, then the fill.
    fn lent(written: &[u8]) -> [u8; LENT] {
        std::array::from_fn(|place| *written.get(place).unwrap_or(&0xA5))
    }

    /// JR -126, which is the same in both modes.
    #[test]
    fn by_hand() {
        let record =
            b"\x02\x1C\x03\x82\xFF\0\0\0\0\0\0\x18\x80\x56\x78\x04\x03\x05\0\0\0\x03\x0C\x0C";
        let plain = b"JR\t-126 [4, 3, 5, 0, 0, 0]";
        let full = b"18 80 \t\tJR\t-126 [4, 3, 5, 0, 0, 0]";
        let expected: [(u32, &[u8]); 3] = [(0xA5A5_A5A5, record), (26, plain), (34, full)];
        for (kind, (count, written)) in KINDS.into_iter().zip(expected.iter().cycle()) {
            let expected = Left {
                number: 0,
                count: *count,
                missing: 0,
                lent: lent(written),
            };
            let left = Left::by_original(kind, 0x8A18_8056);
            assert_eq!(left, expected, "{left}");
        }
    }

    /// INC IX, in which the modes differ.
    #[test]
    fn by_mode() {
        let shown = |kind| Left::by_original(kind, 0x00_DD_23_00).to_string();
        let text = |times| format!(r#"0, count 25, "INC\tIX [{times}, 0, 0, 0, 0]""#);
        assert_eq!(shown(KINDS[1]), text("6, 4"));
        assert_eq!(shown(KINDS[4]), text("4, 6"));
    }

    /// No text of a decoded row is longer than the room, so one is made longer: it has (IX-128) twice.
    #[test]
    fn no_room() {
        let mut opcode = decoded(Mode::Rust, &[0xDD, 0xCB, 0x80, 0xC7]).unwrap();
        assert!(Left::written(FULL_TEXT, opcode.clone()).is_ok());
        opcode.op1 = opcode.op2;
        let refused = Left::written(FULL_TEXT, opcode);
        assert_eq!(refused, Err(Refusal::NoRoom));
    }

    #[test]
    fn words_are_all_bytes() {
        let left = Left {
            number: 0x0302_0100,
            count: 0x0706_0504,
            missing: 0x0B0A_0908,
            lent: std::array::from_fn(|place| place as u8 + 12),
        };
        let bytes = left.words().flat_map(u64::to_le_bytes);
        assert!(bytes.eq(0..72));
    }

    #[test]
    fn shown() {
        let text = Left::by_original(KINDS[1], 0).to_string();
        assert_eq!(text, r#"0, count 23, "NOP\t [4, 0, 0, 0, 0, 0]""#);
        let mut record = Left::by_original(KINDS[0], 0);
        let bytes = "01, 23, 00, 00, 00, 00, 00, 00, 00, 00, 00, 00, 00, 00, 00, 04, 00, 00, 00, 00, 00, 01, 04, 04";
        assert_eq!(record.to_string(), format!("0, [{bytes}]"));
        record.lent[25] = 0;
        assert_eq!(record.to_string(), format!("0, [{bytes}, A5, 00]"));
        record.missing = 3;
        let shown = format!("0, missing 3, [{bytes}, A5, 00]");
        assert_eq!(record.to_string(), shown);
    }
}
