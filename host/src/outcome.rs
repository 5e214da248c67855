//! What a call of an exported function answers and leaves in what was lent to it, and what it should.

use crate::answer::{Refusal, RECORD_SIZE};
use crate::asked::Asked;
use crate::function::Function;
use crate::plain::record::EMPTY;
use crate::plain::said::Said;

/// The bytes that are looked at: more than the largest room lent. Those past a room must stay as they were.
pub const LOOKED_AT: usize = 64;

/// What a function may write to. One that has no count, passes no bytes, or tells no address or no missing bytes must leave that
/// number as it was.
#[derive(Debug, PartialEq, Eq, Clone, Copy)]
pub struct Lent {
    pub count: u32,
    pub passed: u32,
    pub address: u32,
    pub missing: u32,
    pub buffer: [u8; LOOKED_AT],
}

/// One call, in a mode or with a number that is none, with what stands in the lent places before it; of the buffer `room` bytes
/// are lent.
pub struct Call<'a> {
    pub mode: u8,
    pub asked: &'a Asked<'a>,
    pub room: usize,
    pub before: Lent,
}

/// What a call came to. A map is only read, so it must be found as it was.
#[derive(Debug, PartialEq, Eq, Clone, Copy)]
pub struct Outcome {
    pub number: u8,
    pub lent: Lent,
    pub map_altered: bool,
}

/// What is lent to the k-th call of some: other numbers, none of them ever right, and another pattern for each.
pub fn filled(k: usize) -> Lent {
    Lent {
        count: 0xA5A5_0000 + k as u32,
        passed: 0x5A5A_0000 + k as u32,
        address: 0xC3C3_0000 + k as u32,
        missing: 0x3C3C_0000 + k as u32,
        buffer: std::array::from_fn(|place| (31 * k + 7 * place + 1) as u8),
    }
}

/// Where the room holds what the original says, that at the buffer's front and its numbers; else zeros and a refusal, with
/// its address or its missing bytes where the function tells them. A refused decode has the empty record, where the room holds
/// that; with a number that is no mode nothing is decoded.
pub fn expected(call: &Call, said: &Said) -> Outcome {
    let mut lent = call.before;
    let (number, count, passed, address) = match &said.written {
        Ok(written) if written.bytes.len() <= call.room => {
            let count = written.bytes.len();
            lent.buffer[..count].copy_from_slice(&written.bytes);
            (0, count, written.passed, 0)
        }
        Ok(_) => (Refusal::NoRoom as u8, 0, 0, 0),
        Err(refused) => (refused.refusal as u8, 0, 0, refused.address),
    };
    let is_decoded = number != Refusal::BadMode as u8;
    match call.asked {
        Asked::Bytes(function, _) => {
            lent.missing = said.missing as u32;
            if *function != Function::Record {
                lent.count = count as u32;
            } else if said.written.is_err() && is_decoded && RECORD_SIZE <= call.room {
                lent.buffer[..RECORD_SIZE].copy_from_slice(&EMPTY);
            }
        }
        Asked::Row(_) => (lent.count, lent.passed) = (count as u32, passed as u32),
        Asked::Map(_) => lent.address = address as u32,
    }
    Outcome {
        number,
        lent,
        map_altered: false,
    }
}

/// Where a call's outcome is not the expected one: the call and both outcomes.
pub fn difference(call: &Call, expected: Outcome, found: Outcome) -> Option<String> {
    (found != expected).then(|| {
        let Call {
            mode, asked, room, ..
        } = call;
        let (expected, found) = (shown(expected), shown(found));
        format!("{asked}, mode {mode}, room {room}\n  expected {expected}\n  here     {found}")
    })
}

fn shown(outcome: Outcome) -> String {
    let Outcome { number, lent, .. } = outcome;
    let numbers = format!("count {}, passed {}", lent.count, lent.passed);
    let altered = match outcome.map_altered {
        true => ", map altered",
        false => "",
    };
    let (address, missing, buffer) = (lent.address, lent.missing, lent.buffer);
    format!("{number}, {numbers}, address {address:04X}, missing {missing}{altered}, {buffer:02X?}")
}

#[cfg(test)]
mod tests {
    use super::*;
    use crate::arguments::{Map, Place, CHIP, RUST};
    use crate::function::{FULL_TEXT, PLAIN_TEXT};
    use crate::plain::said::said;
    use Function::{Record, Text};

    /// A row at the front of an image.
    fn front(image: &[u8]) -> Asked<'_> {
        Asked::Row(Place {
            image,
            origin: 0xABCD,
            address: 0xABCD,
        })
    }

    /// A map whose entry is the image's front.
    fn marked<'a>(image: &'a [u8], marks: &'a [u8]) -> Asked<'a> {
        Asked::Map(Map {
            image,
            origin: 0xABCD,
            marks,
            entries: &[0xCD, 0xAB],
        })
    }

    /// Each function on the same bytes; for a row and for a map they are the image.
    fn each(bytes: &[u8]) -> [Asked<'_>; 5] {
        let [record, text, full_text] =
            [Record, PLAIN_TEXT, FULL_TEXT].map(|function| Asked::Bytes(function, bytes.to_vec()));
        [
            record,
            text,
            full_text,
            front(bytes),
            marked(bytes, &[1, 2]),
        ]
    }

    fn outcome(asked: &Asked, room: usize) -> Outcome {
        outcome_in(RUST, asked, room)
    }

    fn outcome_in(mode: u8, asked: &Asked, room: usize) -> Outcome {
        let before = filled(5);
        let call = Call {
            mode,
            asked,
            room,
            before,
        };
        expected(&call, &said(mode, asked))
    }

    /// Whether a damage is seen with every function: where it is Done, in too small a room, and where the bytes are refused, in a
    /// room for a record and in one that is too small; and with a number that is no mode.
    fn is_seen(damage: impl Fn(&mut Outcome)) -> bool {
        let jump = &[0x18, 0x80][..];
        let cases = [
            (RUST, jump, 56),
            (RUST, jump, 23),
            (CHIP, &[], 56),
            (CHIP, &[], 23),
            (2, jump, 56),
        ];
        cases.iter().all(|&(mode, bytes, room)| {
            each(bytes).iter().all(|asked| {
                let before = filled(5);
                let call = Call {
                    mode,
                    asked,
                    room,
                    before,
                };
                let mut found = outcome_in(mode, asked, room);
                damage(&mut found);
                difference(&call, outcome_in(mode, asked, room), found).is_some()
            })
        })
    }

    #[test]
    fn damage_is_seen() {
        assert!(!is_seen(|_| ()));
        assert!(is_seen(|found| found.number ^= 2));
        assert!(is_seen(|found| found.lent.count += 1));
        assert!(is_seen(|found| found.lent.count ^= 1 << 31));
        assert!(is_seen(|found| found.lent.passed += 1));
        assert!(is_seen(|found| found.lent.passed ^= 1 << 31));
        assert!(is_seen(|found| found.lent.address += 1));
        assert!(is_seen(|found| found.lent.address ^= 1 << 31));
        assert!(is_seen(|found| found.lent.missing += 1));
        assert!(is_seen(|found| found.lent.missing ^= 1 << 31));
        assert!(is_seen(|found| found.map_altered = true));
        for place in 0..LOOKED_AT {
            assert!(is_seen(|found| found.lent.buffer[place] ^= 1));
        }
    }

    /// A call that is Done in just the room for it, with these bytes and numbers; and its refusal in a room one smaller.
    fn fits(asked: &Asked, bytes: &[u8], numbers: (u32, u32), refused_numbers: (u32, u32)) {
        let before = filled(5);
        let Outcome { number, lent, .. } = outcome(asked, bytes.len());
        let (front, behind) = lent.buffer.split_at(bytes.len());
        assert_eq!((number, (lent.count, lent.passed)), (0, numbers));
        assert_eq!(front, bytes);
        assert_eq!(behind, &before.buffer[bytes.len()..]);
        let Outcome { number, lent, .. } = outcome(asked, bytes.len() - 1);
        assert_eq!((number, (lent.count, lent.passed)), (4, refused_numbers));
        assert_eq!(lent.buffer, before.buffer);
    }

    #[test]
    fn record_by_hand() {
        let record = [
            2, 28, 11, 0, 0, 3, 0x82, 0xFF, 0, 0, 0, 0x20, 0x80, 0, 0, 4, 3, 5, 0, 0, 0, 3, 7, 12,
        ];
        let Lent { count, passed, .. } = filled(5);
        let asked = Asked::Bytes(Record, vec![0x20, 0x80]);
        fits(&asked, &record, (count, passed), (count, passed));
    }

    /// In a room for it the empty record, and nothing in a smaller one; the number is the same.
    #[test]
    fn refused_records_by_hand() {
        let cases: [(&[u8], u8, u32); 4] = [
            (&[], 1, 0),
            (&[0xDD], 2, 3),
            (&[0xDD, 0x23, 0x00], 2, 1),
            (&[0x00; 5], 3, 0),
        ];
        for (ins, number, missing) in cases {
            let asked = Asked::Bytes(Record, ins.to_vec());
            for room in [0, 23, 24, 25] {
                let mut lent = Lent {
                    missing,
                    ..filled(5)
                };
                if room >= 24 {
                    lent.buffer[..24].fill(0);
                    lent.buffer[1] = 35;
                }
                let found = outcome(&asked, room);
                assert_eq!((found.number, found.lent), (number, lent), "{ins:02X?}");
            }
        }
    }

    #[test]
    fn texts_by_hand() {
        let Lent { passed, .. } = filled(5);
        let plain = Asked::Bytes(PLAIN_TEXT, vec![0x00]);
        let text = b"NOP\t [4, 0, 0, 0, 0, 0]";
        fits(&plain, text, (23, passed), (0, passed));
        let full = Asked::Bytes(FULL_TEXT, vec![0xDD, 0xCB, 0x80, 0xC7]);
        let longest = b"DD CB 80 C7 \t\tSET\t00, (IX-128), A [4, 4, 3, 5, 4, 3]";
        fits(&full, longest, (52, passed), (0, passed));
    }

    /// The parts alone and the empty text, which needs no room.
    #[test]
    fn parts_by_hand() {
        let Lent { passed, .. } = filled(5);
        let parts: [&[u8]; 3] = [b"18 80 \t\t", b"JR\t-126", b" [4, 3, 5, 0, 0, 0]"];
        for (choice, part) in [1, 2, 4].into_iter().zip(parts) {
            let asked = Asked::Bytes(Text(choice), vec![0x18, 0x80]);
            fits(&asked, part, (part.len() as u32, passed), (0, passed));
        }
        let Outcome { number, lent, .. } = outcome(&Asked::Bytes(Text(0), vec![0x00]), 0);
        let untouched = filled(5);
        assert_eq!((number, lent.count, lent.missing), (0, 0, 0));
        assert_eq!((lent.passed, lent.buffer), (passed, untouched.buffer));
    }

    /// A number that is no choice is refused before the bytes and the room are looked at.
    #[test]
    fn bad_choices_by_hand() {
        for choice in [8, 9, 255] {
            for ins in [&[][..], &[0xDD], &[0x00], &[0x00; 5]] {
                for room in [0, 56] {
                    let found = outcome(&Asked::Bytes(Text(choice), ins.to_vec()), room);
                    let lent = Lent {
                        count: 0,
                        missing: 0,
                        ..filled(5)
                    };
                    assert_eq!((found.number, found.lent), (26, lent), "{ins:02X?}");
                }
            }
        }
    }

    /// A number that is no mode is refused before a bad choice, the sizes of an image, the bytes and the room, with zeros for the
    /// numbers that the function tells, and nothing else is written.
    #[test]
    fn bad_modes_by_hand() {
        for mode in [2, 3, 255] {
            for bytes in [&[][..], &[0xDD], &[0x00], &[0x00; 5]] {
                for room in [0, 23, 24, 58] {
                    let of_bytes = |function| Asked::Bytes(function, bytes.to_vec());
                    let zeros = |zero: fn(&mut Lent)| {
                        let mut lent = filled(5);
                        zero(&mut lent);
                        lent
                    };
                    let counted = zeros(|lent| (lent.count, lent.missing) = (0, 0));
                    let cases = [
                        (of_bytes(Record), zeros(|lent| lent.missing = 0)),
                        (of_bytes(FULL_TEXT), counted),
                        (of_bytes(Text(8)), counted),
                        (
                            front(bytes),
                            zeros(|lent| (lent.count, lent.passed) = (0, 0)),
                        ),
                        (marked(bytes, &[1]), zeros(|lent| lent.address = 0)),
                    ];
                    for (asked, lent) in cases {
                        let found = outcome_in(mode, &asked, room);
                        assert_eq!((found.number, found.lent), (35, lent), "{asked}");
                    }
                }
            }
        }
    }

    /// A text that is Short says so before the room is looked at; one that has no room lacks no bytes.
    #[test]
    fn missing_by_hand() {
        let cases: [(&[u8], u8, u32); 4] = [
            (&[0xED], 2, 1),
            (&[0xED, 0x43], 2, 2),
            (&[0x00], 4, 0),
            (&[], 1, 0),
        ];
        for (ins, number, missing) in cases {
            for function in [PLAIN_TEXT, FULL_TEXT] {
                let found = outcome(&Asked::Bytes(function, ins.to_vec()), 22);
                let lent = Lent {
                    count: 0,
                    missing,
                    ..filled(5)
                };
                assert_eq!((found.number, found.lent), (number, lent), "{ins:02X?}");
            }
        }
    }

    #[test]
    fn rows_by_hand() {
        let longest = b"ABCD DD CB 80 C7 \t\tSET\t00, (IX-128), A [4, 4, 3, 5, 4, 3]\n";
        fits(&front(&[0xDD, 0xCB, 0x80, 0xC7]), longest, (58, 4), (0, 0));
        fits(&front(&[0xDD, 0x23]), b"ABCD DD \t\t?2\n", (13, 1), (0, 0));
    }

    /// The image's size, then the address, then the room.
    #[test]
    fn refusals_of_rows_in_order() {
        let cases: [(&[u8], u16, u16, u8); 4] = [
            (&[], 0x1000, 0x0FFF, 5),
            (&[0x00, 0x00], 0xFFFF, 0x0000, 5),
            (&[0x00], 0xFFFF, 0x0000, 1),
            (&[0x00], 0xFFFF, 0xFFFF, 4),
        ];
        for (image, origin, address, number) in cases {
            let place = Place {
                image,
                origin,
                address,
            };
            let found = outcome(&Asked::Row(place), 0);
            let lent = Lent {
                count: 0,
                passed: 0,
                ..filled(5)
            };
            assert_eq!((found.number, found.lent), (number, lent));
        }
    }

    /// Number and address of a map check, which leaves all else that is lent as it was.
    #[test]
    fn maps_by_hand() {
        let cases: [(&[u8], &[u8], u8, u32); 5] = [
            (&[0x18, 0xFE], &[1, 2], 0, 0),
            (&[0x18, 0xFF], &[1, 2], 13, 0xABCD),
            (&[0xC9, 0x00], &[1, 2], 12, 0xABCE),
            (&[0xC9], &[1, 1], 6, 0),
            (&[0xC9, 0xC9], &[0, 1], 9, 0xABCD),
        ];
        for (image, marks, number, address) in cases {
            let found = outcome(&marked(image, marks), 0);
            let lent = Lent {
                address,
                ..filled(5)
            };
            assert_eq!((found.number, found.lent), (number, lent));
        }
    }
}
