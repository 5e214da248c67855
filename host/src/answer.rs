//! What a function answers: the numbers of documents 01 and 02, their names, and the most bytes that it writes.

use Refusal::*;

/// A record has so many bytes: length, instruction, three operand places of three bytes, four data bytes, six T-states, machine
/// cycles, the least and the most that the row takes.
pub const RECORD_SIZE: usize = 24;

/// The longest text of a decoded record, which is one with all parts.
pub const TEXT_MAX: usize = 52;

/// The longest line: address, space, full text, LF.
pub const LINE_MAX: usize = 4 + 1 + TEXT_MAX + 1;

/// The refusals, as documents 01 and 02 number them; 0 is Done.
#[derive(Debug, PartialEq, Eq, Clone, Copy)]
pub enum Refusal {
    Nothing = 1,
    Short = 2,
    Long = 3,
    NoRoom = 4,
    ImageSize = 5,
    MarkSize = 6,
    EntryCount = 7,
    MarkValue = 8,
    EntryNotStart = 9,
    Unfinished = 10,
    Clipped = 11,
    Stray = 12,
    BadNext = 13,
    BadChoice = 26,
    BadMode = 35,
}

/// All refusals, in the order of their numbers.
pub const REFUSALS: [Refusal; 15] = [
    Nothing,
    Short,
    Long,
    NoRoom,
    ImageSize,
    MarkSize,
    EntryCount,
    MarkValue,
    EntryNotStart,
    Unfinished,
    Clipped,
    Stray,
    BadNext,
    BadChoice,
    BadMode,
];

/// The name of an answer by its number.
pub fn name(number: usize) -> Option<String> {
    if number == 0 {
        return Some("Done".into());
    }
    let mut refusals = REFUSALS.into_iter();
    let refusal = refusals.find(|refusal| *refusal as usize == number)?;
    Some(format!("{refusal:?}"))
}

/// Why a map is refused, and the address that is told with it.
#[derive(Debug, PartialEq, Eq, Clone, Copy)]
pub struct Refused {
    pub refusal: Refusal,
    pub address: u16,
}

/// A refusal that has no address.
impl From<Refusal> for Refused {
    fn from(refusal: Refusal) -> Refused {
        let address = 0;
        Refused { refusal, address }
    }
}

#[cfg(test)]
mod tests {
    use super::*;

    #[test]
    fn refusals_by_number() {
        let numbers = REFUSALS.map(|refusal| refusal as usize);
        assert!(numbers.into_iter().eq((1..=13).chain([26, 35])));
    }

    #[test]
    fn names_by_number() {
        let names = [
            (0, "Done"),
            (1, "Nothing"),
            (7, "EntryCount"),
            (13, "BadNext"),
            (26, "BadChoice"),
            (35, "BadMode"),
        ];
        for (number, word) in names {
            assert_eq!(name(number).unwrap(), word);
        }
        for number in [14, 25, 27, 34, 36] {
            assert_eq!(name(number), None);
        }
    }
}
