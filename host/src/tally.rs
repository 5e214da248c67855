//! What the compared calls of a function came to.

use crate::answer::{name, Refusal};
use crate::asked::Asked;
use crate::outcome::{difference, Call, Outcome};
use crate::plain::Mode;

/// Differences past these are counted and not shown.
const SHOWN: usize = 10;

/// The last of the answer numbers.
const LAST: usize = Refusal::BadMode as usize;

const BAD_CHOICE: usize = Refusal::BadChoice as usize;

/// Besides these: of a Short input, or of a row that is Done although its bytes are Short, one to three are missing.
const ONE_MISSING: usize = LAST + 1;
const TWO_MISSING: usize = ONE_MISSING + 1;
const THREE_MISSING: usize = TWO_MISSING + 1;

const KINDS: usize = THREE_MISSING + 1;

/// What the functions of a row's bytes may answer, but for a choice that is none.
pub const OF_BYTES: [usize; 8] = [0, 1, 2, 3, 4, ONE_MISSING, TWO_MISSING, THREE_MISSING];

/// What `z80_text` may answer.
pub const OF_CHOICES: [usize; 9] = [
    0,
    1,
    2,
    3,
    4,
    BAD_CHOICE,
    ONE_MISSING,
    TWO_MISSING,
    THREE_MISSING,
];

/// What `z80_row` may answer.
pub const OF_ROWS: [usize; 7] = [0, 1, 4, 5, ONE_MISSING, TWO_MISSING, THREE_MISSING];

/// What `z80_map_check` may answer.
pub const OF_MAPS: [usize; 10] = [0, 5, 6, 7, 8, 9, 10, 11, 12, 13];

/// What every function answers with a number that is no mode.
pub const OF_OTHER_MODES: [usize; 1] = [LAST];

/// Those of some answers that there are in a mode: in the chip's no input lacks three bytes.
pub fn answers_in(mode: Mode, of: &[usize]) -> Vec<usize> {
    let answers = of.iter().copied();
    let in_mode = |kind: &usize| mode == Mode::Rust || *kind != THREE_MISSING;
    answers.filter(in_mode).collect()
}

/// How a kind of answer is printed.
fn shown(kind: usize) -> String {
    match name(kind) {
        Some(name) => format!("{kind} {name}"),
        None => format!("Short by {}", kind - LAST),
    }
}

pub struct Tally {
    pub calls: usize,
    pub differing: usize,
    met: [usize; KINDS],
}

impl Default for Tally {
    fn default() -> Tally {
        Tally {
            calls: 0,
            differing: 0,
            met: [0; KINDS],
        }
    }
}

impl Tally {
    /// Counts a call by what it should answer; its difference, if it has one that is to be shown.
    pub fn add(&mut self, call: &Call, expected: Outcome, found: Outcome) -> Option<String> {
        self.calls += 1;
        self.met[expected.number as usize] += 1;
        if let missing @ 1.. = told_missing(call, &expected) {
            self.met[LAST + missing] += 1;
        }
        let difference = difference(call, expected, found)?;
        self.differing += 1;
        (self.differing <= SHOWN).then_some(difference)
    }

    /// Those of some answers that fewer calls came to than there should be.
    pub fn missing(&self, to_meet: &[usize], at_least: usize) -> Vec<String> {
        let unmet = to_meet.iter().filter(|kind| self.met[**kind] < at_least);
        unmet.map(|kind| shown(*kind)).collect()
    }

    /// How many calls came to each answer that there was.
    pub fn counts(&self) -> String {
        let met = self.met.iter().enumerate().filter(|(_, count)| **count > 0);
        let counts: Vec<String> = met
            .map(|(kind, count)| format!("{}: {count}", shown(kind)))
            .collect();
        counts.join(", ")
    }
}

/// How many missing bytes are told: in the number for them, or at the end of a Short row's line.
fn told_missing(call: &Call, expected: &Outcome) -> usize {
    let lent = &expected.lent;
    match call.asked {
        Asked::Bytes(..) => lent.missing as usize,
        Asked::Row(_) => match lent.buffer[..lent.count as usize] {
            [.., b'?', digit, b'\n'] => (digit - b'0') as usize,
            _ => 0,
        },
        Asked::Map(_) => 0,
    }
}

#[cfg(test)]
mod tests {
    use super::*;
    use crate::arguments::{Place, CHIP, RUST};
    use crate::function::Function;
    use crate::outcome::{expected, filled};
    use crate::plain::missing::missing;
    use crate::plain::said::said;

    /// Adds a row at 1000 of an image from there on; whether a difference is shown.
    fn add(tally: &mut Tally, image: &[u8], room: usize, damage: u32) -> bool {
        let (origin, address) = (0x1000, 0x1000);
        let asked = Asked::Row(Place {
            image,
            origin,
            address,
        });
        let call = Call {
            mode: RUST,
            asked: &asked,
            room,
            before: filled(0),
        };
        let expected = expected(&call, &said(RUST, &asked));
        let mut found = expected;
        found.lent.passed += damage;
        tally.add(&call, expected, found).is_some()
    }

    #[test]
    fn counted_by_answer() {
        let mut tally = Tally::default();
        assert!(!add(&mut tally, &[0xDD], 12, 0));
        assert!(!add(&mut tally, &[0x00], 58, 0));
        assert!(!add(&mut tally, &[], 58, 0));
        let [one, two, three] = ["Short by 1", "Short by 2", "Short by 3"];
        let unmet = tally.missing(&OF_ROWS, 1);
        assert_eq!(unmet, ["1 Nothing", one, two, three]);
        assert!(!add(&mut tally, &[0xDD], 13, 0));
        assert!(!add(&mut tally, &[0xED, 0x43], 13, 0));
        assert_eq!(tally.missing(&OF_ROWS, 1), ["1 Nothing", one]);
        let twice = tally.missing(&OF_ROWS, 2);
        let once = ["4 NoRoom", "5 ImageSize", one, two, three];
        assert_eq!(twice, [&["1 Nothing"], &once[..]].concat());
        assert_eq!(
            tally.counts(),
            "0 Done: 3, 4 NoRoom: 1, 5 ImageSize: 1, Short by 2: 1, Short by 3: 1"
        );
        assert_eq!((tally.calls, tally.differing), (5, 0));
    }

    /// Counts what is asked, in no room, where what is found is what is expected.
    fn add_met(tally: &mut Tally, mode: u8, asked: &Asked) {
        let call = Call {
            mode,
            asked,
            room: 0,
            before: filled(0),
        };
        let expected = expected(&call, &said(mode, asked));
        assert_eq!(tally.add(&call, expected, expected), None);
    }

    /// An input of bytes is counted by the number for its missing ones, in any room.
    #[test]
    fn counted_by_missing_bytes() {
        let mut tally = Tally::default();
        for ins in [&[0xDD][..], &[0xED], &[0xED, 0x43], &[0x00], &[]] {
            let asked = Asked::Bytes(Function::Record, ins.to_vec());
            add_met(&mut tally, RUST, &asked);
        }
        assert_eq!(
            tally.counts(),
            "1 Nothing: 1, 2 Short: 3, 4 NoRoom: 1, Short by 1: 1, Short by 2: 1, Short by 3: 1"
        );
    }

    /// A choice that is none is counted as that alone, though the bytes are Short, and so is a mode before it.
    #[test]
    fn counted_by_choice() {
        let mut tally = Tally::default();
        let asked = Asked::Bytes(Function::Text(8), vec![0xDD]);
        add_met(&mut tally, CHIP, &asked);
        assert_eq!(tally.counts(), "26 BadChoice: 1");
        add_met(&mut tally, 2, &asked);
        assert_eq!(tally.counts(), "26 BadChoice: 1, 35 BadMode: 1");
        assert!(tally.missing(&OF_OTHER_MODES, 1).is_empty());
    }

    /// In the chip's mode no byte lacks three, and of more bytes none can; in the Rust's DD does.
    #[test]
    fn answers_by_mode() {
        let lacking = |mode| (0..=0xFF).map(move |byte| missing(mode, &[byte]));
        assert_eq!(lacking(Mode::Chip).max(), Some(2));
        assert_eq!(lacking(Mode::Rust).max(), Some(3));
        assert_eq!(answers_in(Mode::Rust, &OF_ROWS), OF_ROWS);
        assert_eq!(answers_in(Mode::Chip, &OF_ROWS), OF_ROWS[..6]);
    }

    #[test]
    fn first_differences_shown() {
        let mut tally = Tally::default();
        for k in 0..SHOWN + 5 {
            assert_eq!(add(&mut tally, &[0x00], 58, 1), k < SHOWN);
        }
        assert_eq!(tally.differing, SHOWN + 5);
    }
}
