//! Maps that differ in their entries alone.

use crate::arguments::ADDRESSES;
use crate::arguments::{DATA, START};
use crate::maps::grown::RET;
use crate::maps::{pairs, Drawn};
use crate::mixed::Mixed;

/// How many entries there may be, too few and too many; then numbers that come to 0 and 1 in 16 bits.
const COUNTS: [usize; 11] = [
    0,
    1,
    2,
    3,
    255,
    256,
    257,
    258,
    512,
    ADDRESSES,
    ADDRESSES + 1,
];

/// The first half of the image is starts, the second data.
const ORIGIN: u16 = 0x1000;
const STARTS: usize = 0x100;

/// What the first and the last entry are where they are no starts: data, before the image; of two the higher one first.
const WRONG: [(Option<u16>, Option<u16>); 4] = [
    (None, None),
    (Some(0x1180), None),
    (None, Some(0x0FFF)),
    (Some(0x11FF), Some(0x1180)),
];

/// Each count of entries with each of the wrong ones, with and without half a pair behind.
pub fn entry_maps() -> impl Iterator<Item = Drawn> {
    let mut mixed = Mixed::new(0x5A80_0257);
    let cases = COUNTS
        .into_iter()
        .flat_map(|count| WRONG.map(|wrong| (count, wrong)));
    cases.flat_map(move |(count, wrong)| {
        let whole = pairs(&entries(count, wrong, &mut mixed));
        let half = [&whole[..], &[0]].concat();
        [whole, half].map(from)
    })
}

fn entries(count: usize, wrong: (Option<u16>, Option<u16>), mixed: &mut Mixed) -> Vec<u16> {
    let start = |_| ORIGIN + mixed.below(STARTS) as u16;
    let mut entries: Vec<u16> = (0..count).map(start).collect();
    if let (Some(first), Some(wrong)) = (entries.first_mut(), wrong.0) {
        *first = wrong;
    }
    if let (Some(last), Some(wrong)) = (entries.last_mut(), wrong.1) {
        *last = wrong;
    }
    entries
}

/// A map of RETs with these entries.
fn from(entries: Vec<u8>) -> Drawn {
    Drawn {
        image: vec![RET; 2 * STARTS],
        origin: ORIGIN,
        marks: [[START; STARTS], [DATA; STARTS]].concat(),
        entries,
    }
}

#[cfg(test)]
mod tests {
    use super::*;
    use crate::plain::marking::judged;
    use crate::plain::Mode;

    /// By count: whole and wrong entries, each without half a pair and with it.
    #[test]
    fn by_hand() {
        let said = entry_maps().map(|drawn| match judged(Mode::Rust, &drawn.map()) {
            Ok(()) => (0, 0),
            Err(refused) => (refused.refusal as u8, refused.address),
        });
        let said: Vec<(u8, u16)> = said.collect();
        let counted: Vec<_> = said.chunks(8).zip(COUNTS).collect();
        let seven = (7, 0);
        for (said, count) in counted {
            let last = if count == 1 { 0x1180 } else { 0x11FF };
            let wrong = [0x1180, 0x0FFF, last].map(|address| [(9, address), seven]);
            let expected = match count {
                1..=256 => [&[(0, 0), seven], wrong.as_flattened()].concat(),
                _ => vec![seven; 8],
            };
            assert_eq!(said, expected, "{count}");
        }
    }
}
