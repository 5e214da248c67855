//! Maps of all addresses, where places wrap and windows do not.

use crate::arguments::ADDRESSES;
use crate::arguments::{ENTRIES, START};
use crate::maps::broken::damaged;
use crate::maps::flowing::flowing_code;
use crate::maps::grown::{overgrown, RET};
use crate::maps::lone::lone;
use crate::maps::{pairs, Drawn};
use crate::mixed::Mixed;
use crate::plain::Mode;

/// How many full maps there are, and damaged copies of each.
const FULL: u32 = 4;
const COPIES: usize = 24;

/// Rows that end with the last address, or would go on behind it.
const LAST_ROWS: [&[u8]; 12] = [
    &[0x00],
    &[0xC9],
    &[0xFF],
    &[0x3E, 0x05],
    &[0xED, 0xB0],
    &[0xED, 0x00, 0x00, 0x00],
    &[0xC2, 0x02, 0x00],
    &[0xCD, 0xFF, 0xFF],
    &[0xDD, 0x23],
    &[0xFD, 0x66, 0x05],
    &[0xDD, 0x36, 0x80, 0x07],
    &[0xDD, 0xC3, 0x00, 0x00],
];

/// Relative rows whose target is across an end, or just not: their address, and the signed byte.
const RELATIVE: [(u16, u8); 14] = [
    (0x0000, 0xFD),
    (0x0000, 0xFE),
    (0x0000, 0x80),
    (0x0002, 0xFB),
    (0x007D, 0x80),
    (0x007E, 0x80),
    (0x007F, 0x80),
    (0xFFFE, 0x00),
    (0xFFFE, 0x7F),
    (0xFFFD, 0x00),
    (0xFFF0, 0x0D),
    (0xFFF0, 0x0E),
    (0xFF7E, 0x7F),
    (0xFF7F, 0x7F),
];

/// Each of these rows alone in a full image, with its marks right and wrong.
pub fn rows_at_ends(mode: Mode) -> impl Iterator<Item = Drawn> {
    let last = LAST_ROWS.into_iter().flat_map(|row| {
        let addresses = 0xFFFC..=0xFFFF;
        addresses.map(move |address| (address, row.to_vec()))
    });
    let relative = [0x18, 0x10].into_iter().flat_map(|code| {
        let rows = RELATIVE.into_iter();
        rows.map(move |(address, way)| (address, vec![code, way]))
    });
    let rows = last.chain(relative);
    rows.flat_map(move |(address, row)| lone(mode, ADDRESSES, 0, address, &row))
}

/// A full map that passes in a mode: nothing but code of every kind, and as many entries as there may be.
pub fn full_map(mode: Mode, seed: u32) -> Drawn {
    let mut mixed = Mixed::new(seed);
    let image = flowing_code(ADDRESSES, 0, &mut mixed);
    let entry = |_| mixed.below(ADDRESSES) as u16;
    let entries: Vec<u16> = (0..ENTRIES).map(entry).collect();
    overgrown(mode, image, 0, &entries)
}

/// Full maps, each as it is and then with one thing damaged.
pub fn full_maps(mode: Mode) -> impl Iterator<Item = Drawn> {
    (0..FULL).flat_map(move |k| {
        let drawn = full_map(mode, 0x5A80_6536 + k);
        let mut mixed = Mixed::new(0x5A80_6540 + k);
        let copies = [(); COPIES].map(|()| damaged(&drawn, &mut mixed));
        [drawn].into_iter().chain(copies)
    })
}

/// An image of RETs and its marks, in lengths around 65,536 or apart by that, at both ends of the origins.
pub fn sizes() -> impl Iterator<Item = Drawn> {
    let sizes = [
        (ADDRESSES - 1, ADDRESSES - 1),
        (ADDRESSES, ADDRESSES),
        (ADDRESSES, ADDRESSES - 1),
        (ADDRESSES - 1, ADDRESSES),
        (ADDRESSES + 1, ADDRESSES + 1),
        (2, ADDRESSES + 2),
        (1, 1),
        (1, 0),
        (0, 0),
        (0, 1),
    ];
    let origins = [0, 1, 0xFFFE, 0xFFFF];
    let cases = sizes.into_iter();
    let cases = cases.flat_map(move |size| origins.map(|origin| (size, origin)));
    cases.map(|((image, marks), origin)| Drawn {
        image: vec![RET; image],
        origin,
        marks: vec![START; marks],
        entries: pairs(&[origin]),
    })
}

#[cfg(test)]
mod tests {
    use super::*;
    use crate::plain::marking::judged;
    use crate::plain::MODES;

    #[test]
    fn full_map_passes() {
        for mode in MODES {
            let drawn = full_map(mode, 0x5A80_6536);
            assert_eq!(judged(mode, &drawn.map()), Ok(()));
            assert!(drawn.image.len() == ADDRESSES && drawn.entries.len() == 512);
            let starts = drawn.marks.iter().filter(|mark| **mark == START).count();
            assert!((20_000..50_000).contains(&starts), "{starts}");
            let rets = drawn.image.iter().filter(|byte| **byte == RET).count();
            assert!(rets < 10_000, "{rets}");
        }
    }

    /// The relative rows come in both kinds: across an end, and on their own side.
    #[test]
    fn relative_rows() {
        let across = RELATIVE.iter().filter(|(address, way)| {
            let target = *address as i32 + 2 + *way as i8 as i32;
            !(0..ADDRESSES as i32).contains(&target)
        });
        assert_eq!(across.count(), 8);
    }
}
