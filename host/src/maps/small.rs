//! Maps of small images of every kind: with every marking, with random marks, grown, damaged, and with rules broken.

use crate::arguments::ADDRESSES;
use crate::arguments::{DATA, INSIDE, START};
use crate::images::mixed_code;
use crate::maps::broken::{break_rule, damaged, rules};
use crate::maps::flowing::flowing_code;
use crate::maps::grown::{followed, grown, overgrown};
use crate::maps::{pairs, Drawn};
use crate::mixed::Mixed;
use crate::plain::Mode;

/// The longest image with every marking, and how many there are of each length.
const MARKED_SIZE: usize = 6;
const MARKED: usize = 256;

/// The longest image with random marks, and how many there are.
const RANDOM_SIZE: usize = 40;
const RANDOM: usize = 200_000;

/// The longest image of a grown map; how many there are, and of how many others how many damaged copies.
const GROWN_SIZE: usize = 160;
const GROWN: usize = 20_000;
const DAMAGED: usize = 30_000;
const COPIES: usize = 8;

/// The shortest and the longest image with two rules broken, which need some bytes, and how many there are of each two.
const BROKEN_SIZES: (usize, usize) = (4, 24);
const BROKEN: usize = 300;

/// Bytes that long rows are made of, so that they overlap wherever one begins.
const LONG: [u8; 16] = [
    0xDD, 0xDD, 0xFD, 0xCB, 0xED, 0x36, 0x21, 0xC3, 0xCD, 0x18, 0x3E, 0x66, 0x43, 0xE9, 0xC9, 0x00,
];

/// One of four origins for an image of this length: the first, the last that fits, a low one that an RST leads into, any.
pub fn origin(length: usize, mixed: &mut Mixed) -> u16 {
    let last = ADDRESSES - length;
    let origin = match mixed.below(4) {
        0 => 0,
        1 => last,
        2 => mixed.below(0x38),
        _ => mixed.below(last + 1),
    };
    origin as u16
}

/// An image of one of four kinds, and its origin: code of every kind, long rows, mixed code, mixed bytes.
fn image(length: usize, mixed: &mut Mixed) -> (Vec<u8>, u16) {
    let origin = origin(length, mixed);
    let image = match mixed.below(4) {
        0 => flowing_code(length, origin, mixed),
        1 => (0..length).map(|_| mixed.one_of(&LONG)).collect(),
        2 => mixed_code(length, mixed),
        _ => mixed.bytes(length),
    };
    (image, origin)
}

/// Small images with every marking by 0 to 2 that begins with a start.
pub fn every_marking() -> impl Iterator<Item = Drawn> {
    let mut mixed = Mixed::new(0x5A80_0364);
    let lengths = (1..=MARKED_SIZE).flat_map(|length| [length; MARKED]);
    lengths.flat_map(move |length| {
        let (image, origin) = image(length, &mut mixed);
        let markings = 0..3_usize.pow(length as u32 - 1);
        markings.map(move |marking| Drawn {
            image: image.clone(),
            origin,
            marks: marks(length, marking),
            entries: pairs(&[origin]),
        })
    })
}

/// A start, and then the digits of a number to the base 3.
fn marks(length: usize, mut marking: usize) -> Vec<u8> {
    let mut marks = vec![START];
    for _ in 1..length {
        marks.push((marking % 3) as u8);
        marking /= 3;
    }
    marks
}

pub fn random_maps() -> impl Iterator<Item = Drawn> {
    let mut mixed = Mixed::new(0x5A80_2025);
    (0..RANDOM).map(move |_| random(&mut mixed))
}

/// Marks and an entry that have little to do with the image. One map in eight has a mark that is any byte.
fn random(mixed: &mut Mixed) -> Drawn {
    let length = 1 + mixed.below(RANDOM_SIZE);
    let (image, origin) = image(length, mixed);
    let any = [DATA, START, START, START, INSIDE, INSIDE, INSIDE];
    let mut marks: Vec<u8> = (0..length).map(|_| mixed.one_of(&any)).collect();
    if mixed.below(8) == 0 {
        marks[mixed.below(length)] = mixed.byte();
    }
    let starts: Vec<usize> = (0..length).filter(|at| marks[*at] == START).collect();
    let entry = match starts.is_empty() || mixed.below(16) == 0 {
        true => mixed.below(ADDRESSES) as u16,
        false => origin + mixed.one_of(&starts) as u16,
    };
    Drawn {
        image,
        origin,
        marks,
        entries: pairs(&[entry]),
    }
}

pub fn grown_maps(mode: Mode) -> impl Iterator<Item = Drawn> {
    let mut mixed = Mixed::new(0x5A80_0137);
    (0..GROWN).map(move |_| growing(mode, 1, GROWN_SIZE, &mut mixed))
}

/// A map grown from one to four entries; one in eight as the code asks for it, whether that passes or not.
fn growing(mode: Mode, shortest: usize, longest: usize, mixed: &mut Mixed) -> Drawn {
    let length = shortest + mixed.below(longest + 1 - shortest);
    let (image, origin) = image(length, mixed);
    let count = 1 + mixed.below(4);
    let entry = |_| origin + mixed.below(length) as u16;
    let entries: Vec<u16> = (0..count).map(entry).collect();
    match mixed.below(8) {
        0 => followed(mode, image, origin, &entries),
        1 => overgrown(mode, image, origin, &entries),
        _ => grown(mode, image, origin, &entries),
    }
}

/// Grown maps, each with one thing damaged, and in the next copy another.
pub fn damaged_maps(mode: Mode) -> impl Iterator<Item = Drawn> {
    let mut mixed = Mixed::new(0x5A80_0138);
    (0..DAMAGED).flat_map(move |_| {
        let drawn = growing(mode, 1, GROWN_SIZE, &mut mixed);
        [(); COPIES].map(|()| damaged(&drawn, &mut mixed))
    })
}

/// Each two rules broken in a grown map, one after the other.
pub fn broken_maps(mode: Mode) -> impl Iterator<Item = Drawn> {
    let (shortest, longest) = BROKEN_SIZES;
    let mut mixed = Mixed::new(0x5A80_0139);
    let pairs = rules().flat_map(|first| rules().map(move |second| [first, second]));
    let pairs = pairs.flat_map(|both| [both; BROKEN]);
    pairs.map(move |both| {
        let mut drawn = growing(mode, shortest, longest, &mut mixed);
        for rule in both {
            break_rule(mode, rule, &mut drawn, &mut mixed);
        }
        drawn
    })
}

#[cfg(test)]
mod tests {
    use super::*;
    use crate::plain::marking::judged;
    use crate::plain::MODES;

    #[test]
    fn marks_by_hand() {
        assert_eq!(marks(1, 0), [1]);
        assert_eq!(marks(4, 0), [1, 0, 0, 0]);
        assert_eq!(marks(4, 5), [1, 2, 1, 0]);
        assert_eq!(marks(4, 26), [1, 2, 2, 2]);
    }

    /// An image fits at its origin, also where there is but one that fits.
    #[test]
    fn origins_fit() {
        let mut mixed = Mixed::new(0x5A80_0004);
        for length in [1, 2, 40, 160, ADDRESSES - 0x38] {
            for _ in 0..100 {
                let origin = origin(length, &mut mixed) as usize;
                assert!(origin + length <= ADDRESSES, "{origin} {length}");
            }
        }
    }

    /// Most grown maps pass in their mode, and most damaged ones do not.
    #[test]
    fn shares() {
        for mode in MODES {
            let passing = |maps: &mut dyn Iterator<Item = Drawn>| {
                let judged = maps.take(2000).map(|drawn| judged(mode, &drawn.map()));
                judged.filter(Result::is_ok).count()
            };
            let grown = passing(&mut grown_maps(mode));
            let damaged = passing(&mut damaged_maps(mode));
            assert!(grown > 1700 && grown < 2000, "{grown}");
            assert!(damaged > 200 && damaged < 1000, "{damaged}");
        }
    }
}
