//! The calls of `z80_row` that are compared: of each image, at some origins, the rows at all addresses in it and around it.

use crate::answer::LINE_MAX;
use crate::arguments::ADDRESSES;
use crate::calls::{About, Calls, Places};
use crate::images::{mixed_code, page, whole};
use crate::mixed::Mixed;
use crate::pages::{ED_BEHIND, PAGES};
use crate::plain::Mode;
use crate::runs::Run;

/// Lengths of images that are tried in every room, and in one.
const SMALL: [usize; 11] = [1, 2, 3, 4, 5, 7, 8, 64, 100, 300, 777];
const LARGE: [usize; 3] = [4_096, ADDRESSES - 1, ADDRESSES];

/// So many addresses on either side of an image are tried besides its own.
const AROUND: usize = 8;

/// Rows that lack their last bytes, for an image to end in.
const CUT: [&[u8]; 4] = [&[0xDD], &[0xFD, 0xCB, 0x05], &[0xED, 0x43, 0x34], &[0xCB]];

/// Every room up to two over the longest line; for a large image just that line's.
fn rooms(length: usize) -> Vec<u8> {
    match length < LARGE[0] {
        true => (0..=LINE_MAX as u8 + 2).collect(),
        false => vec![LINE_MAX as u8],
    }
}

/// The last origin where an image of this length fits; 0 where none does.
fn last(length: usize) -> usize {
    ADDRESSES.saturating_sub(length)
}

/// Origins from the first to the last that fits, one over that, and the last of all.
fn origins(length: usize) -> Vec<u16> {
    let last = last(length);
    let chosen = [0, 1, last / 3, last / 2, last, last + 1, ADDRESSES - 1];
    let mut origins: Vec<u16> = chosen
        .iter()
        .flat_map(|&origin| origin.try_into())
        .collect();
    origins.sort();
    origins.dedup();
    origins
}

/// The rows of an image at an origin: in and around it, and at both ends of all addresses.
fn rows(mode: Mode, image: &[u8], origin: u16) -> [Calls; 2] {
    let first = origin.wrapping_sub(AROUND as u16);
    let count = ADDRESSES.min(AROUND + image.len() + AROUND);
    [(first, count), (u16::MAX, 2)].map(|(first, count)| Calls {
        mode: mode as u8,
        rooms: rooms(image.len()),
        about: About::Places(Places::new(image, origin, first, count as u32)),
    })
}

/// Each image at each of the origins that are chosen for its length.
fn at(mode: Mode, origins: fn(usize) -> Vec<u16>, images: Vec<Vec<u8>>) -> Run {
    Box::new(images.into_iter().flat_map(move |image| {
        let origins = origins(image.len()).into_iter();
        origins.flat_map(move |origin| rows(mode, &image, origin))
    }))
}

/// At its last origin, where no address is left behind the image.
fn at_last(mode: Mode, images: Vec<Vec<u8>>) -> Run {
    at(mode, |length| vec![last(length) as u16], images)
}

/// The image with a cut row put over its end, or as much of that as it holds.
fn cut(mut image: Vec<u8>, row: &[u8]) -> Vec<u8> {
    let count = row.len().min(image.len());
    let from = image.len() - count;
    image[from..].copy_from_slice(&row[..count]);
    image
}

/// Of each length mixed bytes and mixed code, both as they are and with each of the cut rows at the end in turn.
fn of_lengths(lengths: &[usize]) -> Vec<Vec<u8>> {
    let mut mixed = Mixed::new(0x5A80_4096);
    let mut images = vec![];
    for (k, &length) in lengths.iter().enumerate() {
        for image in [mixed.bytes(length), mixed_code(length, &mut mixed)] {
            images.push(cut(image.clone(), CUT[(k + images.len()) % CUT.len()]));
            images.push(image);
        }
    }
    images
}

fn of_wrong_lengths() -> Vec<Vec<u8>> {
    let mut mixed = Mixed::new(0x5A80_6537);
    vec![vec![], mixed.bytes(ADDRESSES + 1)]
}

/// Every first byte with none to three mixed ones behind it.
fn of_first_bytes() -> Vec<Vec<u8>> {
    let mut mixed = Mixed::new(0x5A80_0256);
    let firsts = (0..=0xFF).flat_map(|first| (0..=3).map(move |more| (first, more)));
    firsts
        .map(|(first, more)| [vec![first], mixed.bytes(more)].concat())
        .collect()
}

/// Codes of every page behind another row, with one to all of their bytes.
fn of_cut_rows() -> Vec<Vec<u8>> {
    let mut mixed = Mixed::new(0x5A80_0017);
    let mut images = vec![];
    for prefix in PAGES.iter().chain(&ED_BEHIND) {
        for code in (0..=0xFF).step_by(0x11) {
            let row = whole(prefix, code, &mut mixed);
            images.extend((1..=row.len()).map(|count| [&[0x3E, 0x05], &row[..count]].concat()));
        }
    }
    images
}

fn of_pages() -> Vec<Vec<u8>> {
    let mut mixed = Mixed::new(0x5A80_2304);
    let pages = PAGES.iter().chain(&ED_BEHIND);
    pages.map(|prefix| page(prefix, &mut mixed)).collect()
}

pub fn row_runs(mode: Mode) -> Vec<(&'static str, Run)> {
    let small = of_lengths(&SMALL);
    let large = of_lengths(&LARGE);
    vec![
        (
            "images of 0 and 65,537 bytes",
            at(mode, origins, of_wrong_lengths()),
        ),
        (
            "images of 1 to 777 bytes, every room",
            at(mode, origins, small),
        ),
        (
            "every first byte, every room",
            at_last(mode, of_first_bytes()),
        ),
        (
            "cut rows of every page, every room",
            at_last(mode, of_cut_rows()),
        ),
        (
            "every code of each page, every room",
            at_last(mode, of_pages()),
        ),
        ("images of 4,096 to 65,536 bytes", at(mode, origins, large)),
    ]
}

#[cfg(test)]
mod tests {
    use super::*;

    #[test]
    fn origins_by_hand() {
        assert_eq!(origins(0), [0, 1, 21_845, 32_768, 65_535]);
        assert_eq!(origins(1), [0, 1, 21_845, 32_767, 65_535]);
        assert_eq!(origins(7)[4..], [65_529, 65_530, 65_535]);
        assert_eq!(origins(65_535), [0, 1, 2, 65_535]);
        assert_eq!(origins(65_536), [0, 1, 65_535]);
        assert_eq!(origins(65_537), [0, 1, 65_535]);
    }

    #[test]
    fn ends_cut() {
        assert_eq!(cut(vec![1, 2, 3, 4], &[0xDD, 0xCB]), [1, 2, 0xDD, 0xCB]);
        assert_eq!(cut(vec![1], &[0xFD, 0xCB]), [0xFD]);
    }
}
