//! The stored images of the listing program, and the lines that it has to print for each.

use crate::images::{mixed_code, page, whole};
use crate::mixed::Mixed;
use crate::pages::{ED_BEHIND, PAGES};
use crate::plain::listing::listing;
use crate::plain::Mode;
use crate::stored::Row;

/// The longest image that is listed, and what is printed for a longer one.
const LISTED: usize = 32_768;
const TOO_LONG: &[u8] = b"image too long\n";

/// Document 01's example.
const EXAMPLE: [u8; 7] = [0x21, 0x34, 0x12, 0x3E, 0x05, 0xDD, 0x23];

/// Each folder with its image.
pub fn images() -> impl Iterator<Item = (&'static str, Vec<u8>)> {
    let images = [
        ("list", EXAMPLE.to_vec()),
        ("list/runs/empty", vec![]),
        ("list/runs/one_byte", vec![0xDD]),
        ("list/runs/full", code(LISTED)),
        ("list/runs/over", code(LISTED + 1)),
        ("list/runs/pages", pages()),
        ("list/runs/cut", cut()),
    ];
    images.into_iter()
}

/// Mixed code; what is longer begins with what is shorter.
fn code(count: usize) -> Vec<u8> {
    mixed_code(count, &mut Mixed::new(0x5A80_3276))
}

/// Every code of every page. Each is cut where its row ends, so that the next one begins a row; behind the last one stand
/// three NOPs, so that it has the four bytes that a prefix needs.
fn pages() -> Vec<u8> {
    let mut mixed = Mixed::new(0x5A80_0900);
    let pages = PAGES.iter().chain(&ED_BEHIND);
    let mut image: Vec<u8> = pages.flat_map(|prefix| page(prefix, &mut mixed)).collect();
    image.extend([0x00; 3]);
    image
}

/// A row of every page, and then each prefix once: DD has just the four bytes that it needs and is a NOP; FD, ED and CB
/// have three, two and one, too few for each, and are three Short rows; ED CB is an undefined code, which needs four.
fn cut() -> Vec<u8> {
    let mut mixed = Mixed::new(0x5A80_0066);
    let pages = PAGES.iter().chain(&ED_BEHIND);
    let mut image: Vec<u8> = pages
        .flat_map(|prefix| whole(prefix, 0x66, &mut mixed))
        .collect();
    image.extend([0xDD, 0xFD, 0xED, 0xCB]);
    image
}

/// The rows that the program lists from 0 on, each with its bytes. An empty image has none; of one that is too long all
/// bytes go with the one line.
pub fn rows(image: &[u8]) -> Vec<Row> {
    if image.is_empty() {
        return vec![];
    }
    if image.len() > LISTED {
        return vec![Row {
            request: image.to_vec(),
            line: TOO_LONG.to_vec(),
        }];
    }
    let mut rest = image;
    let mut row_of = |passed, line| {
        let (bytes, behind) = rest.split_at(passed);
        rest = behind;
        let request = bytes.to_vec();
        Row { request, line }
    };
    let listed = listing(Mode::Rust, image, 0).expect("an image that fits");
    let listed = listed.into_iter();
    listed.map(|row| row_of(row.passed, row.line)).collect()
}

#[cfg(test)]
mod tests {
    use super::*;

    /// The image of a folder, and all that is printed for it.
    fn stored(folder: &str) -> (Vec<u8>, Vec<u8>) {
        let (_, image) = images().find(|(name, _)| *name == folder).unwrap();
        let lines = rows(&image).into_iter().map(|row| row.line);
        let printed = lines.collect::<Vec<_>>().concat();
        (image, printed)
    }

    #[test]
    fn bytes_of_rows_are_the_image() {
        for (folder, image) in images() {
            let bytes = rows(&image).into_iter().flat_map(|row| row.request);
            assert!(bytes.eq(image), "{folder}");
        }
    }

    #[test]
    fn small_ones() {
        let (_, printed) = stored("list");
        assert_eq!(printed.iter().filter(|byte| **byte == b'\n').count(), 4);
        assert_eq!(stored("list/runs/empty"), (vec![], vec![]));
        let one = (vec![0xDD], b"0000 DD \t\t?3\n".to_vec());
        assert_eq!(stored("list/runs/one_byte"), one);
    }

    /// One byte more, and none of it is listed.
    #[test]
    fn sizes() {
        let (full, printed) = stored("list/runs/full");
        assert_eq!(full.len(), 32_768);
        assert!((400_000..700_000).contains(&printed.len()));
        let (over, message) = stored("list/runs/over");
        assert_eq!((over.len(), &over[..32_768]), (32_769, &full[..]));
        assert_eq!(message, b"image too long\n");
    }

    #[test]
    fn no_code_is_short() {
        let (_, printed) = stored("list/runs/pages");
        assert!(!printed.contains(&b'?'));
    }

    #[test]
    fn four_endings() {
        let (_, printed) = stored("list/runs/cut");
        let text = String::from_utf8(printed).unwrap();
        let endings: Vec<&str> = text.lines().rev().take(4).map(|line| &line[5..]).collect();
        assert_eq!(endings[..3], ["CB \t\t?1", "ED \t\t?2", "FD \t\t?1"]);
        assert!(endings[3].starts_with("DD \t\tNOP\t"), "{}", endings[3]);
        assert_eq!(text.matches('?').count(), 3);
    }
}
