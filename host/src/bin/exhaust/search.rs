//! Where in a block the two sides differ.

use crate::block::{bytes, inputs, INPUTS};
use crate::child::Archive;
use crate::kind::Kind;
use crate::left::Left;
use crate::tally::grouped;
use std::{fmt, io};

/// The first input where they differ, with what both sides leave, and how many there are.
#[derive(Debug, PartialEq, Eq)]
pub struct Difference {
    first: u32,
    original: Left,
    here: Left,
    differing: usize,
}

/// Asks the archive for all that the calls of a block leave, and holds it to the original.
pub fn search(words: &[String], kind: Kind, block: u16) -> io::Result<Option<Difference>> {
    let mut archive = Archive::start(words, kind)?;
    archive.ask_all(block)?;
    let found = difference(kind, block, |_| archive.left())?;
    archive.finish()?;
    Ok(found)
}

/// The difference, with `here` to say what the call of each input leaves, one behind the other.
fn difference(
    kind: Kind,
    block: u16,
    mut here: impl FnMut(u32) -> io::Result<Left>,
) -> io::Result<Option<Difference>> {
    let mut found: Option<Difference> = None;
    for input in inputs(block) {
        let (original, here) = (Left::by_original(kind, input), here(input)?);
        if original == here {
            continue;
        }
        let difference = found.get_or_insert(Difference {
            first: input,
            original,
            here,
            differing: 0,
        });
        difference.differing += 1;
    }
    Ok(found)
}

impl fmt::Display for Difference {
    fn fmt(&self, f: &mut fmt::Formatter) -> fmt::Result {
        let first = bytes(self.first);
        let (original, here) = (self.original, self.here);
        let [differing, of] = [self.differing, INPUTS].map(grouped);
        write!(
            f,
            "{differing} of {of} inputs differ, the first {first:02X?}"
        )?;
        write!(f, "\n  original {original}\n  here     {here}")
    }
}

#[cfg(test)]
mod tests {
    use super::*;
    use crate::block::by_original;
    use crate::hash::hash;
    use crate::kind::RECORDS;

    const BLOCK: u16 = 0xDD36;

    /// Stands in for the archive: the original, but for the record of another input where it is damaged.
    fn stand_in(input: u32, damaged: &[u32]) -> Left {
        let other = damaged.contains(&input) as u32;
        Left::by_original(RECORDS, input ^ other)
    }

    fn found(damaged: &[u32]) -> Option<Difference> {
        difference(RECORDS, BLOCK, |input| Ok(stand_in(input, damaged))).unwrap()
    }

    #[test]
    fn none_where_both_are_equal() {
        assert_eq!(found(&[]), None);
    }

    #[test]
    fn first_middle_and_last_are_found() {
        for first in [0xDD36_0000, 0xDD36_8007, 0xDD36_FFFF] {
            let expected = Difference {
                first,
                original: Left::by_original(RECORDS, first),
                here: Left::by_original(RECORDS, first ^ 1),
                differing: 1,
            };
            assert_eq!(found(&[first]), Some(expected));
        }
    }

    #[test]
    fn the_first_of_several() {
        let several = found(&[0xDD36_FFFF, 0xDD36_0101, 0xDD36_7777]).unwrap();
        assert_eq!((several.first, several.differing), (0xDD36_0101, 3));
        let shown = several.to_string();
        assert!(shown
            .starts_with("3 of 65,536 inputs differ, the first [36, 01, 01, 15]\n  original 0, "));
    }

    /// A block in which a single call differs has another hash.
    #[test]
    fn hashes_of_such_blocks_differ() {
        let hash_of = |damaged: &[u32]| hash(inputs(BLOCK).map(|input| stand_in(input, damaged)));
        let right = by_original(RECORDS, BLOCK);
        assert_eq!(hash_of(&[]), right);
        for input in [0xDD36_0000, 0xDD36_8007, 0xDD36_FFFF] {
            assert_ne!(hash_of(&[input]), right);
        }
    }
}
