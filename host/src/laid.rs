//! A map as it is lent to a call: each part is a copy, and bytes stand behind it that change the answer where they are read.

use crate::arguments::{Map, START};

/// So many bytes stand behind each part, the same on every machine.
const BEHIND: usize = 4;

/// A row at the image's end that lacks bytes would have them.
const BEHIND_IMAGE: [u8; BEHIND] = [0; BEHIND];

/// The place after the image would be a start.
const BEHIND_MARKS: [u8; BEHIND] = [START; BEHIND];

/// One entry more would be outside nearly every image.
const BEHIND_ENTRIES: [u8; BEHIND] = [0xFF; BEHIND];

#[derive(Debug, PartialEq, Eq)]
pub struct Laid {
    image: Vec<u8>,
    origin: u16,
    marks: Vec<u8>,
    entries: Vec<u8>,
}

impl Laid {
    pub fn out(map: &Map) -> Laid {
        Laid {
            image: [map.image, &BEHIND_IMAGE].concat(),
            origin: map.origin,
            marks: [map.marks, &BEHIND_MARKS].concat(),
            entries: [map.entries, &BEHIND_ENTRIES].concat(),
        }
    }

    /// The map without what stands behind its parts.
    pub fn map(&self) -> Map<'_> {
        Map {
            image: front(&self.image),
            origin: self.origin,
            marks: front(&self.marks),
            entries: front(&self.entries),
        }
    }
}

fn front(part: &[u8]) -> &[u8] {
    &part[..part.len() - BEHIND]
}

#[cfg(test)]
mod tests {
    use super::*;

    const MAP: Map = Map {
        image: &[0x3E, 0x05, 0xC9],
        origin: 0x1000,
        marks: &[1, 2, 1],
        entries: &[0x00, 0x10],
    };

    #[test]
    fn by_hand() {
        let laid = Laid::out(&MAP);
        assert_eq!(laid.map(), MAP);
        assert_eq!(laid.image, [0x3E, 0x05, 0xC9, 0, 0, 0, 0]);
        assert_eq!(laid.marks, [1, 2, 1, 1, 1, 1, 1]);
        assert_eq!(laid.entries, [0x00, 0x10, 0xFF, 0xFF, 0xFF, 0xFF]);
    }

    /// Any byte that is altered, also behind a part, makes it another one.
    #[test]
    fn damage_is_seen() {
        let parts: [fn(&mut Laid) -> &mut Vec<u8>; 3] = [
            |laid| &mut laid.image,
            |laid| &mut laid.marks,
            |laid| &mut laid.entries,
        ];
        for part in parts {
            for at in 0..part(&mut Laid::out(&MAP)).len() {
                let mut laid = Laid::out(&MAP);
                part(&mut laid)[at] ^= 1;
                assert_ne!(laid, Laid::out(&MAP));
            }
        }
    }
}
