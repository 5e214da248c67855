//! Maps that are made to be checked.

pub mod broken;
pub mod codes;
pub mod entries;
pub mod flowing;
pub mod full;
pub mod grown;
pub mod lone;
pub mod small;

use crate::arguments::Map;

/// An image at an origin, marks as anyone may have drawn them, entries as byte pairs.
#[derive(Debug, PartialEq, Eq, Clone)]
pub struct Drawn {
    pub image: Vec<u8>,
    pub origin: u16,
    pub marks: Vec<u8>,
    pub entries: Vec<u8>,
}

impl Drawn {
    pub fn map(&self) -> Map<'_> {
        Map {
            image: &self.image,
            origin: self.origin,
            marks: &self.marks,
            entries: &self.entries,
        }
    }
}

/// Entries as byte pairs, low byte first.
pub fn pairs(entries: &[u16]) -> Vec<u8> {
    let pairs = entries.iter().map(|entry| entry.to_le_bytes());
    pairs.flatten().collect()
}
