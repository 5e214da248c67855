//! What an exported function is asked.

use crate::arguments::{Map, Place};
use crate::function::Function;
use std::fmt;

/// A function of a row's bytes with those, `z80_row` with its place, or `z80_map_check` with its map.
pub enum Asked<'a> {
    Bytes(Function, Vec<u8>),
    Row(Place<'a>),
    Map(Map<'a>),
}

/// So many bytes of each part of a map are shown.
const SHOWN: usize = 256;

impl fmt::Display for Asked<'_> {
    fn fmt(&self, f: &mut fmt::Formatter) -> fmt::Result {
        match self {
            Asked::Bytes(function, ins) => write!(f, "{function:?} of {ins:02X?}"),
            Asked::Row(place) => {
                let Place { image, origin, .. } = place;
                let at = place.address.wrapping_sub(*origin) as usize;
                let rest = image.get(at..).unwrap_or_default();
                let there = &rest[..rest.len().min(4)];
                write!(f, "Row at {:04X}, {there:02X?}, ", place.address)?;
                write!(f, "image of {} bytes from {origin:04X} on", image.len())
            }
            Asked::Map(map) => {
                let parts = [map.image, map.marks, map.entries];
                let [image, marks, entries] = parts.map(shown);
                write!(f, "Map from {:04X} on, ", map.origin)?;
                write!(f, "image {image}, marks {marks}, entries {entries}")
            }
        }
    }
}

/// How many bytes, and the first of them.
fn shown(bytes: &[u8]) -> String {
    let first = &bytes[..bytes.len().min(SHOWN)];
    format!("of {} {first:02X?}", bytes.len())
}
