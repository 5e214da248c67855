//! The rooms that are lent to the functions of a row's bytes.

use crate::answer::TEXT_MAX;
use crate::function::Function;
use crate::plain::said::said_of_bytes;
use crate::plain::Mode;

/// More than the longest text.
const AMPLE: u8 = 56;

/// For the record none, one too few, exactly enough, one more, and more; for a text every room up to two over the longest.
pub fn every_room(function: Function) -> Vec<u8> {
    match function {
        Function::Record => vec![0, 23, 24, 25, 40],
        Function::Text(_) => (0..=TEXT_MAX as u8 + 2).collect(),
    }
}

/// A room for all that the function may write: of three in turn the k-th.
pub fn enough_room(function: Function, k: usize) -> Vec<u8> {
    let rooms = match function {
        Function::Record => [24, 25, 40],
        Function::Text(_) => [52, 53, AMPLE],
    };
    vec![rooms[k % rooms.len()]]
}

/// None, one too few, exactly enough and one more for what is to be written of these bytes, and room for any text.
pub fn rooms_around(mode: Mode, function: Function, ins: &[u8]) -> Vec<u8> {
    let own = said_of_bytes(mode, function, ins).map_or(0, |said| said.len() as u8);
    let mut rooms = vec![0, own.saturating_sub(1), own, own + 1, AMPLE];
    rooms.dedup();
    rooms
}

#[cfg(test)]
mod tests {
    use super::*;

    #[test]
    fn around_by_hand() {
        let around = |choice| rooms_around(Mode::Rust, Function::Text(choice), &[0x18, 0x80]);
        assert_eq!(around(0), [0, 1, AMPLE]);
        assert_eq!(around(1), [0, 7, 8, 9, AMPLE]);
        assert_eq!(around(7), [0, 33, 34, 35, AMPLE]);
        assert_eq!(around(8), [0, 1, AMPLE]);
    }
}
