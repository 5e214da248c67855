//! A row alone in an image of RETs, with the marks that it asks for in a mode, and with each of them changed.

use crate::arguments::{DATA, INSIDE, START};
use crate::maps::grown::{followed, RET};
use crate::maps::Drawn;
use crate::plain::Mode;

/// The row at an address of an image of so many bytes, which may end before the row does; then, each by itself, every mark
/// that it asks for changed both ways, and an inside mark behind it.
pub fn lone(mode: Mode, size: usize, origin: u16, address: u16, row: &[u8]) -> Vec<Drawn> {
    let at = (address - origin) as usize;
    let mut image = vec![RET; size];
    let end = size.min(at + row.len());
    image[at..end].copy_from_slice(&row[..end - at]);
    let drawn = followed(mode, image, origin, &[address]);
    let mut maps = vec![drawn.clone()];
    for place in (0..size).filter(|place| drawn.marks[*place] != DATA) {
        let others = [DATA, START, INSIDE].into_iter();
        let wrong = others.filter(|mark| *mark != drawn.marks[place]);
        maps.extend(wrong.map(|mark| marked(&drawn, place, mark)));
    }
    let behind = (at + 1..size).find(|place| drawn.marks[*place] == DATA);
    maps.extend(behind.map(|place| marked(&drawn, place, INSIDE)));
    maps
}

fn marked(drawn: &Drawn, place: usize, mark: u8) -> Drawn {
    let mut drawn = drawn.clone();
    drawn.marks[place] = mark;
    drawn
}

#[cfg(test)]
mod tests {
    use super::*;
    use crate::plain::marking::judged;

    #[test]
    fn by_hand() {
        let maps = lone(Mode::Rust, 4, 0x1000, 0x1000, &[0x18, 0x01]);
        let marks: Vec<&[u8]> = maps.iter().map(|map| &map.marks[..]).collect();
        let expected: [&[u8]; 8] = [
            &[1, 2, 0, 1],
            &[0, 2, 0, 1],
            &[2, 2, 0, 1],
            &[1, 0, 0, 1],
            &[1, 1, 0, 1],
            &[1, 2, 0, 0],
            &[1, 2, 0, 2],
            &[1, 2, 2, 1],
        ];
        assert_eq!(marks, expected);
        let numbers = maps.iter().map(|map| judged(Mode::Rust, &map.map()));
        let numbers =
            numbers.map(|judged| judged.map_or_else(|refused| refused.refusal as u8, |()| 0));
        assert!(numbers.eq([0, 9, 9, 11, 11, 13, 13, 12]));
        assert!(maps.iter().all(|map| map.image == [0x18, 0x01, RET, RET]));
    }

    #[test]
    fn cut_off() {
        let maps = lone(Mode::Rust, 2, 0xFFFE, 0xFFFF, &[0x18, 0x01]);
        assert_eq!(
            (&maps[0].image[..], &maps[0].marks[..]),
            (&[RET, 0x18][..], &[0, 1][..])
        );
    }
}
