//! The map check, read plainly: where each of document 01's rules 5 to 13 holds, and which of them is answered. The decoder
//! is the mode's; each start is decoded once, before the rules of rows.

use super::decoded;
use super::flow::next_places;
use super::listing::window;
use super::Mode;
use crate::answer::Refusal::*;
use crate::answer::Refused;
use crate::arguments::{Map, ADDRESSES, ENTRIES, INSIDE, PAIR, START};
use crate::original::OpCode;
use std::iter;

/// What the map check should answer: of all that holds the first.
pub fn judged(mode: Mode, map: &Map) -> Result<(), Refused> {
    holding(mode, map).next().map_or(Ok(()), Err)
}

/// 5, 6, 7, 8, 9 in that order, then the lowest address where any of 10 to 13 holds and there the lowest number. For 8 the
/// lowest such address, for 9 the first such entry in list order. The starts are decoded when 10 is come to.
pub fn holding<'a>(mode: Mode, map: &'a Map) -> impl Iterator<Item = Refused> + 'a {
    let sizes = map.wrong_sizes();
    let marks = sizes.chain(map.wrong_marks());
    let entries = marks.chain(map.wrong_entries());
    entries.chain(iter::once_with(move || map.wrong_rows(mode)).flatten())
}

/// The rules, for this module alone.
impl Map<'_> {
    /// 5 to 7, which have no address.
    fn wrong_sizes(&self) -> impl Iterator<Item = Refused> {
        let image = self.image_size().then_some(ImageSize);
        let marks = self.mark_size().then_some(MarkSize);
        let entries = self.entry_count().then_some(EntryCount);
        let holding = [image, marks, entries].into_iter().flatten();
        holding.map(Refused::from)
    }

    /// 8, from the lowest address on.
    fn wrong_marks(&self) -> impl Iterator<Item = Refused> + '_ {
        let holding = self.addresses().filter(|&at| self.mark_value(at));
        holding.map(|address| Refused {
            refusal: MarkValue,
            address,
        })
    }

    /// 9, in list order.
    fn wrong_entries(&self) -> impl Iterator<Item = Refused> + '_ {
        let holding = self.entries().filter(|&entry| self.entry_not_start(entry));
        holding.map(|address| Refused {
            refusal: EntryNotStart,
            address,
        })
    }

    /// 10 to 13, from the lowest address on, and at each from the lowest number on.
    fn wrong_rows(&self, mode: Mode) -> impl Iterator<Item = Refused> + '_ {
        let rows = self.rows(mode);
        self.addresses().flat_map(move |address| {
            let unfinished = rows.unfinished(address).then_some(Unfinished);
            let clipped = rows.clipped(address).then_some(Clipped);
            let stray = rows.stray(address).then_some(Stray);
            let bad_next = rows.bad_next(address).then_some(BadNext);
            let holding = [unfinished, clipped, stray, bad_next].into_iter().flatten();
            holding.map(move |refusal| Refused { refusal, address })
        })
    }

    /// 5: image empty, or origin + length over 65,536.
    fn image_size(&self) -> bool {
        self.image.is_empty() || self.origin as usize + self.image.len() > ADDRESSES
    }

    /// 6: marks and image differ in length.
    fn mark_size(&self) -> bool {
        self.marks.len() != self.image.len()
    }

    /// 7: no entries, or over 256; a half pair counts as this too.
    fn entry_count(&self) -> bool {
        let (pairs, half) = (self.entries.len() / PAIR, self.entries.len() % PAIR);
        half != 0 || pairs == 0 || pairs > ENTRIES
    }

    /// 8: a mark over 2.
    fn mark_value(&self, address: u16) -> bool {
        self.mark(address).is_some_and(|mark| mark > INSIDE)
    }

    /// 9: an entry outside the image or not marked 1.
    fn entry_not_start(&self, entry: u16) -> bool {
        !self.is_start(entry)
    }

    /// The addresses of the image, the lowest first.
    fn addresses(&self) -> impl Iterator<Item = u16> {
        let origin = self.origin;
        (0..self.image.len()).map(move |at| origin.wrapping_add(at as u16))
    }

    fn entries(&self) -> impl Iterator<Item = u16> + '_ {
        let pairs = self.entries.chunks_exact(PAIR);
        pairs.map(|pair| u16::from_le_bytes([pair[0], pair[1]]))
    }

    /// The mark at an address; none outside the image.
    fn mark(&self, address: u16) -> Option<u8> {
        let at = address.checked_sub(self.origin)? as usize;
        self.marks.get(at).copied()
    }

    fn is_start(&self, address: u16) -> bool {
        self.mark(address) == Some(START)
    }

    /// The map with its starts decoded.
    fn rows(&self, mode: Mode) -> Rows<'_> {
        let places = 0..self.image.len();
        let records = places.map(|at| match self.marks.get(at) {
            Some(&START) => decoded(mode, window(self.image, at)).ok(),
            _ => None,
        });
        Rows {
            map: self,
            records: records.collect(),
        }
    }
}

/// A map, and for each place of its image the record of a start, where there is one: what the decoder makes of the window
/// there, the up to four image bytes, which do not wrap.
struct Rows<'a> {
    map: &'a Map<'a>,
    records: Vec<Option<OpCode>>,
}

impl Rows<'_> {
    /// 10: a start whose window the decoder refuses.
    fn unfinished(&self, address: u16) -> bool {
        self.map.is_start(address) && self.row(address).is_none()
    }

    /// 11: a later byte of a start's record not marked 2.
    fn clipped(&self, address: u16) -> bool {
        self.row(address).is_some_and(|record| {
            let mut later = (1..record.length as u16).map(|n| address.wrapping_add(n));
            later.any(|place| self.map.mark(place) != Some(INSIDE))
        })
    }

    /// 12: a byte marked 2 that no start's record covers after its first byte. No record has more than four bytes.
    fn stray(&self, address: u16) -> bool {
        let covers = |n: u16| {
            let row = self.row(address.wrapping_sub(n));
            row.is_some_and(|record| n < record.length as u16)
        };
        self.map.mark(address) == Some(INSIDE) && ![1, 2, 3].into_iter().any(covers)
    }

    /// 13: a start with a next place outside the image or not marked 1.
    fn bad_next(&self, address: u16) -> bool {
        self.row(address).is_some_and(|record| {
            let mut next = next_places(address, record);
            next.any(|place| !self.map.is_start(place))
        })
    }

    /// The record of a start, where it has one.
    fn row(&self, address: u16) -> Option<&OpCode> {
        let at = address.checked_sub(self.map.origin)? as usize;
        self.records.get(at)?.as_ref()
    }
}

#[cfg(test)]
mod tests {
    use super::*;

    /// What is said of a map with the one entry `origin`: number and address.
    fn said(image: &[u8], origin: u16, marks: &[u8]) -> (u8, u16) {
        said_from(image, origin, marks, &[origin])
    }

    fn said_from(image: &[u8], origin: u16, marks: &[u8], entries: &[u16]) -> (u8, u16) {
        let entries: Vec<u8> = entries
            .iter()
            .flat_map(|entry| entry.to_le_bytes())
            .collect();
        number(Map {
            image,
            origin,
            marks,
            entries: &entries,
        })
    }

    fn number(map: Map) -> (u8, u16) {
        number_in(Mode::Rust, &map)
    }

    fn number_in(mode: Mode, map: &Map) -> (u8, u16) {
        match judged(mode, map) {
            Ok(()) => (0, 0),
            Err(Refused { refusal, address }) => (refusal as u8, address),
        }
    }

    /// Maps by what each mode says of them: a row that is there with two bytes, an undefined code of two, a prefix before ED.
    #[test]
    fn modes() {
        let cases: [(&[u8], &[u8], _, _); 6] = [
            (&[0xDD, 0x23, 0xC9], &[1, 2, 1], (10, 0), (0, 0)),
            (&[0xED, 0x00, 0xC9, 0x00], &[1, 2, 1, 0], (13, 0), (0, 0)),
            (&[0xED, 0x00, 0xC9, 0x00], &[1, 1, 1, 0], (0, 0), (11, 0)),
            (&[0xDD, 0xED, 0x60, 0xC9], &[1, 2, 2, 1], (0, 0), (13, 0)),
            (&[0xDD, 0xED, 0x60, 0xC9], &[1, 1, 2, 1], (11, 0), (0, 0)),
            (&[0xDD, 0xE9], &[1, 2], (10, 0), (0, 0)),
        ];
        for (image, marks, rust, chip) in cases {
            let map = Map {
                image,
                origin: 0,
                marks,
                entries: &[0, 0],
            };
            assert_eq!(number_in(Mode::Rust, &map), rust, "{image:02X?} {marks:?}");
            assert_eq!(number_in(Mode::Chip, &map), chip, "{image:02X?} {marks:?}");
        }
    }

    #[test]
    fn maps_of_document_01() {
        assert_eq!(said(&[0x18, 0xFE], 0, &[1, 2]), (0, 0));
        assert_eq!(said(&[0x18, 0xFF], 0, &[1, 2]), (13, 0));
        assert_eq!(said(&[0xC9], 0, &[1]), (0, 0));
        assert_eq!(said(&[0x00], 0, &[1]), (13, 0));
        assert_eq!(said(&[0xC9, 0x00], 0, &[1, 2]), (12, 1));
        assert_eq!(said(&[0x3E, 0x05, 0xC9], 0, &[1, 1, 1]), (11, 0));
        assert_eq!(said(&[0xDD, 0x23, 0xC9], 0, &[1, 2, 1]), (10, 0));
    }

    #[test]
    fn image_size() {
        assert_eq!(said(&[], 0, &[]), (5, 0));
        assert_eq!(said(&[], 0xFFFF, &[]), (5, 0));
        assert_eq!(said(&[0xC9], 0xFFFF, &[1]), (0, 0));
        assert_eq!(said(&[0xC9; 2], 0xFFFF, &[1; 2]), (5, 0));
        assert_eq!(said(&[0xC9; 2], 0xFFFE, &[1; 2]), (0, 0));
        assert_eq!(said(&[0xC9; ADDRESSES], 0, &[1; ADDRESSES]), (0, 0));
        assert_eq!(said(&[0xC9; ADDRESSES], 1, &[1; ADDRESSES]), (5, 0));
        let over = ADDRESSES + 1;
        assert_eq!(said(&vec![0xC9; over], 0, &vec![1; over]), (5, 0));
    }

    #[test]
    fn mark_size() {
        assert_eq!(said(&[0xC9, 0xC9], 0, &[1]), (6, 0));
        assert_eq!(said(&[0xC9, 0xC9], 0, &[1, 1, 1]), (6, 0));
        assert_eq!(said(&[0xC9], 0, &[]), (6, 0));
        assert_eq!(said(&[0xC9], 0, &vec![1; ADDRESSES + 1]), (6, 0));
    }

    /// The zeros are entries, of which the image has a start.
    #[test]
    fn entry_count() {
        let counted = |bytes: usize| {
            number(Map {
                image: &[0xC9],
                origin: 0,
                marks: &[1],
                entries: &vec![0; bytes],
            })
        };
        for bytes in [2, 4, 6, 510, 512] {
            assert_eq!(counted(bytes), (0, 0), "{bytes}");
        }
        for bytes in [0, 1, 3, 5, 511, 513, 514, 516, 131_072, 131_074] {
            assert_eq!(counted(bytes), (7, 0), "{bytes}");
        }
    }

    #[test]
    fn mark_value() {
        assert_eq!(said(&[0xC9; 4], 0x1000, &[1, 0, 3, 255]), (8, 0x1002));
        assert_eq!(said(&[0xC9; 4], 0x1000, &[255, 0, 3, 4]), (8, 0x1000));
    }

    #[test]
    fn entry_not_start() {
        let from = |entries: &[u16]| said_from(&[0x3E, 5, 0xC9, 7], 0x1000, &[1, 2, 1, 0], entries);
        assert_eq!(from(&[0x1000, 0x1002, 0x1000]), (0, 0));
        for entry in [0x0000, 0x0002, 0x0FFF, 0x1001, 0x1003, 0x1004, 0xFFFF] {
            assert_eq!(from(&[entry]), (9, entry));
            assert_eq!(from(&[0x1002, entry]), (9, entry));
        }
        assert_eq!(from(&[0x1002, 0x1003, 0x1001]), (9, 0x1003));
        assert_eq!(from(&[0x1000, 0xFFFF, 0x1001, 0xFFFF]), (9, 0xFFFF));
    }

    /// DD and FD need four bytes, an undefined ED code too; a plain row the bytes that it has.
    #[test]
    fn unfinished() {
        for image in [&[0xDD][..], &[0xDD, 0x23], &[0xFD, 0xE9, 0], &[0xED, 0, 0]] {
            let marks = [1, 2, 2];
            let said = said(image, 0xFF00, &marks[..image.len()]);
            assert_eq!(said, (10, 0xFF00), "{image:02X?}");
        }
        assert_eq!(said(&[0xC3, 0x00], 0, &[1, 2]), (10, 0));
        assert_eq!(said(&[0x18], 0, &[1]), (10, 0));
        assert_eq!(said(&[0xDD, 0xE9, 0, 0], 0, &[1, 2, 0, 0]), (0, 0));
    }

    #[test]
    fn clipped() {
        let image = [0xDD, 0x36, 0x80, 0x07, 0xC9];
        assert_eq!(said(&image, 0x1000, &[1, 2, 2, 2, 1]), (0, 0));
        for at in 1..=3 {
            for mark in [0, 1] {
                let mut marks = [1, 2, 2, 2, 1];
                marks[at] = mark;
                assert_eq!(said(&image, 0x1000, &marks), (11, 0x1000));
            }
        }
    }

    /// What a start covers ends with its record, and a row of four bytes has to go on; before the image there is no start.
    #[test]
    fn stray() {
        assert_eq!(said(&[0xC9, 0x36, 5, 5], 0, &[1, 2, 0, 0]), (12, 1));
        assert_eq!(said(&[0x18, 0xFE, 5], 0, &[1, 2, 2]), (12, 2));
        assert_eq!(said(&[0xC3, 0, 0, 5], 0, &[1, 2, 2, 2]), (12, 3));
        let longest = [0xDD, 0x36, 0x80, 0x07, 0xC9];
        assert_eq!(said(&longest, 0, &[1, 2, 2, 2, 2]), (13, 0));
        assert_eq!(said_from(&[0xC9, 0xC9], 7, &[2, 1], &[8]), (12, 7));
    }

    /// An inside byte may be covered from one, two or three bytes before it.
    #[test]
    fn covered() {
        let image = [0xDD, 0x36, 0x36, 0x05, 0xC9];
        assert_eq!(said(&image, 0, &[1, 2, 2, 2, 1]), (0, 0));
        assert_eq!(said_from(&image, 0, &[0, 0, 1, 2, 1], &[4]), (0, 0));
        let image = [0x3E, 0x21, 0x3E, 0x05, 0xC9];
        assert_eq!(said_from(&image, 0, &[0, 1, 2, 2, 1], &[4]), (0, 0));
        assert_eq!(said_from(&image, 0, &[0, 1, 1, 2, 1], &[4]), (11, 1));
        assert_eq!(said_from(&image, 0, &[0, 0, 2, 2, 1], &[4]), (12, 2));
    }

    #[test]
    fn bad_next() {
        assert_eq!(said(&[0x00, 0xC9], 0, &[1, 0]), (13, 0));
        assert_eq!(
            said(&[0xCD, 4, 0, 0xC9, 0xC9], 0, &[1, 2, 2, 1, 0]),
            (13, 0)
        );
        assert_eq!(
            said(&[0xCD, 4, 0, 0xC9, 0xC9], 0, &[1, 2, 2, 0, 1]),
            (13, 0)
        );
        assert_eq!(said(&[0xCD, 4, 0, 0xC9, 0xC9], 0, &[1, 2, 2, 1, 1]), (0, 0));
        assert_eq!(said(&[0xC3, 0xFF, 0x0F], 0x1000, &[1, 2, 2]), (13, 0x1000));
        assert_eq!(said(&[0xC3, 0x03, 0x10], 0x1000, &[1, 2, 2]), (13, 0x1000));
        assert_eq!(said(&[0xC3, 0x00, 0x10], 0x1000, &[1, 2, 2]), (0, 0));
        assert_eq!(said(&[0xC3, 0x01, 0x10], 0x1000, &[1, 2, 2]), (13, 0x1000));
    }

    /// DD C3 goes on to C3, which is a row of its own.
    #[test]
    fn leftovers_are_not_followed() {
        let image = [0xDD, 0xC3, 0x00, 0x10];
        assert_eq!(said(&image, 0x1000, &[1, 1, 2, 2]), (0, 0));
        assert_eq!(said(&image, 0x2000, &[1, 1, 2, 2]), (13, 0x2001));
        assert_eq!(said(&image, 0x1000, &[1, 0, 0, 0]), (13, 0x1000));
    }

    /// A full image of data but for these rows, and its marks.
    fn full(rows: &[(usize, &[u8])]) -> (Vec<u8>, Vec<u8>) {
        let (mut image, mut marks) = (vec![0; ADDRESSES], vec![0; ADDRESSES]);
        for (at, row) in rows {
            image[*at..at + row.len()].copy_from_slice(row);
            marks[*at..at + row.len()].fill(INSIDE);
            marks[*at] = START;
        }
        (image, marks)
    }

    #[test]
    fn places_wrap() {
        for (at, row) in [
            (0xFFFF, &[0x00][..]),
            (0xFFFE, &[0x3E, 0x05]),
            (0xFFFE, &[0x18, 0x00]),
            (0xFFF0, &[0x18, 0x0E]),
        ] {
            let (image, marks) = full(&[(0, &[0xC9]), (at, row)]);
            assert_eq!(said_from(&image, 0, &marks, &[at as u16]), (0, 0));
            let (image, marks) = full(&[(1, &[0xC9]), (at, row)]);
            let refused = (13, at as u16);
            assert_eq!(said_from(&image, 0, &marks, &[at as u16]), refused);
        }
        let (image, marks) = full(&[(0, &[0x18, 0xFD]), (0xFFFF, &[0xC9])]);
        assert_eq!(said(&image, 0, &marks), (0, 0));
        let (image, marks) = full(&[(0, &[0x18, 0xFC]), (0xFFFF, &[0xC9])]);
        assert_eq!(said(&image, 0, &marks), (13, 0));
    }

    /// The place after the last address is 0 also where the image begins later.
    #[test]
    fn places_outside_wrap() {
        assert_eq!(said(&[0x00], 0xFFFF, &[1]), (13, 0xFFFF));
        assert_eq!(said(&[0x18, 0x00], 0xFFFE, &[1, 2]), (13, 0xFFFE));
        assert_eq!(said(&[0x18, 0x80, 0xC9], 0, &[1, 2, 1]), (13, 0));
    }

    /// The window at the last address has one byte, whatever stands at the first one.
    #[test]
    fn windows_do_not_wrap() {
        let (mut image, marks) = full(&[(0xFFFF, &[0x18])]);
        image[0] = 0xFE;
        assert_eq!(said_from(&image, 0, &marks, &[0xFFFF]), (10, 0xFFFF));
        let (image, marks) = full(&[(0, &[0xE9]), (0xFFFF, &[0xDD])]);
        assert_eq!(said_from(&image, 0, &marks, &[0xFFFF]), (10, 0xFFFF));
        let (image, mut marks) = full(&[(0, &[0x23]), (0xFFFF, &[0xDD])]);
        marks[0] = INSIDE;
        assert_eq!(said_from(&image, 0, &marks, &[0xFFFF]), (12, 0));
    }

    /// All of 5 to 13 hold at first; each is mended in turn.
    #[test]
    fn in_that_order() {
        let image = [0x00, 0x00, 0x3E, 0x05, 0xC9, 0xDD];
        let mut map = Map {
            image: &image,
            origin: 0xFFFB,
            marks: &[1, 3, 1, 1, 2, 1, 1],
            entries: &[0xFF],
        };
        assert_eq!(number(map), (5, 0));
        map.origin = 0x1000;
        assert_eq!(number(map), (6, 0));
        map.marks = &[1, 3, 1, 1, 2, 1];
        assert_eq!(number(map), (7, 0));
        map.entries = &[0xFF, 0x0F];
        assert_eq!(number(map), (8, 0x1001));
        map.marks = &[1, 0, 1, 1, 2, 1];
        assert_eq!(number(map), (9, 0x0FFF));
        map.entries = &[0x05, 0x10];
        assert_eq!(number(map), (13, 0x1000));
        map.marks = &[0, 0, 1, 1, 2, 1];
        assert_eq!(number(map), (11, 0x1002));
        map.marks = &[0, 0, 0, 0, 2, 1];
        assert_eq!(number(map), (12, 0x1004));
        map.marks = &[0, 0, 0, 0, 1, 1];
        assert_eq!(number(map), (10, 0x1005));
        map.image = &[0x00, 0x00, 0x3E, 0x05, 0xC9, 0xC9];
        assert_eq!(number(map), (0, 0));
    }

    /// The address decides before the number, and the number where both hold at one start.
    #[test]
    fn lowest_address_then_lowest_number() {
        assert_eq!(said(&[0x00, 0xC9, 0xDD], 0, &[1, 2, 1]), (13, 0));
        assert_eq!(said(&[0xC9, 0x00, 0xDD], 0, &[1, 2, 1]), (12, 1));
        assert_eq!(said(&[0xC9, 0xDD, 0x00], 0, &[1, 1, 2]), (10, 1));
        assert_eq!(said(&[0xC3, 0x00, 0x40, 0xC9], 0, &[1, 2, 0, 1]), (11, 0));
    }
}
