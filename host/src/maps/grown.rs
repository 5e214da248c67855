//! Maps grown by following an image's code in a mode from entries.

use crate::arguments::{DATA, INSIDE, START};
use crate::maps::{pairs, Drawn};
use crate::original::OpCode;
use crate::plain::flow::next_places;
use crate::plain::listing::window;
use crate::plain::{decoded, Mode};

/// What a row becomes that does not fit the map around it: RET, which has one byte and no next place.
pub const RET: u8 = 0xC9;

/// The map as far as it has grown, and the starts that are still to be followed.
struct Growth {
    mode: Mode,
    drawn: Drawn,
    open: Vec<u16>,
}

/// The marks that the code itself asks for, whether they keep the rules or not.
pub fn followed(mode: Mode, image: Vec<u8>, origin: u16, entries: &[u16]) -> Drawn {
    let mut growth = Growth::begun(mode, image, origin, entries);
    while let Some(start) = growth.open.pop() {
        growth.follow(start);
    }
    growth.drawn
}

/// The same with RET in place of each row that does not fit, so that the map passes where all entries are in the image.
pub fn grown(mode: Mode, image: Vec<u8>, origin: u16, entries: &[u16]) -> Drawn {
    let mut growth = Growth::begun(mode, image, origin, entries);
    growth.grow();
    growth.drawn
}

/// Grown from the entries, and then from each byte that is still data, so that in the end there is none.
pub fn overgrown(mode: Mode, image: Vec<u8>, origin: u16, entries: &[u16]) -> Drawn {
    let mut growth = Growth::begun(mode, image, origin, entries);
    growth.grow();
    for at in 0..growth.drawn.image.len() {
        growth.reach(origin + at as u16);
        growth.grow();
    }
    growth.drawn
}

impl Growth {
    fn begun(mode: Mode, image: Vec<u8>, origin: u16, entries: &[u16]) -> Growth {
        let marks = vec![DATA; image.len()];
        let entry_pairs = pairs(entries);
        let drawn = Drawn {
            image,
            origin,
            marks,
            entries: entry_pairs,
        };
        let open = vec![];
        let mut growth = Growth { mode, drawn, open };
        for &entry in entries {
            growth.reach(entry);
        }
        growth
    }

    /// Follows what is open, with RET in place of what does not fit.
    fn grow(&mut self) {
        while let Some(start) = self.open.pop() {
            if !self.fits(start) {
                let at = self.at(start);
                self.drawn.image[at] = RET;
            }
            self.follow(start);
        }
    }

    /// A place in the image that is not yet marked becomes a start.
    fn reach(&mut self, place: u16) {
        if self.take(place, START) {
            self.open.push(place);
        }
    }

    /// Marks the later bytes of a start's record, and reaches its next places.
    fn follow(&mut self, start: u16) {
        let Some(record) = self.record(start) else {
            return;
        };
        for n in 1..record.length as u16 {
            self.take(start + n, INSIDE);
        }
        for place in next_places(start, &record) {
            self.reach(place);
        }
    }

    /// Whether the later bytes of a start's record are free, and its next places are starts or could be.
    fn fits(&self, start: u16) -> bool {
        let Some(record) = self.record(start) else {
            return false;
        };
        let own = 1..record.length as u16;
        let free = own.clone().all(|n| self.mark(start + n) == Some(DATA));
        let mut next = next_places(start, &record);
        let open = next.all(|place| {
            let is_own = own.contains(&place.wrapping_sub(start));
            matches!(self.mark(place), Some(DATA | START)) && !is_own
        });
        free && open
    }

    /// Marks a byte of the image that is not yet marked, and says whether it did.
    fn take(&mut self, address: u16, mark: u8) -> bool {
        let free = self.mark(address) == Some(DATA);
        if free {
            let at = self.at(address);
            self.drawn.marks[at] = mark;
        }
        free
    }

    /// The mark at an address; none outside the image.
    fn mark(&self, address: u16) -> Option<u8> {
        let at = address.checked_sub(self.drawn.origin)?;
        self.drawn.marks.get(at as usize).copied()
    }

    fn record(&self, start: u16) -> Option<OpCode> {
        decoded(self.mode, window(&self.drawn.image, self.at(start))).ok()
    }

    /// Where an address stands in the image.
    fn at(&self, address: u16) -> usize {
        (address - self.drawn.origin) as usize
    }
}

#[cfg(test)]
mod tests {
    use super::*;
    use crate::maps::flowing::{code_bytes, flowing_code, KINDS};
    use crate::mixed::Mixed;
    use crate::plain::marking::judged;
    use crate::plain::MODES;

    #[test]
    fn by_hand() {
        let image = vec![0xCD, 0x05, 0x10, 0xC9, 0xFF, 0x3E, 0x05, 0xC9];
        let drawn = grown(Mode::Rust, image.clone(), 0x1000, &[0x1000]);
        assert_eq!(drawn.marks, [1, 2, 2, 1, 0, 1, 2, 1]);
        assert_eq!((drawn.image, drawn.entries), (image, vec![0x00, 0x10]));
    }

    /// A jump into the row before it, one out of the image, and a row that is cut off.
    #[test]
    fn rows_that_do_not_fit() {
        let image = vec![0x3E, 0x05, 0xC3, 0x01, 0x10];
        let drawn = followed(Mode::Rust, image, 0x1000, &[0x1000]);
        assert_eq!(drawn.marks, [1, 2, 1, 2, 2]);
        for image in [[0x3E, 0x05, 0x18, 0xFD], [0x3E, 0x05, 0xC7, 0xC7]] {
            let drawn = grown(Mode::Rust, image.to_vec(), 0x1000, &[0x1000]);
            assert_eq!(drawn.image[..3], [0x3E, 0x05, RET]);
            assert_eq!(drawn.marks, [1, 2, 1, 0]);
        }
        let drawn = grown(Mode::Rust, vec![0x00, 0xDD, 0x23], 0x1000, &[0x1000]);
        assert_eq!(drawn.image, [0x00, RET, 0x23]);
        assert_eq!(drawn.marks, [1, 1, 0]);
        let drawn = grown(Mode::Chip, vec![0xDD, 0x23, 0x00], 0x1000, &[0x1000]);
        assert_eq!(drawn.image, [0xDD, 0x23, RET]);
        assert_eq!(drawn.marks, [1, 2, 1]);
    }

    #[test]
    fn grown_maps_pass() {
        MODES.into_iter().for_each(grown_maps_pass_in);
    }

    /// Grown maps pass in their mode, and have starts of each kind.
    fn grown_maps_pass_in(mode: Mode) {
        let mut mixed = Mixed::new(0x5A80_0015);
        let mut met = [0; KINDS.len()];
        for k in 0..2000 {
            let count = 1 + k % 200;
            let image = match k % 2 {
                0 => mixed.bytes(count),
                _ => flowing_code(count, 0, &mut mixed),
            };
            let entries = [mixed.below(count) as u16];
            let full = overgrown(mode, image.clone(), 0, &entries);
            assert!(judged(mode, &full.map()).is_ok() && !full.marks.contains(&DATA));
            let drawn = grown(mode, image, 0, &entries);
            assert_eq!(judged(mode, &drawn.map()), Ok(()), "{drawn:02X?}");
            for (kind, codes) in KINDS.iter().enumerate() {
                met[kind] += starts_with(&drawn, codes);
            }
        }
        assert!(met.iter().all(|count| *count > 100), "{met:?}");
    }

    /// How many starts have one of these codes.
    fn starts_with(drawn: &Drawn, codes: &[u16]) -> usize {
        let starts = (0..drawn.image.len()).filter(|at| drawn.marks[*at] == START);
        let has_code = |at: &usize| {
            let mut codes = codes.iter().map(|code| code_bytes(*code));
            codes.any(|code| drawn.image[*at..].starts_with(&code))
        };
        starts.filter(has_code).count()
    }
}
