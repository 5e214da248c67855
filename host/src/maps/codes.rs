//! Maps of every code of each page: alone in an image, and cut off by the image's end.

use crate::images::whole;
use crate::maps::grown::{followed, RET};
use crate::maps::lone::lone;
use crate::maps::small::origin;
use crate::maps::Drawn;
use crate::mixed::Mixed;
use crate::pages::{row, ED_BEHIND, PAGES};
use crate::plain::Mode;

/// A row alone stands here in an image of this size, so that all relative targets are in it.
const LONE_AT: u16 = 0x88;
const LONE_SIZE: usize = 0x120;

fn codes() -> impl Iterator<Item = (&'static [u8], u8)> {
    let pages = PAGES.into_iter().chain(ED_BEHIND);
    pages.flat_map(|prefix| (0..=0xFF).map(move |code| (prefix, code)))
}

/// Each code alone, at origin 0, where an RST leads into the image, and at another.
pub fn lone_codes(mode: Mode) -> impl Iterator<Item = Drawn> {
    let mut mixed = Mixed::new(0x5A80_0288);
    codes().flat_map(move |(prefix, code)| {
        let origins = [0, origin(LONE_SIZE, &mut mixed)];
        let maps = origins.map(|origin| lone_code(mode, prefix, code, origin, &mut mixed));
        maps.concat()
    })
}

/// A code with an address of the image behind it.
fn lone_code(mode: Mode, prefix: &[u8], code: u8, origin: u16, mixed: &mut Mixed) -> Vec<Drawn> {
    let target = origin + mixed.below(LONE_SIZE) as u16;
    let [low, high] = target.to_le_bytes();
    let row = [row(prefix, code, low), vec![high]].concat();
    lone(mode, LONE_SIZE, origin, origin + LONE_AT, &row)
}

/// Each code behind a RET at the end of an image, with one to all of its bytes.
pub fn cut_codes(mode: Mode) -> impl Iterator<Item = Drawn> {
    let mut mixed = Mixed::new(0x5A80_0017);
    codes().flat_map(move |(prefix, code)| {
        let row = whole(prefix, code, &mut mixed);
        let origin = origin(1 + row.len(), &mut mixed);
        let cuts = 1..=row.len();
        cuts.map(move |count| {
            let image = [&[RET], &row[..count]].concat();
            followed(mode, image, origin, &[origin, origin + 1])
        })
    })
}
