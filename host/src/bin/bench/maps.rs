//! The check of a whole map that passes. The other side is the plain reading, over the original's decoder.

use crate::inputs::mixed_image;
use crate::rounds::{take, times, Side};
use crate::table::Table;
use host::arguments::{Map, CHIP, RUST, START};
use host::exported::z80_map_check;
use host::maps::full::full_map;
use host::maps::grown::overgrown;
use host::maps::Drawn;
use host::plain::marking::judged;
use host::plain::Mode;
use std::hint::black_box;

/// Number and address.
fn ours(mode: u8, map: &Map) -> (u8, u32) {
    let mut address = 0;
    let number = z80_map_check(mode, map, &mut address);
    (number, address)
}

/// How many starts a map has that passes in a mode.
fn starts(mode: Mode, map: &Map) -> usize {
    assert_eq!(judged(mode, map), Ok(()), "{mode:?}");
    assert_eq!(ours(mode as u8, map), (0, 0), "{mode:?}");
    map.marks.iter().filter(|mark| **mark == START).count()
}

/// Times the check of a map in each mode, drawn in it.
fn time(name: &str, drawn: fn(Mode) -> Drawn, table: &mut Table) {
    let (in_rust, in_chip) = (drawn(Mode::Rust), drawn(Mode::Chip));
    let (map, chip_map) = (in_rust.map(), in_chip.map());
    let (rust, chip) = (starts(Mode::Rust, &map), starts(Mode::Chip, &chip_map));
    let side = |calls, work| Side { calls, work };
    let times = times([
        side(rust, &|| take(ours(RUST, black_box(&map)))),
        side(chip, &|| take(ours(CHIP, black_box(&chip_map)))),
        side(rust, &|| take(judged(Mode::Rust, black_box(&map)))),
    ]);
    let (bytes, whole) = (map.image.len(), times.whole(rust, chip));
    println!("bench: {name}, {bytes} bytes, {rust} starts, {chip} in chip mode: {whole}");
    table.add(name, "map check, a start", &times);
}

/// A map of all addresses, and one of the mixed code, which has its first address for an entry.
pub fn time_all(table: &mut Table) {
    time("64 KiB map", |mode| full_map(mode, 0x5A80_6536), table);
    let mixed = |mode| overgrown(mode, mixed_image(), 0, &[0]);
    time("32 KiB map", mixed, table);
}
