//! The listing of a whole image, row by row.

use crate::inputs::Inputs;
use crate::rounds::{take, times, Side};
use crate::table::Table;
use host::answer::LINE_MAX;
use host::arguments::{Place, CHIP, RUST};
use host::exported::z80_row;
use host::original::disas;
use host::plain::listing::{listing, window};
use host::plain::missing::missing;
use host::plain::{Mode, LARGEST_INPUT};
use std::hint::black_box;

/// The image's lines from 0 on, each by way of one lent buffer.
fn ours(mode: u8, image: &[u8]) -> Vec<u8> {
    let mut lines = vec![];
    let (mut line, mut count, mut passed) = ([0; LINE_MAX], 0, 0);
    let mut at = 0;
    while at < image.len() {
        let place = Place {
            image,
            origin: 0,
            address: at as u16,
        };
        let number = z80_row(mode, &place, &mut line, &mut count, &mut passed);
        assert_eq!(number, 0);
        lines.extend_from_slice(&line[..count as usize]);
        at += passed as usize;
    }
    lines
}

/// How many bytes a Short row lacks, by how many the image has there: worked out before the clock runs, since the original has no
/// such number.
type Missing = [usize; LARGEST_INPUT];

fn missing_at_end(image: &[u8]) -> Missing {
    std::array::from_fn(|count| missing(Mode::Rust, &image[image.len() - count..]))
}

/// The same by the original's decoder and format.
fn theirs(image: &[u8], missing: &Missing) -> Vec<u8> {
    let mut lines = vec![];
    let mut at = 0;
    while at < image.len() {
        let window = window(image, at);
        let (line, passed) = match disas(window) {
            Some(opcode) => (format!("{at:04X} {opcode:?}\n"), opcode.length as usize),
            None => {
                let (byte, missing) = (window[0], missing[window.len()]);
                (format!("{at:04X} {byte:02X} \t\t?{missing}\n"), 1)
            }
        };
        lines.extend_from_slice(line.as_bytes());
        at += passed;
    }
    lines
}

/// The lines of the chip's mode by the plain reading.
fn in_chip_mode(image: &[u8]) -> Vec<u8> {
    let rows = listing(Mode::Chip, image, 0).expect("an image that fits");
    rows.into_iter().flat_map(|row| row.line).collect()
}

fn rows(lines: &[u8]) -> usize {
    lines.iter().filter(|byte| **byte == b'\n').count()
}

pub fn time(inputs: &Inputs, table: &mut Table) {
    let Inputs { name, image, .. } = inputs;
    let (lines, chip_lines) = (ours(RUST, image), ours(CHIP, image));
    let missing = missing_at_end(image);
    let right = lines == theirs(image, &missing) && chip_lines == in_chip_mode(image);
    assert!(right, "{name}: the listings differ");
    let (rust, chip) = (rows(&lines), rows(&chip_lines));
    let side = |calls, work| Side { calls, work };
    let times = times([
        side(rust, &|| take(ours(RUST, black_box(image)))),
        side(chip, &|| take(ours(CHIP, black_box(image)))),
        side(rust, &|| take(theirs(black_box(image), &missing))),
    ]);
    let (bytes, whole) = (image.len(), times.whole(rust, chip));
    println!("bench: {name}, an image of {bytes} bytes, {rust} rows, {chip} in chip mode: {whole}");
    table.add(name, "listing, a row", &times);
}
