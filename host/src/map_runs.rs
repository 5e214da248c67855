//! The calls of `z80_map_check` that are compared.

use crate::calls::Calls;
use crate::maps::codes::{cut_codes, lone_codes};
use crate::maps::entries::entry_maps;
use crate::maps::full::{full_maps, rows_at_ends, sizes};
use crate::maps::small::{broken_maps, damaged_maps, every_marking, grown_maps, random_maps};
use crate::maps::{pairs, Drawn};
use crate::plain::Mode;
use crate::runs::Run;

/// Document 01's maps: image and marks. The origin is 0, and so is the entry.
const DOCUMENT_MAPS: [(&[u8], &[u8]); 7] = [
    (&[0x18, 0xFE], &[1, 2]),
    (&[0x18, 0xFF], &[1, 2]),
    (&[0xC9], &[1]),
    (&[0x00], &[1]),
    (&[0xC9, 0x00], &[1, 2]),
    (&[0x3E, 0x05, 0xC9], &[1, 1, 1]),
    (&[0xDD, 0x23, 0xC9], &[1, 2, 1]),
];

fn document_maps() -> impl Iterator<Item = Drawn> {
    DOCUMENT_MAPS.into_iter().map(|(image, marks)| Drawn {
        image: image.to_vec(),
        origin: 0,
        marks: marks.to_vec(),
        entries: pairs(&[0]),
    })
}

fn run(mode: Mode, maps: impl Iterator<Item = Drawn> + 'static) -> Run {
    Box::new(maps.map(move |drawn| Calls::of_map(mode as u8, drawn)))
}

pub fn map_runs(mode: Mode) -> Vec<(&'static str, Run)> {
    vec![
        ("document 01's maps", run(mode, document_maps())),
        ("every marking of 1 to 6 bytes", run(mode, every_marking())),
        ("every code of each page alone", run(mode, lone_codes(mode))),
        (
            "every code of each page cut off",
            run(mode, cut_codes(mode)),
        ),
        ("random marks", run(mode, random_maps())),
        ("grown maps", run(mode, grown_maps(mode))),
        (
            "grown maps, one thing damaged",
            run(mode, damaged_maps(mode)),
        ),
        ("two rules broken", run(mode, broken_maps(mode))),
        ("0 to 65,537 entries", run(mode, entry_maps())),
        (
            "rows at both ends of all addresses",
            run(mode, rows_at_ends(mode)),
        ),
        ("full maps, one thing damaged", run(mode, full_maps(mode))),
        ("images of 0 to 65,537 bytes", run(mode, sizes())),
    ]
}
