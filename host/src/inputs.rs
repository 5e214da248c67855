//! The inputs whose answers are stored.

use crate::mixed::Mixed;
use crate::pages::{row, EDGES, ED_BEHIND, PAGES};

/// First bytes of the inputs that are too long: no prefix, and each prefix.
const LONG: [u8; 5] = [0x00, 0xCB, 0xED, 0xDD, 0xFD];

/// The starred rows of document 01 that speak of the table.
const STARRED: [&[u8]; 16] = [
    &[0x00],
    &[0x18, 0x80],
    &[0x18, 0x7F],
    &[0x10, 0xFE],
    &[0xCB, 0x46],
    &[0xED, 0x70],
    &[0xDD, 0x36, 0x80, 0x07],
    &[0xDD, 0x66, 0x05, 0x00],
    &[0xDD, 0x23, 0x00, 0x00],
    &[0xDD, 0x23, 0x00],
    &[0xDD, 0x01, 0x34, 0x12],
    &[0xED, 0x00, 0x00, 0x00],
    &[0xED, 0x00, 0x00],
    &[0xFD, 0xCB, 0x7F, 0xC6],
    &[0xDD, 0xED, 0x62, 0x00],
    &[0x00, 0x00, 0x00, 0x00, 0x00],
];

/// The windows of its maps.
const WINDOWS: [&[u8]; 5] = [
    &[0x18, 0xFE],
    &[0x18, 0xFF],
    &[0xC9, 0x00],
    &[0x3E, 0x05, 0xC9],
    &[0xDD, 0x23, 0xC9],
];

/// H renamed beside (IX+d), a displacement's sign, a NOP's leftovers, Short from the record's length.
const MISREADINGS: [&[u8]; 12] = [
    &[0xFD, 0x66, 0x05, 0x00],
    &[0xDD, 0x74, 0x05, 0x00],
    &[0xDD, 0x6E, 0x80, 0x00],
    &[0xFD, 0x7E, 0x80, 0x00],
    &[0xDD, 0xCB, 0x80, 0x46],
    &[0xDD, 0xC3, 0x34, 0x12],
    &[0xFD, 0xC3, 0x34, 0x12],
    &[0xDD, 0x18, 0xFE, 0x00],
    &[0xDD, 0xC9, 0x00, 0x00],
    &[0xDD, 0x23],
    &[0xDD, 0x66, 0x05],
    &[0xFD, 0x23, 0x00],
];

/// The operand forms of document 01's text that no starred row has, and the longest text.
const FORMS: [&[u8]; 8] = [
    &[0x3E, 0x05],
    &[0x21, 0x34, 0x12],
    &[0x3A, 0x34, 0x12],
    &[0xDB, 0x05],
    &[0x08],
    &[0xDD, 0x24, 0x00, 0x00],
    &[0xC2, 0x34, 0x12],
    &[0xDD, 0xCB, 0x80, 0xC7],
];

/// What stands before a signed byte: relative jumps, and displacements with and without CB.
const BEFORE_SIGNED: [&[u8]; 7] = [
    &[0x10],
    &[0x18],
    &[0x38],
    &[0xDD, 0x34],
    &[0xFD, 0x7E],
    &[0xDD, 0xCB],
    &[0xFD, 0xCB],
];

/// Inputs in order, and the source of their mixed bytes.
struct Inputs {
    rows: Vec<Vec<u8>>,
    mixed: Mixed,
}

/// The inputs of the stored records.
pub fn of_records() -> Vec<Vec<u8>> {
    let mut inputs = Inputs::chosen();
    inputs.add_lengths();
    for prefix in PAGES {
        inputs.add_page_edged(prefix);
    }
    for prefix in ED_BEHIND {
        inputs.add_page_mixed(prefix);
    }
    inputs.rows
}

/// The inputs of the stored texts.
pub fn of_texts() -> Vec<Vec<u8>> {
    let mut inputs = Inputs::chosen();
    inputs.rows.extend(FORMS.map(<[u8]>::to_vec));
    inputs.add_lengths();
    for prefix in PAGES.iter().chain(&ED_BEHIND) {
        inputs.add_page_mixed(prefix);
    }
    for before in BEFORE_SIGNED {
        for edge in EDGES {
            inputs.add_filled(&[before, &[edge]].concat(), 4);
        }
    }
    inputs.rows
}

/// The inputs whose texts are stored for every room around their own length.
pub fn in_every_room() -> impl Iterator<Item = &'static [u8]> {
    STARRED.into_iter().chain(FORMS)
}

impl Inputs {
    fn chosen() -> Inputs {
        let rows = STARRED.iter().chain(&WINDOWS).chain(&MISREADINGS);
        Inputs {
            rows: rows.map(|ins| ins.to_vec()).collect(),
            mixed: Mixed::new(0x5A80_0080),
        }
    }

    /// Adds an input of the given length: what is fixed of it, then mixed bytes.
    fn add_filled(&mut self, fixed: &[u8], length: usize) {
        let more = self.mixed.bytes(length - fixed.len());
        self.rows.push([fixed, &more].concat());
    }

    /// Every length but four, which the pages have.
    fn add_lengths(&mut self) {
        self.rows.push(vec![]);
        for first in 0..=0xFF {
            for length in [1, 2, 3] {
                self.add_filled(&[first], length);
            }
        }
        for first in LONG {
            self.add_filled(&[first], 5);
        }
        for second in 0..=0xFF {
            self.rows.push(vec![0xED, second]);
            if is_ed_word_row(second) {
                self.add_filled(&[0xED, second], 3);
            }
        }
    }

    /// Every code of a page in four bytes, with each edge beside it.
    fn add_page_edged(&mut self, prefix: &[u8]) {
        for code in 0..=0xFF {
            for beside in EDGES {
                self.add_filled(&row(prefix, code, beside), 4);
            }
        }
    }

    /// Every code of a page in four bytes, once.
    fn add_page_mixed(&mut self, prefix: &[u8]) {
        for code in 0..=0xFF {
            let beside = self.mixed.byte();
            self.add_filled(&row(prefix, code, beside), 4);
        }
    }
}

/// ED 43 4B 53 5B 63 6B 73 7B: a register pair with (nn).
fn is_ed_word_row(second: u8) -> bool {
    matches!(second & 0xCF, 0x43 | 0x4B)
}
