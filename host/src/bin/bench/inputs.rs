//! What is worked on: of each kind of bytes some inputs of four bytes, and an image.

use host::images::{all_pages, length, mixed_code};
use host::mixed::Mixed;
use host::pages::{row, ED_BEHIND, PAGES};
use host::plain::LARGEST_INPUT;

/// The largest image that the listing program takes.
const IMAGE: usize = 32_768;

const RANDOM_INPUTS: usize = 65_536;

/// Four bytes, which are never refused.
pub type Input = [u8; LARGEST_INPUT];

pub struct Inputs {
    pub name: &'static str,
    pub rows: Vec<Input>,
    pub image: Vec<u8>,
}

pub fn all() -> [Inputs; 3] {
    let image = mixed_image();
    let mixed = Inputs {
        name: "mixed code",
        rows: rows_of(&image),
        image,
    };
    let pages = Inputs {
        name: "all pages",
        rows: codes(),
        image: all_pages(IMAGE, &mut Mixed::new(0x5A80_3277)),
    };
    let random = Inputs {
        name: "random bytes",
        rows: random(),
        image: Mixed::new(0x5A80_3276).bytes(IMAGE),
    };
    [mixed, pages, random]
}

/// The image of mixed code.
pub fn mixed_image() -> Vec<u8> {
    mixed_code(IMAGE, &mut Mixed::new(0x5A80_3276))
}

/// The four bytes at each row of an image, but for its last ones, where fewer are left.
fn rows_of(image: &[u8]) -> Vec<Input> {
    let (mut rows, mut at) = (vec![], 0);
    while let Some(input) = image[at..].first_chunk() {
        rows.push(*input);
        at += length(input);
    }
    rows
}

/// Every code of every page, mixed bytes around it.
fn codes() -> Vec<Input> {
    let mut mixed = Mixed::new(0x5A80_2304);
    let mut inputs = vec![];
    for prefix in PAGES.iter().chain(&ED_BEHIND) {
        for code in 0..=0xFF {
            let mut input = row(prefix, code, mixed.byte());
            input.resize_with(LARGEST_INPUT, || mixed.byte());
            inputs.push(input.try_into().unwrap());
        }
    }
    inputs
}

fn random() -> Vec<Input> {
    let mut mixed = Mixed::new(0x5A80_6553);
    let mut input = || std::array::from_fn(|_| mixed.byte());
    (0..RANDOM_INPUTS).map(|_| input()).collect()
}
