//! The calls of `z80_text` that are compared with every choice, and with numbers that are none.

use crate::calls::{About, Calls, Inputs};
use crate::function::Function;
use crate::input_runs::{behind, long, random_rows, up_to_two};
use crate::pages::{edged, ED_BEHIND, PAGES};
use crate::plain::Mode;
use crate::rooms::rooms_around;
use crate::runs::Run;

/// All choices, and some numbers that are none.
const NUMBERS: [u8; 11] = [0, 1, 2, 3, 4, 5, 6, 7, 8, 9, 255];

/// Lengths of the inputs that are too long.
const LONG: [usize; 3] = [5, 8, 256];

/// Calls over these inputs, each in the rooms around what is to be written of its fixed bytes.
fn in_rooms_around(mode: Mode, inputs: impl Iterator<Item = Inputs> + 'static) -> Run {
    Box::new(inputs.map(move |inputs| Calls {
        mode: mode as u8,
        rooms: rooms_around(mode, inputs.function, &inputs.fixed),
        about: About::Inputs(inputs),
    }))
}

/// What is made for each of the numbers.
fn for_each_number(mode: Mode, of: impl Fn(Function) -> Vec<Inputs> + 'static) -> Run {
    let functions = NUMBERS.into_iter().map(Function::Text);
    in_rooms_around(mode, functions.flat_map(of))
}

/// Each of these rows with each of the numbers.
fn with_each_number(mode: Mode, rows: Vec<Vec<u8>>) -> Run {
    for_each_number(mode, move |function| behind(function, 0, rows.clone()))
}

/// Each of these rows with one of the numbers in turn.
fn with_numbers_in_turn(mode: Mode, rows: Vec<Vec<u8>>) -> Run {
    let numbered = rows.into_iter().zip(NUMBERS.into_iter().cycle());
    let inputs = numbered.map(|(fixed, number)| Inputs {
        function: Function::Text(number),
        free: 0,
        fixed,
    });
    in_rooms_around(mode, inputs)
}

/// Every code of every page with the edges around it, up to a length.
fn codes(length: usize) -> Vec<Vec<u8>> {
    let pages = PAGES.iter().chain(&ED_BEHIND);
    pages.flat_map(|prefix| edged(prefix, length)).collect()
}

pub fn choice_runs(mode: Mode) -> Vec<(&'static str, Run)> {
    vec![
        (
            "all of 0 to 2 bytes, no room and enough",
            for_each_number(mode, up_to_two),
        ),
        (
            "edges on every page, 2 to 4 bytes, rooms around the text",
            with_each_number(mode, codes(2)),
        ),
        (
            "edges on every page, 4 bytes, rooms around the text",
            with_each_number(mode, codes(4)),
        ),
        (
            "random 4 bytes, choices in turn, rooms around the text",
            with_numbers_in_turn(mode, random_rows()),
        ),
        (
            "5 to 256 bytes, no room and enough",
            with_each_number(mode, long(&LONG)),
        ),
    ]
}
