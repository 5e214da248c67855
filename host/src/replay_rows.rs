//! The stored requests of the program `replay`, and the original's answers to them.

use crate::answer::{RECORD_SIZE, TEXT_MAX};
use crate::arguments::RUST;
use crate::asked::Asked;
use crate::function::{Function, FULL_TEXT, PLAIN_TEXT};
use crate::inputs;
use crate::outcome::{expected, Call, Lent, Outcome, LOOKED_AT};
use crate::plain::missing::missing;
use crate::plain::record::EMPTY;
use crate::plain::said::{said, said_of_bytes};
use crate::plain::Mode;
use crate::rooms::rooms_around;
use crate::stored::{distinct, padded, Row};
use std::fmt::Write;
use Function::Text;

/// So much of the buffer is printed with a text.
const PRINTED: usize = 56;

/// The texts of the other choices, and of a number that is none.
const OTHERS: [Function; 7] = [
    Text(0),
    Text(1),
    Text(2),
    Text(3),
    Text(4),
    Text(5),
    Text(8),
];

/// Of every so many inputs one has another text stored.
const STEP: usize = 4;

/// All rows, none twice.
pub fn rows() -> Vec<Row> {
    distinct([records(), texts(), other_texts()].concat())
}

fn records() -> Vec<Row> {
    let inputs = inputs::of_records();
    inputs.iter().map(|ins| record_row(ins)).collect()
}

/// Both of the original's own texts of each input in a room that holds every text; then, of some, in every room up to two over
/// their own length.
fn texts() -> Vec<Row> {
    let mut rows = vec![];
    for ins in inputs::of_texts() {
        for function in [PLAIN_TEXT, FULL_TEXT] {
            rows.push(text_row(function, &ins, TEXT_MAX));
        }
    }
    for ins in inputs::in_every_room() {
        for function in [PLAIN_TEXT, FULL_TEXT] {
            let own = said_of_bytes(Mode::Rust, function, ins).map_or(0, |text| text.len());
            rows.extend((0..=own + 2).map(|room| text_row(function, ins, room)));
        }
    }
    rows
}

/// Of some inputs one of the other texts in turn, in a room that holds every text; then, of some, all of them in the rooms around
/// their own length.
fn other_texts() -> Vec<Row> {
    let mut rows = vec![];
    let some = inputs::of_texts().into_iter().step_by(STEP);
    for (ins, function) in some.zip(OTHERS.into_iter().cycle()) {
        rows.push(text_row(function, &ins, TEXT_MAX));
    }
    for ins in inputs::in_every_room().chain([&[][..]]) {
        for function in OTHERS {
            let rooms = rooms_around(Mode::Rust, function, ins).into_iter();
            rows.extend(rooms.map(|room| text_row(function, ins, room.into())));
        }
    }
    rows
}

/// The line of a record: bytes, number, missing bytes, the record's bytes, which are the empty one's where the number is not 0.
fn record_row(ins: &[u8]) -> Row {
    let (number, record) = match said_of_bytes(Mode::Rust, Function::Record, ins) {
        Ok(record) => (0, record),
        Err(refusal) => (refusal as u8, EMPTY.to_vec()),
    };
    let mut line = format!("{}{number} {}", shown(ins), missing(Mode::Rust, ins));
    for byte in record {
        write!(line, " {byte:02X}").unwrap();
    }
    line.push('\n');
    Row {
        request: request(Function::Record, RECORD_SIZE, ins),
        line: line.into_bytes(),
    }
}

/// The line of a text: bytes, number, missing bytes, the text's length, and a buffer that was full of dots.
fn text_row(function: Function, ins: &[u8], room: usize) -> Row {
    let asked = Asked::Bytes(function, ins.to_vec());
    let call = Call {
        mode: RUST,
        asked: &asked,
        room,
        before: Lent {
            count: 0,
            passed: 0,
            address: 0,
            missing: 0,
            buffer: [b'.'; LOOKED_AT],
        },
    };
    let Outcome { number, lent, .. } = expected(&call, &said(RUST, &asked));
    let numbers = format!("{}{number} {} {} ", shown(ins), lent.missing, lent.count);
    Row {
        request: request(function, room, ins),
        line: [numbers.as_bytes(), &lent.buffer[..PRINTED], b"\n"].concat(),
    }
}

/// The function's number, the room, the input's count and bytes.
fn request(function: Function, room: usize, ins: &[u8]) -> Vec<u8> {
    let head = [function.number() as u8, room as u8, ins.len() as u8];
    [&head[..], &padded(ins)].concat()
}

/// What each line begins with.
fn shown(ins: &[u8]) -> String {
    let pairs: String = ins.iter().map(|byte| format!("{byte:02X} ")).collect();
    pairs + "= "
}
