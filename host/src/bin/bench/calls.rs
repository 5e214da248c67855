//! The calls of the functions of a row's bytes.

use crate::inputs::{Input, Inputs};
use crate::rounds::{take, times, Side, Times};
use crate::table::Table;
use host::answer::RECORD_SIZE;
use host::answer::TEXT_MAX;
use host::arguments::{CHIP, FULL, PLAIN, RUST};
use host::exported::{z80_record, z80_text};
use host::function::{Function, FULL_TEXT, PLAIN_TEXT};
use host::original::disas;
use host::plain::record::record;
use host::plain::said::said_of_bytes;
use host::plain::{Mode, MODES};
use std::hint::black_box;

/// A function, its work through the archive in a mode, and the same work by the original.
struct Pair {
    work: &'static str,
    function: Function,
    ours: fn(u8, &Input),
    theirs: fn(&Input),
}

const PAIRS: [Pair; 4] = [
    Pair {
        work: "decode",
        function: Function::Record,
        ours: |mode, ins| take(our_record(mode, ins)),
        theirs: |ins| take(disas(ins)),
    },
    Pair {
        work: "decode, laid out",
        function: Function::Record,
        ours: |mode, ins| take(our_record(mode, ins)),
        theirs: |ins| take(record(disas(ins).unwrap())),
    },
    Pair {
        work: "plain text",
        function: PLAIN_TEXT,
        ours: |mode, ins| take(our_text(mode, PLAIN, ins)),
        theirs: |ins| take(format!("{}", disas(ins).unwrap())),
    },
    Pair {
        work: "full text",
        function: FULL_TEXT,
        ours: |mode, ins| take(our_text(mode, FULL, ins)),
        theirs: |ins| take(format!("{:?}", disas(ins).unwrap())),
    },
];

fn our_record(mode: u8, ins: &Input) -> [u8; RECORD_SIZE] {
    let (mut out, mut missing) = ([0; RECORD_SIZE], 0);
    z80_record(mode, ins, &mut out, &mut missing);
    out
}

fn our_text(mode: u8, choice: u8, ins: &Input) -> ([u8; TEXT_MAX], u32) {
    let (mut out, mut count, mut missing) = ([0; TEXT_MAX], 0, 0);
    z80_text(mode, choice, ins, &mut out, &mut count, &mut missing);
    (out, count)
}

fn written(mode: u8, function: Function, ins: &Input) -> Vec<u8> {
    let (out, count) = match function {
        Function::Record => return our_record(mode, ins).to_vec(),
        Function::Text(choice) => our_text(mode, choice, ins),
    };
    out[..count as usize].to_vec()
}

/// Does some work on all rows.
fn on_all(rows: &[Input], work: impl Fn(&Input)) {
    for ins in rows {
        work(black_box(ins));
    }
}

pub fn time(inputs: &Inputs, table: &mut Table) {
    let rows = &inputs.rows;
    println!(
        "bench: {}, {} inputs of four bytes",
        inputs.name,
        rows.len()
    );
    for pair in &PAIRS {
        for mode in MODES {
            hold(mode, pair.function, rows);
        }
        table.add(inputs.name, pair.work, &timed(pair, rows));
    }
}

/// What the archive writes in a mode is what it should on every row.
fn hold(mode: Mode, function: Function, rows: &[Input]) {
    for ins in rows {
        let said = said_of_bytes(mode, function, ins);
        assert_eq!(Ok(written(mode as u8, function, ins)), said, "{ins:02X?}");
    }
}

fn timed(pair: &Pair, rows: &[Input]) -> Times {
    let ours = |mode| move || on_all(rows, |ins| (pair.ours)(mode, ins));
    let (rust, chip) = (ours(RUST), ours(CHIP));
    let theirs = || on_all(rows, pair.theirs);
    let works: [&dyn Fn(); 3] = [&rust, &chip, &theirs];
    times(works.map(|work| Side {
        calls: rows.len(),
        work,
    }))
}
