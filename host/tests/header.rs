//! The constants of the C header held to those of Rust.

use host::answer::{name, LINE_MAX, RECORD_SIZE, TEXT_MAX};
use host::arguments::{BYTES, CHIP, DATA, FULL, INSIDE, INSTRUCTION, PLAIN, RUST, START, TIMES};
use std::collections::BTreeMap;
use std::fs;

/// Each constant of the header: its name behind Z80_, and its number.
fn constants() -> BTreeMap<String, usize> {
    let header = fs::read_to_string(concat!(env!("CARGO_MANIFEST_DIR"), "/z80.h")).unwrap();
    let pairs = header.split(['{', '}', ',', '\n']).filter_map(|part| {
        let (name, number) = part.trim().strip_prefix("Z80_")?.split_once(" = ")?;
        let number = number.split_whitespace().next()?;
        Some((name.to_owned(), number.parse().unwrap()))
    });
    pairs.collect()
}

/// EntryCount as ENTRY_COUNT.
fn spelled(name: &str) -> String {
    let mut spelled = String::new();
    for letter in name.chars() {
        if letter.is_uppercase() && !spelled.is_empty() {
            spelled.push('_');
        }
        spelled.push(letter.to_ascii_uppercase());
    }
    spelled
}

#[test]
fn constants_are_those_of_rust() {
    let answers = (0..=255).filter_map(|number| Some((spelled(&name(number)?), number)));
    let others = [
        ("RECORD_SIZE", RECORD_SIZE),
        ("TEXT_MAX", TEXT_MAX),
        ("LINE_MAX", LINE_MAX),
        ("RUST", RUST.into()),
        ("CHIP", CHIP.into()),
        ("BYTES", BYTES.into()),
        ("INSTRUCTION", INSTRUCTION.into()),
        ("TIMES", TIMES.into()),
        ("PLAIN", PLAIN.into()),
        ("FULL", FULL.into()),
        ("DATA", DATA.into()),
        ("START", START.into()),
        ("INSIDE", INSIDE.into()),
    ];
    let others = others.map(|(name, number)| (name.to_owned(), number));
    let expected: BTreeMap<String, usize> = answers.chain(others).collect();
    assert_eq!(expected.len(), 29);
    assert_eq!(constants(), expected);
}
