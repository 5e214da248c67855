//! The sample's files held to its source, the source to the original, and the map to document 01's marking rules.

use host::arguments::Map;
use host::plain::marking::judged;
use host::plain::Mode;
use host::sample::source::Source;
use host::sample::{entries, hold_texts, image, marks, printed};
use std::fs;

fn stored(ending: &str) -> Vec<u8> {
    let dir = concat!(env!("CARGO_MANIFEST_DIR"), "/../samples");
    fs::read(format!("{dir}/scanner.{ending}")).unwrap()
}

fn source_text() -> String {
    String::from_utf8(stored("asm")).unwrap()
}

fn source() -> Source {
    Source::read(&source_text()).unwrap()
}

/// A source's rows, with their texts held to their bytes by the original.
fn read_and_held(text: &str) -> Result<Source, String> {
    let source = Source::read(text)?;
    hold_texts(&source)?;
    Ok(source)
}

#[test]
fn source_agrees_with_the_original() {
    let source = read_and_held(&source_text()).unwrap();
    let data = source.rows.iter().filter(|row| row.is_data()).count();
    assert_eq!((source.rows.len(), data), (121, 22));
}

/// Something that stands once in the source, and what is put in its place.
const DAMAGED_SOURCES: [(&str, &str); 12] = [
    ("LD A, 55", "LD A, 56"),
    ("LD A, C", "LD A, B"),
    ("0010 3E 55", "0010 3E 54"),
    ("0029 DD A6 03", "0029 DD A6 04"),
    ("0014 C9", "0013 C9"),
    ("stack     = 4400", "stack     = 4300"),
    ("DJNZ scan_line", "DJNZ scan"),
    ("RST kick", "RST send"),
    ("CALL NZ, alarm", "CALL Z, alarm"),
    ("DEFB 02, 00, 04, 40", "DEFB 02, 00, 04, 41"),
    ("DEFW busy", "DEFW idle"),
    ("\"LSC8\"", "\"LSC9\""),
];

#[test]
fn damaged_sources_are_refused() {
    let text = source_text();
    for (right, wrong) in DAMAGED_SOURCES {
        assert_eq!(text.matches(right).count(), 1, "{right}");
        let damaged = read_and_held(&text.replace(right, wrong));
        assert!(damaged.is_err(), "{wrong}");
    }
}

/// Each byte of the ROM, each mark, each byte of the entries and of the listing is the one that the source gives.
fn held_to_source(ending: &str, bytes: &[u8]) -> bool {
    let source = source();
    let given = match ending {
        "rom" => image(&source),
        "map" => marks(&source),
        "entries" => entries(&source).unwrap(),
        _ => printed(&image(&source)),
    };
    bytes == given
}

#[test]
fn files_agree_with_the_source() {
    for ending in ["rom", "map", "entries", "list"] {
        let mut bytes = stored(ending);
        assert!(held_to_source(ending, &bytes), "{ending}");
        for at in [0, bytes.len() / 2, bytes.len() - 1] {
            bytes[at] ^= 1;
            assert!(!held_to_source(ending, &bytes), "{ending} at {at}");
            bytes[at] ^= 1;
        }
        bytes.pop();
        assert!(!held_to_source(ending, &bytes), "{ending} cut off");
    }
}

/// The starts are exactly the source's instructions, and the zeros exactly its data.
#[test]
fn marks_stand_at_the_rows() {
    let marks = stored("map");
    for row in source().rows {
        let at = row.address as usize;
        let own = &marks[at..at + row.bytes.len()];
        match row.is_data() {
            true => assert!(own.iter().all(|&mark| mark == 0), "{at:04X}"),
            false => assert_eq!(own, &[1, 2, 2, 2][..own.len()], "{at:04X}"),
        }
    }
}

#[test]
fn bytes_add_up_to_zero() {
    let sum: u32 = stored("rom").iter().map(|&byte| byte as u32).sum();
    assert_eq!(sum % 0x100, 0);
}

/// What the plain reading of document 01's rules says at origin 0: the number, and the address where it holds.
fn said(image: &[u8], marks: &[u8], entries: &[u8]) -> (u8, usize) {
    let map = Map {
        image,
        origin: 0,
        marks,
        entries,
    };
    match judged(Mode::Rust, &map) {
        Ok(()) => (0, 0),
        Err(refused) => (refused.refusal as u8, refused.address as usize),
    }
}

#[test]
fn map_keeps_the_marking_rules() {
    let (rom, map, entries) = (stored("rom"), stored("map"), stored("entries"));
    assert_eq!(said(&rom, &map, &entries), (0, 0));
}

/// Every other mark in place of one that belongs to an instruction, and inside or an unknown mark in place of data.
#[test]
fn damaged_marks_are_refused() {
    let (rom, mut map, entries) = (stored("rom"), stored("map"), stored("entries"));
    for at in 0..map.len() {
        let right = map[at];
        for wrong in 0..=3 {
            map[at] = wrong;
            let data_as_start = right == 0 && wrong == 1;
            let refused = said(&rom, &map, &entries) != (0, 0);
            assert!(
                data_as_start || refused != (wrong == right),
                "{at:04X} {wrong}"
            );
        }
        map[at] = right;
    }
}

/// An unused RST 38 in front of code may be drawn as a start: the rules do not make a map the only one.
#[test]
fn another_map_keeps_the_rules_too() {
    let (rom, mut map, entries) = (stored("rom"), stored("map"), stored("entries"));
    map[0x0007] = 1;
    assert_eq!(said(&rom, &map, &entries), (0, 0));
}

#[test]
fn damaged_entries_are_refused() {
    let (rom, map, entries) = (stored("rom"), stored("map"), stored("entries"));
    for at in (0..entries.len()).step_by(2) {
        for wrong in [0x0001_u16, 0x0006, 0x0106, 0x0107, 0xFFFF] {
            let mut damaged = entries.clone();
            damaged[at..at + 2].copy_from_slice(&wrong.to_le_bytes());
            assert_eq!(said(&rom, &map, &damaged), (9, wrong as usize));
        }
    }
    for count in [0, 1, entries.len() - 1] {
        assert_eq!(said(&rom, &map, &entries[..count]), (7, 0));
    }
    assert_eq!(said(&rom, &map, &[0; 514]), (7, 0));
}

/// An address in the ROM, a wrong byte there, and what the rules say then.
const DAMAGED_ROMS: [(usize, u8, (u8, usize)); 7] = [
    (0x0004, 0x70, (13, 0x0003)), // JP into IM 01
    (0x0028, 0x3E, (11, 0x0028)), // LD A, C becomes LD A, DD
    (0x0093, 0xC9, (12, 0x0094)), // JP becomes RET
    (0x00B0, 0xF0, (13, 0x00AF)), // DJNZ into BIT absent
    (0x00C1, 0x00, (13, 0x00C1)), // JP HL goes on into the words
    (0x00AE, 0xF7, (13, 0x00AE)), // RST 30 is the version's text
    (0x0105, 0xDD, (10, 0x0105)), // a prefix two bytes before the end
];

#[test]
fn damaged_roms_are_refused() {
    let (rom, map, entries) = (stored("rom"), stored("map"), stored("entries"));
    for (at, wrong, expected) in DAMAGED_ROMS {
        let mut damaged = rom.clone();
        damaged[at] = wrong;
        assert_eq!(said(&damaged, &map, &entries), expected, "{at:04X}");
    }
    assert_eq!(said(&rom[1..], &map, &entries), (6, 0));
    assert_eq!(said(&[], &[], &entries), (5, 0));
}
