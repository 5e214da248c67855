//! The original's answers against document 01, worked out by hand.

use host::answer::Refusal;
use host::answer::TEXT_MAX;
use host::function::Function::Record;
use host::function::{FULL_TEXT, PLAIN_TEXT};
use host::original::disas;
use host::pages::{edged, ED_BEHIND, PAGES};
use host::plain::missing::missing;
use host::plain::said::said_of_bytes;
use host::plain::{decoded, Mode, MODES};
use std::panic::catch_unwind;

/// The row; its bytes; length and instruction, three operand places, data, T-states, machine cycles, row times.
const STARRED_DONE: &str = "\
NOP                 | 00          | 01 23  00 00 00  00 00 00  00 00 00  00 00 00 00  04 00 00 00 00 00  01  04 04
JR -126             | 18 80       | 02 1C  03 82 FF  00 00 00  00 00 00  18 80 00 00  04 03 05 00 00 00  03  0C 0C
JR +129             | 18 7F       | 02 1C  03 81 00  00 00 00  00 00 00  18 7F 00 00  04 03 05 00 00 00  03  0C 0C
DJNZ +0             | 10 FE       | 02 0F  03 00 00  00 00 00  00 00 00  10 FE 00 00  05 03 05 00 00 00  03  08 0D
BIT 00, (HL)        | CB 46       | 02 03  01 00 00  09 03 00  00 00 00  CB 46 00 00  04 04 04 00 00 00  03  0C 0C
IN A, (C), ignored  | ED 70       | 02 15  07 00 00  0A 02 00  0C 00 00  ED 70 00 00  04 04 04 00 00 00  03  0C 0C
LD (IX-128), 07     | DD 36 80 07 | 04 1D  06 80 00  01 07 00  00 00 00  DD 36 80 07  04 04 03 05 03 00  05  13 13
LD H, (IX+5)        | DD 66 05 00 | 03 1D  07 05 00  06 05 00  00 00 00  DD 66 05 00  04 04 03 05 03 00  05  13 13
INC IX              | DD 23 00 00 | 02 16  08 06 00  00 00 00  00 00 00  DD 23 00 00  06 04 00 00 00 00  02  0A 0A
NOP, BC, 1234 kept  | DD 01 34 12 | 01 23  08 01 00  02 34 12  00 00 00  DD 01 34 12  04 03 03 00 00 00  03  0A 0A
NOP, undefined ED   | ED 00 00 00 | 01 23  00 00 00  00 00 00  00 00 00  ED 00 00 00  04 00 00 00 00 00  01  04 04
SET 00, (IY+127)    | FD CB 7F C6 | 04 3D  01 00 00  06 7F 01  00 00 00  FD CB 7F C6  04 04 03 05 04 03  06  17 17
SBC IX, IX          | DD ED 62 00 | 03 3B  08 06 00  08 06 00  00 00 00  DD ED 62 00  04 04 04 04 03 00  05  13 13";

fn bytes(text: &str) -> Vec<u8> {
    let pairs = text.split_whitespace();
    pairs
        .map(|pair| u8::from_str_radix(pair, 16).unwrap())
        .collect()
}

#[test]
fn starred_rows() {
    for row in STARRED_DONE.lines() {
        let fields: Vec<&str> = row.split('|').collect();
        let said = said_of_bytes(Mode::Rust, Record, &bytes(fields[1]));
        assert_eq!(said, Ok(bytes(fields[2])), "{row}");
    }
    assert_eq!(
        decoded(Mode::Rust, &[0xDD, 0x23, 0x00]),
        Err(Refusal::Short)
    );
    assert_eq!(
        decoded(Mode::Rust, &[0xED, 0x00, 0x00]),
        Err(Refusal::Short)
    );
    assert_eq!(decoded(Mode::Rust, &[0; 5]), Err(Refusal::Long));
}

/// A row's bytes and its plain text, a tab written as >.
const TEXTS: &str = "\
00          | NOP> [4, 0, 0, 0, 0, 0]
23          | INC>HL [6, 0, 0, 0, 0, 0]
3E 05       | LD>A, 05 [4, 3, 0, 0, 0, 0]
21 34 12    | LD>HL, 1234 [4, 3, 3, 0, 0, 0]
3A 34 12    | LD>A, (1234) [4, 3, 3, 3, 0, 0]
D3 05       | OUT>(05), A [4, 3, 4, 0, 0, 0]
08          | EX>AF, AFp [4, 0, 0, 0, 0, 0]
10 FE       | DJNZ>+0 [5, 3, 5, 0, 0, 0]
18 80       | JR>-126 [4, 3, 5, 0, 0, 0]
18 7F       | JR>+129 [4, 3, 5, 0, 0, 0]
ED 70       | IN>A, (C), ignored [4, 4, 4, 0, 0, 0]
DD 36 80 07 | LD>(IX-128), 07 [4, 4, 3, 5, 3, 0]";

/// Document 01's forms, and the full text as it shows it: each byte 'XX ', two tabs, the plain text.
#[test]
fn texts() {
    for row in TEXTS.lines() {
        let (ins, text) = row.split_once('|').unwrap();
        let plain = text.trim_start().replace('>', "\t");
        let full = format!("{} \t\t{plain}", ins.trim_end());
        assert_eq!(
            said_of_bytes(Mode::Rust, PLAIN_TEXT, &bytes(ins)),
            Ok(plain.into_bytes()),
            "{row}"
        );
        assert_eq!(
            said_of_bytes(Mode::Rust, FULL_TEXT, &bytes(ins)),
            Ok(full.into_bytes()),
            "{row}"
        );
    }
}

#[test]
fn longest_text() {
    let pages = PAGES.iter().chain(&ED_BEHIND);
    let inputs = pages.flat_map(|prefix| edged(prefix, 4));
    let lengths = inputs.map(|ins| said_of_bytes(Mode::Rust, FULL_TEXT, &ins).unwrap().len());
    assert_eq!(lengths.max(), Some(TEXT_MAX));
}

/// The bytes that document 01 asks for before a row is decided, in the chip's mode document 02.
fn needed(mode: Mode, first: u8, second: u8) -> usize {
    match first {
        0xDD | 0xFD if mode == Mode::Chip => needed_behind_prefix(second),
        0xDD | 0xFD => 4,
        0xED if ed_row_of_two(second) => 2,
        0xED if mode == Mode::Chip && second & 0xC7 != 0x43 => 2,
        0xED => 4,
        // CB; DJNZ and JR; OUT and IN with (n); LD r,n; arithmetic with n
        0xCB | 0x10 | 0x18 | 0x20 | 0x28 | 0x30 | 0x38 | 0xD3 | 0xDB => 2,
        _ if matches!(first & 0xC7, 0x06 | 0xC6) => 2,
        // LD dd,nn; HL and A with (nn); JP and CALL, with and without condition
        0x01 | 0x11 | 0x21 | 0x31 | 0x22 | 0x2A | 0x32 | 0x3A | 0xC3 | 0xCD => 3,
        _ if matches!(first & 0xC7, 0xC2 | 0xC4) => 3,
        _ => 1,
    }
}

/// Those of a row behind DD or FD in the chip's mode: its own; of one that the prefix does not change the prefix and a look at it.
fn needed_behind_prefix(second: u8) -> usize {
    match second {
        // DD CB; LD IX,nn; IX with (nn); LD (IX+d),n
        0xCB | 0x21 | 0x22 | 0x2A | 0x36 => 4,
        // LD IXh,n, LD IXl,n; INC and DEC (IX+d); LD and arithmetic with (IX+d), but for HALT
        0x26 | 0x2E | 0x34 | 0x35 | 0x70..=0x75 | 0x77 => 3,
        0x76 => 2,
        0x40..=0xBF if second & 0x07 == 0x06 => 3,
        _ => 2,
    }
}

/// The defined ED codes apart from a register pair with (nn), which takes four bytes.
fn ed_row_of_two(code: u8) -> bool {
    match code {
        0x77 | 0x7F => false,
        0x40..=0x7F => code & 0x07 != 0x03,
        0xA0..=0xBF => code & 0x07 < 0x04,
        _ => false,
    }
}

#[test]
fn short_exactly_below_the_bytes_needed() {
    for mode in MODES {
        for (first, second) in (0..=0xFF).flat_map(|first| (0..=0xFF).map(move |b| (first, b))) {
            for (length, rest) in [(1, 0x00), (2, 0x00), (3, 0x00), (3, 0xFF), (4, 0xFF)] {
                let ins = &[first, second, rest, rest][..length];
                let short = length < needed(mode, first, second);
                let refused = decoded(mode, ins) == Err(Refusal::Short);
                assert_eq!(refused, short, "{ins:02X?}");
            }
        }
    }
}

/// Those that some choice of the bytes to come asks for: behind ED alone it is the code that decides, and two are the fewest. Behind
/// DD and FD alone zero is a code that they do not change.
fn fewest_needed(mode: Mode, ins: &[u8]) -> usize {
    match ins {
        [] => 0,
        [0xED] => 2,
        [first] => needed(mode, *first, 0x00),
        [first, second, ..] => needed(mode, *first, *second),
    }
}

/// Document 02's number, which is found by trying, on every input of one to three bytes in both modes.
#[test]
fn missing_up_to_the_bytes_needed() {
    for bytes in 0..1_u32 << 24 {
        let [_, three @ ..] = bytes.to_be_bytes();
        let lengths = match three {
            [_, 0x00, 0x00] => 1..=3,
            [_, _, 0x00] => 2..=3,
            _ => 3..=3,
        };
        for ins in lengths.map(|length| &three[..length]) {
            for mode in MODES {
                let lacking = fewest_needed(mode, ins).saturating_sub(ins.len());
                assert_eq!(missing(mode, ins), lacking, "{mode:?} {ins:02X?}");
            }
        }
    }
}

#[test]
fn nothing_for_no_bytes() {
    for mode in MODES {
        assert_eq!(decoded(mode, &[]), Err(Refusal::Nothing));
        assert_eq!(missing(mode, &[]), 0);
    }
}

/// What document 01 says of the original beside its numbers 1 and 3.
#[test]
fn no_bytes_and_five() {
    assert!(disas(&[]).is_none());
    assert!(catch_unwind(|| disas(&[0; 5])).is_err());
}
