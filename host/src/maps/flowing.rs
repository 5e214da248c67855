//! Code in which control goes every way: jumps, calls and returns of each kind, most of them aimed into their own image.

use crate::images::{length, whole};
use crate::mixed::Mixed;
use crate::pages::{ED_BEHIND, PAGES};

/// Codes by the way that control goes from them; DD and FD before them make NOPs that have their operands.
pub const KINDS: [&[u16]; 15] = [
    &[0xC3],
    &[0xC2, 0xCA, 0xD2, 0xDA, 0xE2, 0xEA, 0xF2, 0xFA],
    &[0x18],
    &[0x20, 0x28, 0x30, 0x38],
    &[0x10],
    &[0xCD],
    &[0xC4, 0xCC, 0xD4, 0xDC, 0xE4, 0xEC, 0xF4, 0xFC],
    &[0xC7, 0xCF, 0xD7, 0xDF, 0xE7, 0xEF, 0xF7, 0xFF],
    &[0xC9],
    &[0xC0, 0xC8, 0xD0, 0xD8, 0xE0, 0xE8, 0xF0, 0xF8],
    &[0xED45, 0xED4D, 0xED55, 0xED5D, 0xED65, 0xED7D],
    &[0xE9, 0xDDE9, 0xFDE9],
    &[
        0xEDB0, 0xEDB1, 0xEDB2, 0xEDB3, 0xEDB8, 0xEDB9, 0xEDBA, 0xEDBB,
    ],
    &[0x76],
    &[
        0xDDC3, 0xFDC2, 0xDD18, 0xFD20, 0xDD10, 0xFDCD, 0xDDCC, 0xFDFF, 0xDDC9, 0xFDD8,
    ],
];

/// The bytes of a code.
pub fn code_bytes(code: u16) -> Vec<u8> {
    match code.to_be_bytes() {
        [0, only] => vec![only],
        both => both.to_vec(),
    }
}

/// A row with this code, and behind it as much of the word as it has, cut where a row ends.
pub fn leading(code: u16, word: u16) -> Vec<u8> {
    let code = code_bytes(code);
    let mut bytes = [&code, &word.to_le_bytes()[..], &[0; 4]].concat();
    let mut end = 0;
    while end < code.len() {
        end += length(&bytes[end..]);
    }
    bytes.truncate(end);
    bytes
}

/// So many bytes from an origin on: by turns a row of one of the kinds and any row of any page. The last one may be cut off.
pub fn flowing_code(count: usize, origin: u16, mixed: &mut Mixed) -> Vec<u8> {
    let pages = [&PAGES[..], &ED_BEHIND].concat();
    let mut code = vec![];
    while code.len() < count {
        let kind = mixed.one_of(&KINDS);
        let lead = mixed.one_of(kind);
        code.extend(leading(lead, word(lead, count, origin, mixed)));
        code.extend(whole(mixed.one_of(&pages), mixed.byte(), mixed));
    }
    code.truncate(count);
    code
}

/// An address of the image; for a relative code a signed byte that reaches no further than the image is long.
fn word(code: u16, count: usize, origin: u16, mixed: &mut Mixed) -> u16 {
    let is_relative = matches!(code, 0x10 | 0x18 | 0x20 | 0x28 | 0x30 | 0x38);
    match is_relative {
        true => {
            let reach = count.min(0x7F);
            (mixed.below(2 * reach + 1) as u16).wrapping_sub(reach as u16)
        }
        false => origin.wrapping_add(mixed.below(count) as u16),
    }
}

#[cfg(test)]
mod tests {
    use super::*;

    #[test]
    fn rows_by_hand() {
        assert_eq!(leading(0xC3, 0x1234), [0xC3, 0x34, 0x12]);
        assert_eq!(leading(0x18, 0x1234), [0x18, 0x34]);
        assert_eq!(leading(0xC9, 0x1234), [0xC9]);
        assert_eq!(leading(0xEDB0, 0x1234), [0xED, 0xB0]);
        assert_eq!(leading(0xDDE9, 0x1234), [0xDD, 0xE9]);
        assert_eq!(leading(0xDDC3, 0x1234), [0xDD, 0xC3, 0x34, 0x12]);
    }

    #[test]
    fn words_stay_in_the_image() {
        let mut mixed = Mixed::new(0x5A80_0016);
        for _ in 0..1000 {
            assert!((0x1000..0x1010).contains(&word(0xC3, 16, 0x1000, &mut mixed)));
            let way = word(0x18, 16, 0x1000, &mut mixed) as u8 as i8;
            assert!((-16..=16).contains(&way), "{way}");
        }
    }
}
