//! Images of code: rows one behind another.

use crate::mixed::Mixed;
use crate::original::disas;
use crate::pages::{code_at, row, ED_BEHIND, PAGES};
use crate::plain::LARGEST_INPUT;

/// Of so many pieces of mixed code one is just mixed bytes.
const PIECES: usize = 16;

/// The bytes of the row that four bytes begin with; four are never refused.
pub fn length(bytes: &[u8]) -> usize {
    let opcode = disas(&bytes[..LARGEST_INPUT]).expect("a record of four bytes");
    opcode.length as usize
}

/// A code of a page, cut where a row ends. A prefix that changes nothing is a row of its own; the code behind it goes on as
/// the row that it is by itself. So whatever is put behind begins where a row ends.
pub fn whole(prefix: &[u8], code: u8, mixed: &mut Mixed) -> Vec<u8> {
    let mut bytes = row(prefix, code, mixed.byte());
    bytes.extend(mixed.bytes(LARGEST_INPUT));
    let mut end = 0;
    while end <= code_at(prefix) {
        end += length(&bytes[end..]);
    }
    bytes.truncate(end);
    bytes
}

/// Every code of a page, one behind another.
pub fn page(prefix: &[u8], mixed: &mut Mixed) -> Vec<u8> {
    let codes = (0..=0xFF).map(|code| whole(prefix, code, mixed));
    codes.collect::<Vec<_>>().concat()
}

/// So many bytes of code: every code of all pages, over and over. The last row may be cut off.
pub fn all_pages(count: usize, mixed: &mut Mixed) -> Vec<u8> {
    let mut code = vec![];
    for prefix in PAGES.iter().chain(&ED_BEHIND).cycle() {
        if code.len() >= count {
            break;
        }
        code.extend(page(prefix, mixed));
    }
    code.truncate(count);
    code
}

/// So many bytes of code: of the pages in turn a row of two bytes or more, now and then four mixed bytes in its place. The
/// last row may be cut off.
pub fn mixed_code(count: usize, mixed: &mut Mixed) -> Vec<u8> {
    let mut code = vec![];
    for (k, prefix) in PAGES.iter().chain(&ED_BEHIND).cycle().enumerate() {
        if code.len() >= count {
            break;
        }
        code.extend(match k % PIECES {
            0 => mixed.bytes(LARGEST_INPUT),
            _ => longer(prefix, mixed),
        });
    }
    code.truncate(count);
    code
}

/// A row of two bytes or more, its code on a page mixed.
fn longer(prefix: &[u8], mixed: &mut Mixed) -> Vec<u8> {
    loop {
        let mut bytes = row(prefix, mixed.byte(), mixed.byte());
        bytes.resize_with(LARGEST_INPUT, || mixed.byte());
        let length = length(&bytes);
        if length > 1 {
            bytes.truncate(length);
            return bytes;
        }
    }
}

#[cfg(test)]
mod tests {
    use super::*;
    use crate::plain::listing::listing;
    use crate::plain::Mode;

    /// The places in an image where its rows begin.
    fn starts(image: &[u8]) -> Vec<usize> {
        let mut at = 0;
        let rows = listing(Mode::Rust, image, 0).unwrap();
        let start = rows.iter().map(|row| (at, at += row.passed).0);
        start.collect()
    }

    /// Each piece begins where a row begins, whatever stood before, and shows its prefix and code there.
    #[test]
    fn pages_begin_where_rows_end() {
        let mut mixed = Mixed::new(0x5A80_0001);
        for prefix in PAGES.iter().chain(&ED_BEHIND) {
            let mut pieces = vec![];
            for code in 0..=0xFF {
                pieces.push(whole(prefix, code, &mut mixed));
                let piece = &pieces[code as usize];
                assert!(piece.starts_with(prefix));
                assert_eq!(piece[code_at(prefix)], code);
            }
            let image = pieces.concat();
            let starts = starts(&image[..]);
            let mut at = 0;
            for piece in pieces {
                assert!(starts.contains(&at), "{prefix:02X?} at {at}");
                at += piece.len();
            }
        }
    }

    /// So many bytes are the pages more than once.
    #[test]
    fn all_pages_one_behind_another() {
        let code = all_pages(20_000, &mut Mixed::new(0x5A80_0003));
        assert_eq!(code.len(), 20_000);
        let mut mixed = Mixed::new(0x5A80_0003);
        let pages = PAGES.iter().chain(&ED_BEHIND);
        let once: Vec<u8> = pages.flat_map(|prefix| page(prefix, &mut mixed)).collect();
        assert_eq!(code[..once.len()], once);
        assert!(code[once.len()..].starts_with(&[0x00, 0x01]));
    }

    #[test]
    fn mixed_code_is_long_rows_mostly() {
        let code = mixed_code(10_000, &mut Mixed::new(0x5A80_0002));
        assert_eq!(code.len(), 10_000);
        let rows = listing(Mode::Rust, &code, 0).unwrap();
        let longer = rows.iter().filter(|row| row.passed > 1).count();
        assert!(longer * 4 > rows.len() * 3, "{longer} of {}", rows.len());
    }
}
