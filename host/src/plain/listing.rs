//! The rows of an image in a mode, as document 01's 'Listing' says, in the original's own words; a Short one with P3's number.

use super::missing::missing;
use super::{decoded, Mode, LARGEST_INPUT};
use crate::answer::Refusal;
use crate::arguments::{Place, ADDRESSES};

/// A line, and how many bytes further the next row begins.
#[derive(Debug, PartialEq, Eq, Clone)]
pub struct Row {
    pub line: Vec<u8>,
    pub passed: usize,
}

/// The row at a place. Where the mode gives no record of the bytes, the first of them is shown and passed, and how many are
/// missing is told.
pub fn row(mode: Mode, place: &Place) -> Result<Row, Refusal> {
    let window = window_at(place)?;
    let (text, passed) = match decoded(mode, window) {
        Ok(opcode) => (format!("{opcode:?}"), opcode.length as usize),
        Err(_) => (
            format!("{:02X} \t\t?{}", window[0], missing(mode, window)),
            1,
        ),
    };
    let line = format!("{:04X} {text}\n", place.address).into_bytes();
    Ok(Row { line, passed })
}

/// What is looked at there; or the refusal, of the image before the address.
fn window_at<'a>(place: &Place<'a>) -> Result<&'a [u8], Refusal> {
    let (origin, address) = (place.origin as usize, place.address as usize);
    let end = origin + place.image.len();
    if place.image.is_empty() || end > ADDRESSES {
        return Err(Refusal::ImageSize);
    }
    if address < origin || address >= end {
        return Err(Refusal::Nothing);
    }
    Ok(window(place.image, address - origin))
}

/// The bytes that are looked at for a row: at most four, none past the image's end.
pub fn window(image: &[u8], at: usize) -> &[u8] {
    &image[at..image.len().min(at + LARGEST_INPUT)]
}

/// The rows of a whole image, each beginning where the one before ends.
pub fn listing(mode: Mode, image: &[u8], origin: u16) -> Result<Vec<Row>, Refusal> {
    let (mut rows, mut at) = (vec![], 0);
    loop {
        let place = Place {
            image,
            origin,
            address: origin + at as u16,
        };
        let row = row(mode, &place)?;
        at += row.passed;
        rows.push(row);
        if at >= image.len() {
            return Ok(rows);
        }
    }
}

#[cfg(test)]
mod tests {
    use super::*;
    use crate::answer::LINE_MAX;

    const EXAMPLE: [u8; 7] = [0x21, 0x34, 0x12, 0x3E, 0x05, 0xDD, 0x23];

    fn row(image: &[u8], origin: u16, address: u16) -> Result<Row, Refusal> {
        let place = Place {
            image,
            origin,
            address,
        };
        super::row(Mode::Rust, &place)
    }

    fn done(line: &str, passed: usize) -> Result<Row, Refusal> {
        let line = line.as_bytes().to_vec();
        Ok(Row { line, passed })
    }

    #[test]
    fn example() {
        let rows = listing(Mode::Rust, &EXAMPLE, 0).unwrap();
        let lines: Vec<Vec<u8>> = rows.iter().map(|row| row.line.clone()).collect();
        let expected = b"0000 21 34 12 \t\tLD\tHL, 1234 [4, 3, 3, 0, 0, 0]\n\
            0003 3E 05 \t\tLD\tA, 05 [4, 3, 0, 0, 0, 0]\n\
            0005 DD \t\t?2\n\
            0006 23 \t\tINC\tHL [6, 0, 0, 0, 0, 0]\n";
        assert_eq!(lines.concat(), expected);
        let passed: Vec<usize> = rows.iter().map(|row| row.passed).collect();
        assert_eq!(passed, [3, 2, 1, 1]);
    }

    /// The same in the chip's mode, for which the image's last two bytes are a row.
    #[test]
    fn example_in_chip_mode() {
        let rows = listing(Mode::Chip, &EXAMPLE, 0).unwrap();
        let passed: Vec<usize> = rows.iter().map(|row| row.passed).collect();
        assert_eq!(passed, [3, 2, 2]);
        assert_eq!(rows[2].line, b"0005 DD 23 \t\tINC\tIX [4, 6, 0, 0, 0, 0]\n");
        let [idle, short] = [&[0xDD, 0xED][..], &[0xDD]].map(|image| listing(Mode::Chip, image, 0));
        let idle = idle.unwrap();
        assert_eq!(idle[0].line, b"0000 DD \t\tNOP\t [4, 0, 0, 0, 0, 0]\n");
        assert_eq!(idle[1].line, b"0001 ED \t\t?1\n");
        assert_eq!(short.unwrap()[0].line, b"0000 DD \t\t?1\n");
    }

    #[test]
    fn example_elsewhere() {
        let short = done("ABD2 DD \t\t?2\n", 1);
        assert_eq!(row(&EXAMPLE, 0xABCD, 0xABD2), short);
        let inside = done("ABCE 34 \t\tINC\t(HL) [4, 4, 3, 0, 0, 0]\n", 1);
        assert_eq!(row(&EXAMPLE, 0xABCD, 0xABCE), inside);
    }

    #[test]
    fn outside() {
        for address in [0x0000, 0xABCC, 0xABD4, 0xFFFF] {
            let refused = row(&EXAMPLE, 0xABCD, address);
            assert_eq!(refused, Err(Refusal::Nothing), "{address:04X}");
        }
    }

    /// An image of the wrong size is refused wherever the address is, inside or out.
    #[test]
    fn image_size_first() {
        for address in [0x0000, 0xFFF9, 0xFFFA, 0xFFFF] {
            assert_eq!(row(&[], 0, address), Err(Refusal::ImageSize));
            assert_eq!(row(&EXAMPLE, 0xFFFA, address), Err(Refusal::ImageSize));
        }
        assert_eq!(row(&[0; ADDRESSES + 1], 0, 0), Err(Refusal::ImageSize));
        assert_eq!(listing(Mode::Rust, &[], 0), Err(Refusal::ImageSize));
        let over = listing(Mode::Rust, &EXAMPLE, 0xFFFA);
        assert_eq!(over, Err(Refusal::ImageSize));
    }

    /// The window at the last address has one byte, whatever stands at the first one.
    #[test]
    fn full_image() {
        let mut image = vec![0x00; ADDRESSES];
        image[ADDRESSES - 1] = 0xDD;
        assert_eq!(row(&image, 0, 0xFFFF), done("FFFF DD \t\t?3\n", 1));
        let before = done("FFFE 00 \t\tNOP\t [4, 0, 0, 0, 0, 0]\n", 1);
        assert_eq!(row(&image, 0, 0xFFFE), before);
        assert_eq!(row(&image, 1, 0xFFFF), Err(Refusal::ImageSize));
        let rows = listing(Mode::Rust, &image, 0).unwrap();
        assert_eq!(rows.len(), ADDRESSES);
    }

    #[test]
    fn last_origin() {
        let halt = done("FFFF 76 \t\tHALT\t [4, 0, 0, 0, 0, 0]\n", 1);
        assert_eq!(row(&[0x76], 0xFFFF, 0xFFFF), halt);
        assert_eq!(row(&[0x76], 0xFFFF, 0x0000), Err(Refusal::Nothing));
        assert_eq!(row(&[0x76], 0xFFFF, 0xFFFE), Err(Refusal::Nothing));
        assert_eq!(row(&[0x76, 0x76], 0xFFFF, 0xFFFF), Err(Refusal::ImageSize));
        let rows = listing(Mode::Rust, &[0x76], 0xFFFF).unwrap();
        assert_eq!(rows.len(), 1);
    }

    #[test]
    fn longest_line() {
        let row = row(&[0xDD, 0xCB, 0x80, 0xC7], 0, 0).unwrap();
        assert_eq!((row.line.len(), row.passed), (LINE_MAX, 4));
        assert_eq!(LINE_MAX, 58);
    }
}
