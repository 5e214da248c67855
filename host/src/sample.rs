//! The files of a sample ROM as its source has them, and the original's listing of an image.

pub mod source;

use crate::original::disas;
use crate::plain::listing::{listing, window};
use crate::plain::Mode;
use source::{Row, Source};

pub fn image(source: &Source) -> Vec<u8> {
    let rows = source.rows.iter();
    rows.flat_map(|row| row.bytes.clone()).collect()
}

/// One mark a byte: 0 data, 1 start, 2 inside.
pub fn marks(source: &Source) -> Vec<u8> {
    let mut marks = vec![];
    for row in &source.rows {
        let (first, later) = if row.is_data() { (0, 0) } else { (1, 2) };
        marks.push(first);
        marks.extend(row.bytes[1..].iter().map(|_| later));
    }
    marks
}

/// Byte pairs, low byte first.
pub fn entries(source: &Source) -> Result<Vec<u8>, String> {
    let places = source.entries()?.into_iter();
    Ok(places.flat_map(u16::to_le_bytes).collect())
}

/// Holds each row's text to its bytes.
pub fn hold_texts(source: &Source) -> Result<(), String> {
    let image = image(source);
    for row in &source.rows {
        let at = |error: String| format!("{:04X}: {error}", row.address);
        let said = said(&image, row).map_err(at)?;
        let text = source.resolved(row).map_err(at)?;
        if said != text {
            return Err(at(format!("'{said}', not '{text}'")));
        }
    }
    Ok(())
}

/// What a row's bytes say, in the source's spelling: data as numbers or letters, an instruction as the original's own text.
fn said(image: &[u8], row: &Row) -> Result<String, String> {
    match row.word() {
        "DEFB" => Ok(format!("DEFB {}", numbers(&row.bytes, 1))),
        "DEFW" => Ok(format!("DEFW {}", numbers(&row.bytes, 2))),
        "DEFM" => Ok(format!("DEFM \"{}\"", String::from_utf8_lossy(&row.bytes))),
        _ => instruction(image, row),
    }
}

/// Numbers of one or two bytes, low byte first, as hex digits.
fn numbers(bytes: &[u8], size: usize) -> String {
    let high_first = |number: &[u8]| number.iter().rev().map(hex).collect();
    let numbers: Vec<String> = bytes.chunks(size).map(high_first).collect();
    numbers.join(", ")
}

fn hex(byte: &u8) -> String {
    format!("{byte:02X}")
}

/// The original's text without T-states, a blank for its tab, where its record has all of the row's bytes and no more.
fn instruction(image: &[u8], row: &Row) -> Result<String, String> {
    let record = disas(window(image, row.address as usize)).ok_or("refused")?;
    if record.length as usize != row.bytes.len() {
        return Err(format!("has {} bytes", record.length));
    }
    let text = record.to_string().replace('\t', " ");
    let (text, _) = text.rsplit_once(" [").ok_or("no T-states")?;
    Ok(text.trim_end().into())
}

/// What is printed for an image at origin 0.
pub fn printed(image: &[u8]) -> Vec<u8> {
    let rows = listing(Mode::Rust, image, 0).expect("an image that fits");
    rows.into_iter().flat_map(|row| row.line).collect()
}
