//! What the original, or the plain reading where the original has nothing, would have a function write.

use super::decoded;
use super::listing::row;
use super::marking::judged;
use super::missing::missing;
use super::parts::{chosen, is_choice};
use super::record::record;
use super::Mode;
use crate::answer::{Refusal, Refused};
use crate::asked::Asked;
use crate::function::{Function, FULL_TEXT, PLAIN_TEXT};
use crate::original::OpCode;
use std::io::{self, Write};

/// What is written where there is room for it: bytes to the lent buffer, and the bytes passed where the function says them.
pub struct Written {
    pub bytes: Vec<u8>,
    pub passed: usize,
}

/// What is written, or the refusal that comes before the room is looked at, a map check writing no bytes; and the fewest missing
/// bytes where the function says them.
pub struct Said {
    pub written: Result<Written, Refused>,
    pub missing: usize,
}

/// A number that is no mode is refused before all else.
pub fn said(mode: u8, asked: &Asked) -> Said {
    match Mode::numbered(mode) {
        Ok(mode) => said_in(mode, asked),
        Err(refusal) => Said {
            written: Err(refusal.into()),
            missing: 0,
        },
    }
}

fn said_in(mode: Mode, asked: &Asked) -> Said {
    let written = written(mode, asked);
    let missing = match (asked, &written) {
        (Asked::Bytes(_, ins), Err(refused)) if refused.refusal == Refusal::Short => {
            missing(mode, ins)
        }
        _ => 0,
    };
    Said { written, missing }
}

fn written(mode: Mode, asked: &Asked) -> Result<Written, Refused> {
    let (bytes, passed) = match asked {
        Asked::Bytes(function, ins) => (said_of_bytes(mode, *function, ins)?, 0),
        Asked::Row(place) => {
            let row = row(mode, place)?;
            (row.line, row.passed)
        }
        Asked::Map(map) => {
            judged(mode, map)?;
            (vec![], 0)
        }
    };
    Ok(Written { bytes, passed })
}

/// What is said of some bytes in a mode; a number that is no choice of a text is refused before they are looked at.
pub fn said_of_bytes(mode: Mode, function: Function, ins: &[u8]) -> Result<Vec<u8>, Refusal> {
    if matches!(function, Function::Text(choice) if !is_choice(choice)) {
        return Err(Refusal::BadChoice);
    }
    let opcode = decoded(mode, ins)?;
    let mut said = vec![];
    let written = write(function, opcode, &mut said);
    written.expect("a Vec takes every byte");
    Ok(said)
}

/// Writes the original's record, its Display, its Debug, or parts of these two; an error where there is no room for it.
pub fn write(function: Function, opcode: OpCode, to: &mut impl Write) -> io::Result<()> {
    match function {
        Function::Record => to.write_all(&record(opcode)),
        PLAIN_TEXT => write!(to, "{opcode}"),
        FULL_TEXT => write!(to, "{opcode:?}"),
        Function::Text(choice) => write!(to, "{}", chosen(choice, &opcode)),
    }
}
