//! The stored rows of the program `edits`: what the original's edits leave of the records lent to them.

use crate::edit_requests::{requests, Request, ROW_TIMES};
use crate::plain::record::timed_record;
use crate::stored::Row;
use std::fmt::Write;

pub fn rows() -> Vec<Row> {
    requests().iter().map(row).collect()
}

/// The line: the request's bytes, the answer of each edit, the record as they left it.
fn row(asked: &Request) -> Row {
    let request = asked.bytes();
    let mut left = asked.record();
    let [first, second] = asked.edits().map(|edit| edit.done(&mut left) as u8);
    let pairs: String = request.iter().map(|byte| format!("{byte:02X} ")).collect();
    let mut line = format!("{pairs}= {first} {second}");
    for byte in timed_record(left, ROW_TIMES) {
        write!(line, " {byte:02X}").unwrap();
    }
    line.push('\n');
    Row {
        request,
        line: line.into_bytes(),
    }
}
