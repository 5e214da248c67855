//! The stored edits held to plain lists, and what the original does where document 01 has an edit refused.

use host::edit_requests::requests;
use host::edit_rows::rows;
use host::original::edits::Edit::{self, *};
use host::original::OpCode;
use std::collections::HashSet;
use std::panic;

#[test]
fn no_row_twice() {
    let rows = rows();
    let requests: HashSet<&[u8]> = rows.iter().map(|row| &row.request[..]).collect();
    assert_eq!((rows.len(), requests.len()), (2536, 2536));
    assert!(rows.iter().all(|row| row.request.len() == 17));
}

/// The first edit of a request on six places, of which m are filled: extend, over what stands behind them, or insert, before
/// what stands at its place. What is left of the six, and how many are then filled.
fn first(asked: &[u8], mut places: Vec<u8>, m: usize) -> Option<(Vec<u8>, usize)> {
    let more = asked[8..14].get(..asked[14] as usize)?;
    let (at, over) = match asked[0] {
        0 => (m, more.len()),
        _ => (asked[15] as usize, 0),
    };
    if m < at || 6 < m + more.len() {
        return None;
    }
    places.splice(at..at + over, more.iter().copied());
    places.truncate(6);
    Some((places, m + more.len()))
}

/// The second one: push, over the place behind the filled ones, or remove, where the last place is kept and the one that is
/// filled no more is zero.
fn second(asked: &[u8], mut places: Vec<u8>, m: usize) -> Option<(Vec<u8>, usize)> {
    if asked[0] == 0 {
        *places.get_mut(m)? = asked[15];
        return Some((places, m + 1));
    }
    let at = asked[16] as usize;
    if m <= at {
        return None;
    }
    places.remove(at);
    places.extend_from_within(4..);
    places[m - 1] = 0;
    Some((places, m - 1))
}

fn pairs(bytes: &[u8]) -> String {
    bytes.iter().map(|byte| format!("{byte:02X} ")).collect()
}

/// A request's line by plain lists: an edit says no where more than six places are filled, or would be, and at a place past
/// the filled ones.
fn plain_line(asked: &[u8]) -> String {
    let (mut places, mut m) = (asked[1..7].to_vec(), asked[7] as usize);
    let answers = [first, second].map(|edit| {
        let edited = (m <= 6).then(|| edit(asked, places.clone(), m));
        let Some(left) = edited.flatten() else {
            return 0;
        };
        (places, m) = left;
        1
    });
    let [one, two] = answers;
    let fixed = "04 1D 06 80 00 01 07 00 0C 00 00 DD 36 80 07";
    let (asked, places) = (pairs(asked), pairs(&places));
    format!("{asked}= {one} {two} {fixed} {places}{m:02X} 11 13\n")
}

/// So the original panics nowhere that the rule allows.
#[test]
fn lines_by_plain_lists() {
    for row in rows() {
        let line = String::from_utf8(row.line).unwrap();
        assert_eq!(line, plain_line(&row.request));
    }
}

/// Every refused edit, with the record that it meets.
fn refused() -> Vec<(Edit, OpCode)> {
    let mut refused = vec![];
    for request in requests() {
        let mut record = request.record();
        for edit in request.edits() {
            if !edit.done(&mut record) {
                refused.push((edit, record.clone()));
            }
        }
    }
    refused
}

/// What the original makes of each record, or None where it panics; its panics are not printed.
fn tried(edits: &[(Edit, OpCode)]) -> Vec<Option<OpCode>> {
    let tried_once = |(edit, record): &(Edit, OpCode)| {
        let mut record = record.clone();
        let done = panic::catch_unwind(move || {
            edit.done_by_original(&mut record);
            record
        });
        done.ok()
    };
    let usual = panic::take_hook();
    panic::set_hook(Box::new(|_| ()));
    let left = edits.iter().map(tried_once).collect();
    panic::set_hook(usual);
    left
}

/// Refused and yet no panic: an insert past the filled places of what ends within the six, and a remove at one of the six
/// past the filled ones, where one is filled.
fn goes_on(edit: &Edit, m: usize) -> bool {
    match edit {
        Push(_) | Extend(_) => false,
        Insert(at, more) => m < *at && at + more.len() <= 6,
        Remove(at) => 0 < m && m <= *at && *at < 6,
    }
}

/// The same in debug builds: what wraps round in release builds is too large for the index or range that comes next.
#[test]
fn original_where_the_rule_refuses() {
    let refused = refused();
    let (mut panics, mut unaltered, mut gaps, mut cycles_lost) = (0, 0, 0, 0);
    for ((edit, record), left) in refused.iter().zip(tried(&refused)) {
        let m = record.mcycles as usize;
        assert_eq!(left.is_some(), goes_on(edit, m), "{edit:?} {record}");
        let Some(left) = left else {
            panics += 1;
            continue;
        };
        match edit {
            Insert(_, more) if more.is_empty() => {
                assert_eq!(left, *record, "{edit:?}");
                unaltered += 1;
            }
            Insert(at, more) => {
                assert_eq!(left.tstates[..*at], record.tstates[..*at], "{edit:?}");
                assert!(left.tstates[*at..].starts_with(more), "{edit:?}");
                gaps += 1;
            }
            _ => {
                assert_eq!((left.mcycles as usize, left.tstates[m - 1]), (m - 1, 0));
                cycles_lost += 1;
            }
        }
    }
    let counts = [panics, unaltered, gaps, cycles_lost];
    assert_eq!((refused.len(), counts), (3355, [3083, 42, 70, 160]));
}
