//! The program `replay_staged`, which runs the stages: what it is asked, and what the original has it write.

use crate::answer::RECORD_SIZE;
use crate::arguments::RUST;
use crate::asked::Asked;
use crate::calls::Inputs;
use crate::function::Function::Record;
use crate::input_runs::{behind, behind_prefix, long, up_to_four};
use crate::inputs;
use crate::outcome::{expected, Call, Lent, Outcome, LOOKED_AT};
use crate::plain::said::said;
use crate::stored::{distinct, padded, Row};

/// The answer's number, the fewest missing bytes and the record.
pub const OUTCOME_SIZE: usize = 2 + RECORD_SIZE;

/// What stands before a free byte in the stored requests: nothing, DD CB with a displacement, and as much as there can be.
const BEFORE_FREE: [&[u8]; 3] = [&[], &[0xDD, 0xCB, 0x80], &[0x00; 5]];

/// What is held to the original, in runs under a name; where all is asked for, every four bytes behind DD and FD too.
pub fn runs(all: bool) -> Vec<(&'static str, Vec<Inputs>)> {
    let mut runs = up_to_four();
    if all {
        runs.extend(behind_prefix());
    }
    let runs = runs.into_iter().map(|run| (run.name, run.inputs));
    runs.chain([("5 to 7 bytes", too_long())]).collect()
}

/// Every first byte with four bytes behind it, then with every fifth, and one of them with every two more.
fn too_long() -> Vec<Inputs> {
    let five = long(&[5]);
    let one = five[..1].to_vec();
    let parts = [(0, five.clone()), (1, five), (2, one)];
    let parts = parts.map(|(free, rows)| behind(Record, free, rows));
    parts.into_iter().flatten().collect()
}

/// The stored rows, none twice: the inputs of the stored records, then some with a free byte.
pub fn rows() -> Vec<Row> {
    let records = behind(Record, 0, inputs::of_records());
    let free = behind(Record, 1, BEFORE_FREE.map(<[u8]>::to_vec).into());
    let rows = records.iter().chain(&free).map(|inputs| Row {
        request: request(inputs),
        line: inputs.asked().flat_map(|asked| written(&asked)).collect(),
    });
    distinct(rows.collect())
}

/// The counts of free and fixed bytes, and those.
pub fn request(inputs: &Inputs) -> Vec<u8> {
    let Inputs { free, fixed, .. } = inputs;
    [&[*free, fixed.len() as u8], &padded(fixed)[..]].concat()
}

/// An input as a call of `z80_record` in just the room for a record.
pub fn call<'a>(asked: &'a Asked) -> Call<'a> {
    Call {
        mode: RUST,
        asked,
        room: RECORD_SIZE,
        before: lent(0, &[0; RECORD_SIZE]),
    }
}

/// What the program writes for an input, read as the outcome of its call.
pub fn outcome([number, missing, record @ ..]: [u8; OUTCOME_SIZE]) -> Outcome {
    Outcome {
        number,
        lent: lent(missing, &record),
        map_altered: false,
    }
}

/// What the original has it write.
fn written(asked: &Asked) -> Vec<u8> {
    let Outcome { number, lent, .. } = expected(&call(asked), &said(RUST, asked));
    let numbers = [number, lent.missing as u8];
    [&numbers, &lent.buffer[..RECORD_SIZE]].concat()
}

fn lent(missing: u8, record: &[u8; RECORD_SIZE]) -> Lent {
    let mut buffer = [0; LOOKED_AT];
    buffer[..RECORD_SIZE].copy_from_slice(record);
    Lent {
        count: 0,
        passed: 0,
        address: 0,
        missing: missing.into(),
        buffer,
    }
}

#[cfg(test)]
mod tests {
    use super::*;
    use crate::outcome::difference;

    #[test]
    fn requests_by_hand() {
        let rows = vec![vec![], vec![0xDD, 0xCB], vec![1, 2, 3, 4, 5]];
        let requests: Vec<_> = behind(Record, 2, rows).iter().map(request).collect();
        let by_hand = [
            [2, 0, 0, 0, 0, 0, 0],
            [2, 2, 0xDD, 0xCB, 0, 0, 0],
            [2, 5, 1, 2, 3, 4, 5],
        ];
        assert_eq!(requests, by_hand);
    }

    #[test]
    fn outcomes_by_hand() {
        let jump = [
            0, 0, 2, 28, 11, 0, 0, 3, 0x82, 0xFF, 0, 0, 0, 0x20, 0x80, 0, 0, 4, 3, 5, 0, 0, 0, 3,
            7, 12,
        ];
        let refused = |number, missing| {
            let mut outcome = [0; OUTCOME_SIZE];
            (outcome[0], outcome[1], outcome[3]) = (number, missing, 35);
            outcome
        };
        let cases: [(&[u8], _); 5] = [
            (&[0x20, 0x80], jump),
            (&[], refused(1, 0)),
            (&[0xDD], refused(2, 3)),
            (&[0xDD, 0x23, 0x00], refused(2, 1)),
            (&[0x00; 5], refused(3, 0)),
        ];
        for (ins, by_hand) in cases {
            let asked = Asked::Bytes(Record, ins.to_vec());
            assert_eq!(written(&asked), by_hand, "{ins:02X?}");
            assert!(!is_seen(&asked, by_hand));
            for place in 0..OUTCOME_SIZE {
                let mut damaged = by_hand;
                damaged[place] ^= 1;
                assert!(is_seen(&asked, damaged), "{ins:02X?}, {place}");
            }
        }
    }

    /// Whether what the program wrote is told from what the original says.
    fn is_seen(asked: &Asked, written: [u8; OUTCOME_SIZE]) -> bool {
        let call = call(asked);
        let expected = expected(&call, &said(RUST, asked));
        difference(&call, expected, outcome(written)).is_some()
    }

    /// A request has room for five fixed bytes.
    #[test]
    fn runs_fit_requests() {
        for (name, run) in runs(true) {
            let fits = |inputs: &Inputs| inputs.free <= 2 && inputs.fixed.len() <= 5;
            assert!(run.iter().all(fits), "{name}");
        }
    }
}
