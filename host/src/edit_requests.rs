//! The requests whose answers by the program `edits` are stored: a record that its owner lends to two edits.

use crate::original::edits::{Edit, PLACES};
use crate::original::{Instruction, OpCode, Operand, RegI};
use crate::plain::row_times::RowTimes;
use std::collections::HashSet;

/// Machine cycles of a record, and counts of those put in.
const COUNTS: [u8; 9] = [0, 1, 2, 3, 4, 5, 6, 7, 255];

/// Places to insert or to remove at; the last is refused for every record.
const AT: [u8; 10] = [0, 1, 2, 3, 4, 5, 6, 7, 8, NOWHERE];
const NOWHERE: u8 = 255;

/// T-states of the record, those put in, those pushed: no two the same and none zero, so that an exchange shows.
const HELD: [u8; PLACES] = [0x91, 0xA2, 0xB3, 0xC4, 0xD5, 0xE6];
const MORE: [u8; PLACES] = [0x1A, 0x2B, 0x3C, 0x4D, 0x5E, 0x6F];
const PUSHED: u8 = 0x78;

/// Row times of the record, which no edit alters; they differ, so that an exchange shows.
pub const ROW_TIMES: RowTimes = RowTimes {
    least: 17,
    most: 19,
};

/// Six places, of which the first `count` are filled.
#[derive(PartialEq, Eq, Hash, Clone, Copy)]
struct Timing {
    tstates: [u8; PLACES],
    count: u8,
}

/// What an owner does with the record that it lends twice.
#[derive(PartialEq, Eq, Hash, Clone, Copy)]
enum Owner {
    ExtendPush { pushed: u8 },
    InsertRemove { insert_at: u8, remove_at: u8 },
}

#[derive(PartialEq, Eq, Hash, Clone, Copy)]
pub struct Request {
    owner: Owner,
    held: Timing,
    more: Timing,
}

/// All requests, none twice: on records with zeros behind their filled places, and the same on records with something there.
pub fn requests() -> Vec<Request> {
    let zeros_behind = [
        extends(),
        inserts(),
        removes(),
        removes_behind_an_insert(),
        vec![own_use()],
    ]
    .concat();
    let all_held = zeros_behind.iter().map(Request::with_all_held).collect();
    let mut requests = [zeros_behind, all_held].concat();
    let mut seen = HashSet::new();
    requests.retain(|request| seen.insert(*request));
    requests
}

/// Every count put behind every record, then a push.
fn extends() -> Vec<Request> {
    let mut requests = vec![];
    for m in COUNTS {
        for n in COUNTS {
            requests.push(Request {
                owner: Owner::ExtendPush { pushed: PUSHED },
                held: held(m),
                more: more(n),
            });
        }
    }
    requests
}

/// Every count at every place of every record; the remove is refused, so that what the insert left is seen.
fn inserts() -> Vec<Request> {
    let mut requests = vec![];
    for m in COUNTS {
        for n in COUNTS {
            requests.extend(AT.map(|at| insert_remove(m, n, at, NOWHERE)));
        }
    }
    requests
}

/// Every place of every record, once where the insert alters nothing, twice where it is refused, for room and for place.
fn removes() -> Vec<Request> {
    let mut requests = vec![];
    for m in COUNTS {
        for (n, insert_at) in [(0, 0), (7, 0), (1, NOWHERE)] {
            requests.extend(AT.map(|at| insert_remove(m, n, insert_at, at)));
        }
    }
    requests
}

/// Every insert that puts something in, and behind each every place that is then filled, and the next.
fn removes_behind_an_insert() -> Vec<Request> {
    let mut requests = vec![];
    for filled in 1..=PLACES as u8 {
        for n in 1..=filled {
            let m = filled - n;
            for insert_at in 0..=m {
                requests.extend((0..=filled).map(|at| insert_remove(m, n, insert_at, at)));
            }
        }
    }
    requests
}

/// What the original does to LD (HL), n behind DD: [4,3,5] put in after the first cycle, the sixth taken out.
fn own_use() -> Request {
    Request {
        owner: Owner::InsertRemove {
            insert_at: 1,
            remove_at: 5,
        },
        held: Timing {
            tstates: [4, 3, 3, 0, 0, 0],
            count: 3,
        },
        more: Timing {
            tstates: [4, 3, 5, 0, 0, 0],
            count: 3,
        },
    }
}

fn insert_remove(m: u8, n: u8, insert_at: u8, remove_at: u8) -> Request {
    Request {
        owner: Owner::InsertRemove {
            insert_at,
            remove_at,
        },
        held: held(m),
        more: more(n),
    }
}

/// The T-states of a record of m machine cycles, with zeros behind the filled places.
fn held(m: u8) -> Timing {
    let mut tstates = HELD;
    tstates.iter_mut().skip(m as usize).for_each(|t| *t = 0);
    Timing { tstates, count: m }
}

/// Something to put in, also behind what counts of it.
fn more(n: u8) -> Timing {
    Timing {
        tstates: MORE,
        count: n,
    }
}

impl Timing {
    /// As many T-states as count; behind the sixth they are zeros.
    fn cycles(&self) -> Vec<u8> {
        let mut cycles = self.tstates.to_vec();
        cycles.resize(self.count.into(), 0);
        cycles
    }
}

impl Request {
    /// The same on a record made by hand: six T-states, whatever its count.
    fn with_all_held(&self) -> Request {
        let mut request = *self;
        request.held.tstates = HELD;
        request
    }

    /// The owner's number, the record's T-states and count, those put in and their count, and what the owner takes more.
    pub fn bytes(&self) -> Vec<u8> {
        let (number, last) = match self.owner {
            Owner::ExtendPush { pushed } => (0, [pushed, 0]),
            Owner::InsertRemove {
                insert_at,
                remove_at,
            } => (1, [insert_at, remove_at]),
        };
        let (held, more) = (self.held, self.more);
        let mut bytes = vec![number];
        bytes.extend(held.tstates);
        bytes.push(held.count);
        bytes.extend(more.tstates);
        bytes.push(more.count);
        bytes.extend(last);
        bytes
    }

    /// LD (IX-128), 07 with a third operand, so that every place has something, and with the request's T-states.
    pub fn record(&self) -> OpCode {
        OpCode {
            length: 4,
            ins: Instruction::LD,
            op1: Some(Operand::RegI(RegI::IX(-128))),
            op2: Some(Operand::Imm8(7)),
            op3: Some(Operand::IgnoreIO),
            data: [0xDD, 0x36, 0x80, 0x07],
            tstates: self.held.tstates,
            mcycles: self.held.count,
        }
    }

    /// The owner's two edits, in order.
    pub fn edits(&self) -> [Edit; 2] {
        let more = self.more.cycles();
        match self.owner {
            Owner::ExtendPush { pushed } => [Edit::Extend(more), Edit::Push(pushed)],
            Owner::InsertRemove {
                insert_at,
                remove_at,
            } => [
                Edit::Insert(insert_at.into(), more),
                Edit::Remove(remove_at.into()),
            ],
        }
    }
}

#[cfg(test)]
mod tests {
    use super::*;
    use std::mem;
    use Edit::*;

    #[test]
    fn tstates_differ() {
        let tstates = [&HELD[..], &MORE, &[PUSHED]].concat();
        let different: HashSet<u8> = tstates.iter().copied().collect();
        assert_eq!(different.len(), 13);
        assert!(!different.contains(&0));
    }

    /// Every edit of every request, with the machine cycles of the record that it meets.
    fn met() -> HashSet<(u8, Edit)> {
        let mut met = HashSet::new();
        for request in requests() {
            let mut record = request.record();
            for edit in request.edits() {
                met.insert((record.mcycles, edit.clone()));
                edit.done(&mut record);
            }
        }
        met
    }

    /// Every count and every place, so also the largest that an edit takes and the next.
    #[test]
    fn every_limit_of_every_edit() {
        let met = met();
        let counts = || (0..=7).chain([255]);
        let places = || (0..=8).chain([255]);
        for m in counts() {
            assert!(met.contains(&(m, Push(PUSHED))), "push, {m}");
            for n in counts() {
                let more = more(n).cycles();
                let extend = Extend(more.clone());
                assert!(met.contains(&(m, extend)), "extend, {m}, {n}");
                for at in places() {
                    let insert = Insert(at, more.clone());
                    assert!(met.contains(&(m, insert)), "insert, {m}, {n} at {at}");
                }
            }
            for at in places() {
                assert!(met.contains(&(m, Remove(at))), "remove, {m} at {at}");
            }
        }
    }

    fn stands_behind(record: &OpCode) -> bool {
        let mut behind = record.tstates.iter().skip(record.mcycles.into());
        behind.any(|t| *t != 0)
    }

    /// Every edit is done where something stands behind the filled places and still does so afterwards.
    #[test]
    fn done_before_what_stands_behind() {
        let mut done = HashSet::new();
        for request in requests() {
            let mut record = request.record();
            for edit in request.edits() {
                let before = stands_behind(&record);
                if edit.done(&mut record) && before && stands_behind(&record) {
                    done.insert(mem::discriminant(&edit));
                }
            }
        }
        assert_eq!(done.len(), 4);
    }
}
