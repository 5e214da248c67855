//! The four edits of a record's T-state list: refused by document 01's rule, or done by the original's own methods. Those
//! are private to it, so this module stands inside it.

use super::OpCode;
use Edit::*;

/// The places of a T-state list.
pub const PLACES: usize = 6;

/// An edit, with the place that it names and the T-states that it puts in.
#[derive(Debug, PartialEq, Eq, Hash, Clone)]
pub enum Edit {
    Push(u8),
    Extend(Vec<u8>),
    Insert(usize, Vec<u8>),
    Remove(usize),
}

impl Edit {
    /// Says yes once the original has altered the record; where the rule refuses, says no and alters nothing.
    pub fn done(&self, record: &mut OpCode) -> bool {
        let allowed = self.is_allowed(record.mcycles as usize);
        if allowed {
            self.done_by_original(record);
        }
        allowed
    }

    /// The rule, for a record of m machine cycles: m at most six, room for what is put in, a place from 0 to m for insert and
    /// to m-1 for remove.
    fn is_allowed(&self, m: usize) -> bool {
        m <= PLACES
            && match self {
                Push(_) => m < PLACES,
                Extend(more) => m + more.len() <= PLACES,
                Insert(at, more) => *at <= m && m + more.len() <= PLACES,
                Remove(at) => *at < m,
            }
    }

    /// The original's method, which panics or does something else where the rule refuses.
    pub fn done_by_original(&self, record: &mut OpCode) {
        match self {
            Push(t) => record.tstates_push(*t),
            Extend(more) => record.tstates_extend_from_slice(more),
            Insert(at, more) => record.tstates_insert(*at, more),
            Remove(at) => record.tstates_remove(*at),
        }
    }
}

#[cfg(test)]
mod tests {
    use super::super::disas;
    use super::*;

    /// A decoded row with other machine cycles.
    fn timed(cycles: &[u8]) -> OpCode {
        let mut record = disas(&[0x00]).unwrap();
        record.tstates = [0; PLACES];
        record.tstates[..cycles.len()].copy_from_slice(cycles);
        record.mcycles = cycles.len() as u8;
        record
    }

    /// What some edits in turn answer, and whether they leave what is expected.
    fn check(cycles: &[u8], edits: &[Edit], answers: &[bool], left: &[u8]) {
        let mut record = timed(cycles);
        let said: Vec<bool> = edits.iter().map(|edit| edit.done(&mut record)).collect();
        assert_eq!(said, answers, "{edits:?}");
        assert!(record == timed(left), "{edits:?} left {record}");
    }

    /// As the original decodes LD HL, nn and INC HL, and makes LD (IX+d), n and INC IX of the rows behind the prefix.
    #[test]
    fn uses_of_the_original() {
        check(&[], &[Extend(vec![4, 3, 3])], &[true], &[4, 3, 3]);
        check(&[], &[Push(6)], &[true], &[6]);
        let index = [Insert(1, vec![4, 3, 5]), Remove(5)];
        check(&[4, 3, 3], &index, &[true, true], &[4, 4, 3, 5, 3]);
        check(&[6], &[Insert(1, vec![4])], &[true], &[6, 4]);
    }

    /// A full list, a place past the filled ones; then the same where it just fits.
    #[test]
    fn limits() {
        let five = [4, 4, 3, 5, 3];
        let six = [4, 4, 3, 5, 3, 9];
        check(&five, &[Push(9), Push(9)], &[true, false], &six);
        check(&five, &[Extend(vec![9, 9])], &[false], &five);
        check(&five, &[Insert(5, vec![9, 9])], &[false], &five);
        let past = [Insert(6, vec![9]), Insert(5, vec![9])];
        check(&five, &past, &[false, true], &six);
        check(&six, &[Remove(6), Remove(5)], &[false, true], &five);
    }

    /// What two filled places and four others become: over them, before them, and one place up with the sixth kept.
    #[test]
    fn behind_the_filled_places() {
        for (edit, places, count) in [
            (Push(9), [4, 3, 9, 11, 12, 13], 3),
            (Extend(vec![8, 9]), [4, 3, 8, 9, 12, 13], 4),
            (Insert(1, vec![8, 9]), [4, 8, 9, 3, 10, 11], 4),
            (Remove(0), [3, 0, 11, 12, 13, 13], 1),
        ] {
            let mut record = timed(&[4, 3, 10, 11, 12, 13]);
            record.mcycles = 2;
            assert!(edit.done(&mut record));
            assert_eq!(
                (record.tstates, record.mcycles),
                (places, count),
                "{edit:?}"
            );
        }
    }

    /// What stands in docs/DIFFERENCES.md as the original's own: behind a gap, and the last cycle out instead.
    #[test]
    fn original_past_the_filled_places() {
        let mut record = timed(&[4, 3]);
        Insert(3, vec![5]).done_by_original(&mut record);
        assert_eq!((record.tstates, record.mcycles), ([4, 3, 0, 5, 0, 0], 3));
        let mut record = timed(&[4, 3]);
        Remove(2).done_by_original(&mut record);
        assert!(record == timed(&[4]));
    }
}
