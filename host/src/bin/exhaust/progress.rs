//! The blocks found equal, kept in a file, so that a run that was stopped goes on.

use crate::block::order;
use crate::kept::{Before, Kept};
use std::io;
use std::path::Path;

/// The marks of a block: still to be compared, or found equal. One that differs stays open, so that a later run shows it again.
const OPEN: u8 = b'.';
const EQUAL: u8 = b'=';

/// A mark for each block, behind a line that names the two sides.
pub struct Progress {
    marks: Kept<1>,
    /// The blocks that were still to be compared at the start, in the order for it.
    pub open: Vec<u16>,
}

impl Progress {
    /// Goes on with a file that is whole and names these sides; any other is made anew.
    pub fn open(path: &Path, sides: &str) -> io::Result<Progress> {
        let is_known = |mark: &[u8; 1]| [OPEN, EQUAL].contains(&mark[0]);
        let marks = Kept::open(path, sides, [OPEN], is_known)?;
        let is_open = |block: &u16| marks.cells[*block as usize] == [OPEN];
        let open = order().filter(is_open).collect();
        Ok(Progress { marks, open })
    }

    pub fn before(&self) -> &Before {
        &self.marks.before
    }

    pub fn mark_equal(&self, block: u16) -> io::Result<()> {
        self.marks.write(block, [EQUAL])
    }
}

#[cfg(test)]
mod tests {
    use super::*;
    use crate::block::BLOCKS;
    use crate::kept::Scratch;
    use std::fs;
    use std::os::unix::fs::symlink;

    fn opened(scratch: &Scratch, sides: &str) -> Progress {
        Progress::open(&scratch.0, sides).unwrap()
    }

    /// Marks these blocks; nothing else is done before the file is opened again, as where the run is killed.
    fn mark(scratch: &Scratch, sides: &str, blocks: &[u16]) {
        let progress = opened(scratch, sides);
        for block in blocks {
            progress.mark_equal(*block).unwrap();
        }
        std::mem::forget(progress);
    }

    /// Whether the file is made anew, and then goes on.
    fn begins_anew(scratch: &Scratch, sides: &str) -> bool {
        let (first, second) = (opened(scratch, sides), opened(scratch, sides));
        let open = [first.open.len(), second.open.len()];
        (first.before(), second.before(), open) == (&Before::Unfit, &Before::Fit, [BLOCKS; 2])
    }

    #[test]
    fn a_new_file_has_all_blocks_open() {
        let progress = opened(&Scratch::new("fresh"), "sides");
        assert_eq!(progress.before(), &Before::Nothing);
        assert!(progress.open.into_iter().eq(order()));
    }

    #[test]
    fn a_stopped_run_goes_on() {
        let scratch = Scratch::new("stopped");
        let equal = [0, 0x1234, 0xFFFF, 0x8000];
        mark(&scratch, "sides", &equal[..2]);
        mark(&scratch, "sides", &equal[2..]);
        let progress = opened(&scratch, "sides");
        assert_eq!(progress.before(), &Before::Fit);
        let expected = order().filter(|block| !equal.contains(block));
        assert!(progress.open.into_iter().eq(expected));
    }

    #[test]
    fn a_run_that_is_done_has_none_open() {
        let scratch = Scratch::new("done");
        mark(&scratch, "sides", &order().collect::<Vec<_>>());
        let progress = opened(&scratch, "sides");
        assert_eq!((progress.before(), progress.open.len()), (&Before::Fit, 0));
    }

    #[test]
    fn other_sides_begin_anew() {
        let scratch = Scratch::new("sides");
        mark(&scratch, "sides", &[7, 8]);
        for other in ["other", "side", "sides2", ""] {
            assert!(begins_anew(&scratch, other), "{other}");
        }
    }

    #[test]
    fn a_torn_file_begins_anew() {
        let scratch = Scratch::new("torn");
        mark(&scratch, "sides", &[7, 8]);
        let whole = fs::read(&scratch.0).unwrap();
        let unknown = [&whole[..1000], b"?", &whole[1001..]].concat();
        let zeros = [&whole[..1000], &vec![0; whole.len() - 1000]].concat();
        let longer = [&whole[..], b"."].concat();
        let cut = [0, 3, 6, 7, 1000, whole.len() - 1].map(|end| whole[..end].to_vec());
        for torn in [unknown, zeros, longer].into_iter().chain(cut) {
            fs::write(&scratch.0, &torn).unwrap();
            assert!(begins_anew(&scratch, "sides"));
        }
    }

    /// A link to itself could be replaced, but what it leads to cannot be read.
    #[test]
    fn a_file_that_cannot_be_read_is_an_error() {
        let scratch = Scratch::new("loop");
        symlink(&scratch.0, &scratch.0).unwrap();
        assert!(Progress::open(&scratch.0, "sides").is_err());
    }
}
