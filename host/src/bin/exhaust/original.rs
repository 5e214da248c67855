//! The original's hashes, kept in a file: held to another archive they need not be worked out again.

use crate::block::by_original;
use crate::kept::Kept;
use crate::kind::Kind;
use std::io;
use std::path::Path;

/// A cell that has no hash yet. A hash that is zero would be worked out anew each time.
const UNKNOWN: [u8; 8] = [0; 8];

pub struct Original {
    kind: Kind,
    hashes: Kept<8>,
}

impl Original {
    /// Goes on with a kind's file in the folder that is whole and names this original; any other is made anew.
    pub fn open(folder: &Path, original: &str, kind: Kind) -> io::Result<Original> {
        let path = folder.join(format!("{}_of_original", kind.name));
        Original::in_file(&path, original, kind)
    }

    fn in_file(path: &Path, original: &str, kind: Kind) -> io::Result<Original> {
        let hashes = Kept::open(path, original, UNKNOWN, |_| true)?;
        Ok(Original { kind, hashes })
    }

    /// Whether this is the hash of a block. What is kept can only say yes: where it does not, the original is asked.
    pub fn gives(&self, block: u16, hash: u64) -> io::Result<bool> {
        let kept = self.hashes.cells[block as usize];
        if kept != UNKNOWN && kept == hash.to_le_bytes() {
            return Ok(true);
        }
        let right = by_original(self.kind, block);
        self.hashes.write(block, right.to_le_bytes())?;
        Ok(hash == right)
    }
}

#[cfg(test)]
mod tests {
    use super::*;
    use crate::kept::Scratch;
    use crate::kind::RECORDS;

    const BLOCK: u16 = 0xDD36;

    fn opened(scratch: &Scratch, original: &str) -> Original {
        Original::in_file(&scratch.0, original, RECORDS).unwrap()
    }

    fn kept(scratch: &Scratch, original: &str) -> [u8; 8] {
        opened(scratch, original).hashes.cells[BLOCK as usize]
    }

    /// The right hash and no other is taken, kept or not; what is kept is the right one, whatever was asked for.
    #[test]
    fn right_hashes_alone() {
        let scratch = Scratch::new("hashes");
        let right = by_original(RECORDS, BLOCK);
        for _ in 0..2 {
            let original = opened(&scratch, "original");
            assert!(!original.gives(BLOCK, right ^ 1).unwrap());
            assert!(original.gives(BLOCK, right).unwrap());
            assert_eq!(kept(&scratch, "original"), right.to_le_bytes());
        }
    }

    /// A wrong hash that is kept is put right, and does not make the right one differ.
    #[test]
    fn a_wrong_one_is_put_right() {
        let scratch = Scratch::new("wrong");
        let right = by_original(RECORDS, BLOCK);
        let original = opened(&scratch, "original");
        let wrong = (right ^ 1).to_le_bytes();
        original.hashes.write(BLOCK, wrong).unwrap();
        assert!(opened(&scratch, "original").gives(BLOCK, right).unwrap());
        assert_eq!(kept(&scratch, "original"), right.to_le_bytes());
    }

    #[test]
    fn another_original_has_none() {
        let scratch = Scratch::new("another");
        let right = by_original(RECORDS, BLOCK);
        assert!(opened(&scratch, "original").gives(BLOCK, right).unwrap());
        assert_eq!(kept(&scratch, "another"), UNKNOWN);
    }
}
