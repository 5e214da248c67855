//! The workers: each holds blocks of its archive to the original.

use crate::child::Archive;
use crate::kind::Kind;
use crate::original::Original;
use std::io;
use std::sync::atomic::{AtomicUsize, Ordering};
use std::sync::mpsc::Sender;

/// Blocks to be compared, taken one by one.
pub struct Queue {
    blocks: Vec<u16>,
    taken: AtomicUsize,
}

impl Queue {
    pub fn new(blocks: Vec<u16>) -> Queue {
        let taken = AtomicUsize::new(0);
        Queue { blocks, taken }
    }

    fn take(&self) -> Option<u16> {
        let next = self.taken.fetch_add(1, Ordering::Relaxed);
        self.blocks.get(next).copied()
    }
}

/// What a block came to.
pub struct Compared {
    pub block: u16,
    pub equal: bool,
}

/// Compares blocks until there are none, or nobody listens any more.
pub fn work(
    words: &[String],
    kind: Kind,
    original: &Original,
    queue: &Queue,
    to: &Sender<io::Result<Compared>>,
) -> io::Result<()> {
    let mut archive = Archive::start(words, kind)?;
    let mut next = asked(queue, &mut archive)?;
    while let Some(block) = next {
        let failed = |error| at(block, error);
        // One block ahead, so that the child works on while the original is asked, and while the answer goes round.
        next = asked(queue, &mut archive).map_err(failed)?;
        let hash = archive.hash().map_err(failed)?;
        let equal = original.gives(block, hash).map_err(failed)?;
        if to.send(Ok(Compared { block, equal })).is_err() {
            return Ok(());
        }
    }
    archive.finish()
}

/// The same error with its block: all before it were answered.
fn at(block: u16, error: io::Error) -> io::Error {
    let block = block.to_be_bytes();
    io::Error::other(format!("block {block:02X?}: {error}"))
}

/// The next block, which the archive is asked for.
fn asked(queue: &Queue, archive: &mut Archive) -> io::Result<Option<u16>> {
    let block = queue.take();
    if let Some(block) = block {
        archive.ask_hash(block)?;
    }
    Ok(block)
}

#[cfg(test)]
mod tests {
    use super::*;

    #[test]
    fn each_block_is_taken_once() {
        let queue = Queue::new(vec![5, 3, 9]);
        let taken = [0; 5].map(|_| queue.take());
        assert_eq!(taken, [Some(5), Some(3), Some(9), None, None]);
    }
}
