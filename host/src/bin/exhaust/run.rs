//! Compares what is left of a kind, and prints how far it is and what differs.

use crate::block::BLOCKS;
use crate::kept::Before;
use crate::kind::Kind;
use crate::original::Original;
use crate::pace::Pace;
use crate::progress::Progress;
use crate::search::search;
use crate::tally::{grouped, Tally};
use crate::work::{work, Compared, Queue};
use std::path::Path;
use std::sync::mpsc::{channel, Receiver, RecvTimeoutError, Sender};
use std::{fmt, io, mem, thread};

/// So many differing blocks of a kind are searched and shown; those past them are counted.
const SHOWN: usize = 20;

/// What names the two sides: a word for the archive, and one for the original and the programs that ask it.
pub struct Sides<'a> {
    pub archive: &'a str,
    pub original: &'a str,
}

impl fmt::Display for Sides<'_> {
    fn fmt(&self, f: &mut fmt::Formatter) -> fmt::Result {
        write!(f, "archive {}, original {}", self.archive, self.original)
    }
}

/// A kind, the command that runs the archive's side, and what was found so far.
pub struct Run<'a> {
    kind: Kind,
    archive: &'a [String],
    progress: Progress,
    tally: Tally,
}

impl<'a> Run<'a> {
    /// Goes on where an earlier run with the same two sides stopped, and says so.
    pub fn open(
        kind: Kind,
        archive: &'a [String],
        folder: &Path,
        sides: &Sides,
    ) -> io::Result<Run<'a>> {
        let progress = Progress::open(&folder.join(kind.name), &sides.to_string())?;
        let earlier = BLOCKS - progress.open.len();
        let run = Run {
            kind,
            archive,
            progress,
            tally: Tally {
                earlier,
                ..Tally::default()
            },
        };
        run.print(&match run.progress.before() {
            Before::Nothing => "begins".into(),
            Before::Unfit => "begins anew: its file is torn, or of other sides".into(),
            Before::Fit => format!("goes on: {} blocks were equal before", grouped(earlier)),
        });
        Ok(run)
    }

    /// Compares all blocks that are still open with what the original gives.
    pub fn compare(mut self, original: &Original) -> io::Result<Tally> {
        let queue = Queue::new(mem::take(&mut self.progress.open));
        let (archive, kind) = (self.archive, self.kind);
        let worker = |to: Sender<_>| {
            if let Err(error) = work(archive, kind, original, &queue, &to) {
                // Where nobody listens any more, another error came first.
                let _ = to.send(Err(error));
            }
        };
        thread::scope(|scope| {
            let (to, found) = channel();
            for _ in 0..workers() {
                let to = to.clone();
                scope.spawn(|| worker(to));
            }
            drop(to);
            self.listen(found)
        })?;
        Ok(self.tally)
    }

    /// Takes in what the workers find, until the last of them ends.
    fn listen(&mut self, found: Receiver<io::Result<Compared>>) -> io::Result<()> {
        let mut pace = Pace::start();
        loop {
            match found.recv_timeout(pace.wait()) {
                Ok(compared) => self.take(compared?)?,
                Err(RecvTimeoutError::Timeout) => (),
                Err(RecvTimeoutError::Disconnected) => return Ok(()),
            }
            if let Some(line) = pace.due(&self.tally) {
                self.print(&line);
            }
        }
    }

    fn take(&mut self, compared: Compared) -> io::Result<()> {
        let Compared { block, equal } = compared;
        self.tally.add(equal);
        match equal {
            true => self.progress.mark_equal(block),
            false if self.tally.differing <= SHOWN => self.show(block),
            false => Ok(()),
        }
    }

    /// Searches a differing block, and prints what is found.
    fn show(&self, block: u16) -> io::Result<()> {
        let found = search(self.archive, self.kind, block)?;
        let found = match found {
            Some(difference) => difference.to_string(),
            None => "its hash differs, but no call does when it is made again".into(),
        };
        let block = block.to_be_bytes();
        self.print(&format!("block {block:02X?}: {found}"));
        Ok(())
    }

    fn print(&self, line: &str) {
        println!("exhaust: {}: {line}", self.kind.name);
    }
}

/// One for each core.
fn workers() -> usize {
    thread::available_parallelism().map_or(1, |cores| cores.get())
}
