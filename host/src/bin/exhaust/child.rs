//! The archive's side, host/blocks.c, in a child process.

use crate::block::{first, INPUTS};
use crate::kind::Kind;
use crate::left::Left;
use host::piped::Piped;
use std::io::{self, Write};
use std::process::ChildStdin;

/// What is wanted of the calls, by the numbers of host/blocks.c.
enum Wanted {
    Hash = 0,
    All = 1,
}

pub struct Archive {
    program: Piped,
    requests: ChildStdin,
    kind: Kind,
}

impl Archive {
    /// The words are the command that runs the program; the kind is what it is asked for.
    pub fn start(words: &[String], kind: Kind) -> io::Result<Archive> {
        let (program, requests) = Piped::start(words)?;
        Ok(Archive {
            program,
            requests,
            kind,
        })
    }

    /// Asks for the hash of a block, which the next `hash` not yet read gives.
    pub fn ask_hash(&mut self, block: u16) -> io::Result<()> {
        self.ask(Wanted::Hash, block)
    }

    pub fn hash(&mut self) -> io::Result<u64> {
        Ok(u64::from_le_bytes(self.program.read()?))
    }

    /// Asks for what each call of a block leaves, to be read one by one by `left`.
    pub fn ask_all(&mut self, block: u16) -> io::Result<()> {
        self.ask(Wanted::All, block)
    }

    pub fn left(&mut self) -> io::Result<Left> {
        Ok(Left {
            number: u32::from_le_bytes(self.program.read()?),
            count: u32::from_le_bytes(self.program.read()?),
            missing: u32::from_le_bytes(self.program.read()?),
            lent: self.program.read()?,
        })
    }

    /// What is wanted, mode, function, first input, how many: four bytes each, low byte first.
    fn ask(&mut self, wanted: Wanted, block: u16) -> io::Result<()> {
        let numbers = [
            wanted as u32,
            self.kind.mode as u32,
            self.kind.function.number().into(),
            first(block),
            INPUTS as u32,
        ];
        self.requests
            .write_all(numbers.map(u32::to_le_bytes).as_flattened())
    }

    /// All that was asked for has been read.
    pub fn finish(self) -> io::Result<()> {
        drop(self.requests);
        self.program.finish()
    }
}
