//! A program in a child process that answers requests on its standard input.

use std::io::{self, BufReader, BufWriter, Read, Write};
use std::process::{Child, ChildStdin, ChildStdout, Command, Stdio};
use std::thread;

/// The program, and what it writes.
pub struct Piped {
    child: Child,
    written: BufReader<ChildStdout>,
}

impl Piped {
    /// Starts the program that the words name; with it the end that requests go to.
    pub fn start(words: &[String]) -> io::Result<(Piped, ChildStdin)> {
        let (program, rest) = words
            .split_first()
            .ok_or(io::Error::other("no command to run"))?;
        let mut command = Command::new(program);
        command
            .args(rest)
            .stdin(Stdio::piped())
            .stdout(Stdio::piped());
        let mut child = command.spawn()?;
        let requests = child.stdin.take().expect("piped");
        let written = child.stdout.take().expect("piped");
        let written = BufReader::with_capacity(1 << 16, written);
        Ok((Piped { child, written }, requests))
    }

    /// Starts the program and has a thread write all requests, so that neither side waits on a full pipe.
    pub fn asked<R>(
        words: &[String],
        requests: impl FnOnce() -> R + Send + 'static,
    ) -> io::Result<Piped>
    where
        R: Iterator<Item = Vec<u8>>,
    {
        let (program, to) = Piped::start(words)?;
        thread::spawn(|| ask(to, requests()));
        Ok(program)
    }

    /// The next bytes that it writes.
    pub fn read<const N: usize>(&mut self) -> io::Result<[u8; N]> {
        let mut bytes = [0; N];
        let read = self.written.read_exact(&mut bytes);
        read.map_err(|error| failed(&format!("gave no answer: {error}")))?;
        Ok(bytes)
    }

    /// The program has no more to say and ended well, its requests being closed.
    pub fn finish(mut self) -> io::Result<()> {
        let left = self.written.read(&mut [0])?;
        match self.child.wait()?.success() && left == 0 {
            true => Ok(()),
            false => Err(failed("did not end as it should")),
        }
    }
}

fn ask(to: ChildStdin, requests: impl Iterator<Item = Vec<u8>>) -> io::Result<()> {
    let mut to = BufWriter::new(to);
    for request in requests {
        to.write_all(&request)?;
    }
    to.flush()
}

fn failed(how: &str) -> io::Error {
    io::Error::other(format!("the child process {how}"))
}
