//! The chip's mode held to an outside opinion: what the emulator z80ex fetched and took for every code of every page
//! (host/outside/z80ex.txt, made by host/outside/make).

use host::original::OpCode;
use host::pages::{ED_BEHIND, PAGES};
use host::plain::row_times::{row_times, RowTimes};
use host::plain::{decoded, Mode, LARGEST_INPUT};

const LINES: &str = include_str!("../outside/z80ex.txt");

/// One instruction of the emulator with its prefixes: its bytes, how many of them were fetched, and the T-states of its steps
/// where it took the fewest and where it took the most. A prefix is a step.
struct Executed {
    bytes: Vec<u8>,
    fetched: usize,
    least: Vec<u8>,
    most: Vec<u8>,
}

fn read(line: &str) -> Executed {
    let (bytes, figures) = line.split_once(" = ").unwrap();
    let bytes = bytes.split(' ');
    let figures: Vec<&str> = figures.split(' ').collect();
    let [fetched, least, most] = figures[..] else {
        panic!("{line}");
    };
    let steps = |steps: &str| steps.split('+').map(|step| step.parse().unwrap()).collect();
    Executed {
        bytes: bytes
            .map(|byte| u8::from_str_radix(byte, 16).unwrap())
            .collect(),
        fetched: fetched.parse().unwrap(),
        least: steps(least),
        most: steps(most),
    }
}

fn executed() -> Vec<Executed> {
    let lines = LINES.lines().filter(|line| !line.starts_with('#'));
    lines.map(read).collect()
}

/// The rows of a mode from the first of the bytes on, zeros behind them, until those that were fetched are passed.
fn rows(mode: Mode, executed: &Executed) -> Vec<OpCode> {
    let image = [&executed.bytes[..], &[0; 8]].concat();
    let (mut rows, mut at) = (vec![], 0);
    while at < executed.fetched {
        let row = decoded(mode, &image[at..at + LARGEST_INPUT]).unwrap();
        at += row.length as usize;
        rows.push(row);
    }
    rows
}

/// The one kind of difference: where a DD or FD changes nothing the emulator takes it for a step of the instruction behind it, and
/// the chip's mode for a row of its own. So many stand before the row.
fn idle_prefixes(rows: &[OpCode]) -> usize {
    let prefixes = rows
        .iter()
        .take_while(|row| matches!(row.data[0], 0xDD | 0xFD));
    prefixes.filter(|row| row.length == 1).count()
}

/// Whether the rows are one row behind such prefixes, with the bytes that were fetched and the T-states that they took, prefix by
/// prefix.
fn agree(rows: &[OpCode], executed: &Executed) -> bool {
    let bytes: usize = rows.iter().map(|row| row.length as usize).sum();
    let times = rows.iter().map(row_times);
    let (least, most) = times.fold((0, 0), |(low, high), times| {
        let RowTimes { least, most } = times;
        (low + least, high + most)
    });
    let cycles = rows
        .iter()
        .flat_map(|row| &row.tstates[..row.mcycles as usize]);
    let prefixes = &executed.most[..executed.most.len() - 1];
    rows.len() == idle_prefixes(rows) + 1
        && bytes == executed.fetched
        && least == executed.least.iter().sum()
        && most == executed.most.iter().sum()
        && cycles.zip(prefixes).all(|(cycle, step)| cycle == step)
}

#[test]
fn every_code_of_every_page() {
    let executed = executed();
    assert_eq!(executed.len(), 256 * (PAGES.len() + ED_BEHIND.len()));
    for (k, executed) in executed.iter().enumerate() {
        assert_eq!(executed.bytes.last(), Some(&(k as u8)));
        let rows = rows(Mode::Chip, executed);
        assert!(agree(&rows, executed), "{:02X?} {rows:?}", executed.bytes);
    }
}

/// By page: how many codes stand behind a prefix that the emulator takes for a part of them. On the plain page it is DD and FD
/// themselves with a zero behind, on the pages of these all but 86 codes, and every one behind DD ED and FD ED.
#[test]
fn prefixes_that_are_rows() {
    let executed = executed();
    let pages = executed.chunks(256);
    let idle = pages.map(|page| {
        let rows = page.iter().map(|executed| rows(Mode::Chip, executed));
        rows.filter(|rows| idle_prefixes(rows) > 0).count()
    });
    assert_eq!(
        idle.collect::<Vec<_>>(),
        [2, 0, 0, 170, 170, 0, 0, 256, 256]
    );
}

/// By page: how many codes the Rust's mode reads otherwise than the emulator, as document 01 says. The 178 undefined ED codes; on
/// the pages of DD and FD the four rows of another order, and prefixes that keep more than their own four T-states or read on into
/// ED; behind DD ED and FD ED all but those whose figures come to the same.
#[test]
fn rust_mode_departs() {
    let executed = executed();
    let pages = executed.chunks(256);
    let departing = pages.map(|page| {
        let agree = |executed: &&Executed| agree(&rows(Mode::Rust, executed), executed);
        page.len() - page.iter().filter(agree).count()
    });
    assert_eq!(
        departing.collect::<Vec<_>>(),
        [1, 0, 178, 82, 82, 0, 0, 236, 236]
    );
}
