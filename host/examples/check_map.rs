//! check_map IMAGE MARKS ENTRIES: checks a code map at origin 0 with the proved function, in the Rust's mode.

use host::answer::name;
use host::arguments::{Map, RUST};
use host::exported::z80_map_check;
use std::{env, fs, io};

fn main() -> io::Result<()> {
    let files: io::Result<Vec<Vec<u8>>> = env::args().skip(1).map(fs::read).collect();
    let [image, marks, entries] = &files?[..] else {
        return Err(io::Error::other("usage: check_map IMAGE MARKS ENTRIES"));
    };
    let map = Map {
        image,
        origin: 0,
        marks,
        entries,
    };
    let mut address = 0;
    match z80_map_check(RUST, &map, &mut address) {
        0 => println!("every walk from the entries stays on starts"),
        number => println!("{} at {address:04X}", name(number as usize).unwrap()),
    }
    Ok(())
}
