//! The proved functions of the archive `libexports.a`, as safe functions: what a host calls. Each answers a number, which
//! `answer::name` names, and takes the mode first, `arguments::RUST` or `arguments::CHIP`.

use crate::arguments::{Map, Place};

mod sys {
    // Nothing holds these lines to crates/exports: each slice there is a pointer and a length here.
    extern "C" {
        pub fn z80_record(
            mode: u8,
            ins: *const u8,
            ins_len: usize,
            out: *mut u8,
            out_len: usize,
            missing: *mut u32,
        ) -> u8;
        pub fn z80_text(
            mode: u8,
            choice: u8,
            ins: *const u8,
            ins_len: usize,
            out: *mut u8,
            out_len: usize,
            count: *mut u32,
            missing: *mut u32,
        ) -> u8;
        pub fn z80_row(
            mode: u8,
            image: *const u8,
            image_len: usize,
            origin: u16,
            address: u16,
            out: *mut u8,
            out_len: usize,
            count: *mut u32,
            passed: *mut u32,
        ) -> u8;
        pub fn z80_map_check(
            mode: u8,
            image: *const u8,
            image_len: usize,
            origin: u16,
            marks: *const u8,
            marks_len: usize,
            entries: *const u8,
            entries_len: usize,
            address: *mut u32,
        ) -> u8;
    }
}

// What is lent is apart and alive by its type, which is all that the functions ask of a caller.

/// The record of `ins`, the empty one where it is refused, at the front of `out`, in `missing` how many bytes a Short one lacks at
/// least, else 0, and the answer number.
pub fn z80_record(mode: u8, ins: &[u8], out: &mut [u8], missing: &mut u32) -> u8 {
    let (to, room) = (out.as_mut_ptr(), out.len());
    unsafe { sys::z80_record(mode, ins.as_ptr(), ins.len(), to, room, missing) }
}

/// The chosen parts of the text of `ins`, `arguments::BYTES` and the like added up, at the front of `out`, their length in
/// `count`, `missing` as above, and the answer number.
pub fn z80_text(
    mode: u8,
    choice: u8,
    ins: &[u8],
    out: &mut [u8],
    count: &mut u32,
    missing: &mut u32,
) -> u8 {
    let (from, length) = (ins.as_ptr(), ins.len());
    let (to, room) = (out.as_mut_ptr(), out.len());
    unsafe { sys::z80_text(mode, choice, from, length, to, room, count, missing) }
}

/// The line at a place at the front of `out`, its length in `count`, the bytes passed in `passed`, and the answer number.
pub fn z80_row(mode: u8, place: &Place, out: &mut [u8], count: &mut u32, passed: &mut u32) -> u8 {
    let Place {
        image,
        origin,
        address,
    } = *place;
    let (to, room) = (out.as_mut_ptr(), out.len());
    unsafe {
        sys::z80_row(
            mode,
            image.as_ptr(),
            image.len(),
            origin,
            address,
            to,
            room,
            count,
            passed,
        )
    }
}

/// Whether a map keeps the marking rules: the number, and in `address` where that holds.
pub fn z80_map_check(mode: u8, map: &Map, address: &mut u32) -> u8 {
    let Map {
        image,
        origin,
        marks,
        entries,
    } = *map;
    unsafe {
        sys::z80_map_check(
            mode,
            image.as_ptr(),
            image.len(),
            origin,
            marks.as_ptr(),
            marks.len(),
            entries.as_ptr(),
            entries.len(),
            address,
        )
    }
}
