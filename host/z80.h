// The proved functions of libexports.a, for C and C++. `host/make exports` writes the archive to target/staticlib, for x86-64:
//     cc -Ihost yours.c target/staticlib/libexports.a
// A pointer and the length behind it are one part of memory that is lent. No part that is written to may overlap another; one of
// length 0 may be a null pointer. Nothing is kept beyond a call.
#ifndef Z80_H
#define Z80_H

#include <stddef.h>
#include <stdint.h>

#ifdef __cplusplus
extern "C" {
#endif

// What a function answers: the numbers of docs/01-scope.md and docs/02-change-requests.md. From Z80_IMAGE_SIZE to Z80_BAD_NEXT
// they are of maps; z80_row has the first of these too.
enum {
    Z80_DONE = 0,
    Z80_NOTHING = 1,          // no bytes; for z80_row an address outside the image
    Z80_SHORT = 2,            // too few bytes for the row that they begin; `missing` says how many more it takes
    Z80_LONG = 3,             // over four bytes
    Z80_NO_ROOM = 4,          // what is to be written is longer than what is lent
    Z80_IMAGE_SIZE = 5,       // an image that is empty or goes beyond address 65,535
    Z80_MARK_SIZE = 6,        // marks and image differ in length
    Z80_ENTRY_COUNT = 7,      // no entries, over 256, or half of one
    Z80_MARK_VALUE = 8,       // a mark over 2
    Z80_ENTRY_NOT_START = 9,  // an entry outside the image or not marked as a start
    Z80_UNFINISHED = 10,      // a start whose bytes are no whole row
    Z80_CLIPPED = 11,         // a later byte of a start's row not marked as inside
    Z80_STRAY = 12,           // a byte marked as inside that no start's row covers
    Z80_BAD_NEXT = 13,        // a start that leads to a place outside the image or to no start
    Z80_BAD_CHOICE = 26,      // a choice of a text that is over Z80_FULL
    Z80_BAD_MODE = 35         // a mode that is neither of the two
};

// The bytes of a record, the last two of which, 22 and 23, are the least and the most T-states that the row takes; and the most
// bytes of a text and of a line. A room of so many is always enough.
enum { Z80_RECORD_SIZE = 24, Z80_TEXT_MAX = 52, Z80_LINE_MAX = 58 };

// How bytes are read, which each function takes first: as the Rust original reads them, or as the chip does, for which a DD or FD
// that changes nothing is a NOP by itself and a row behind one is decided as soon as its own bytes are there
// (docs/DIFFERENCES.md). With another number every function answers Z80_BAD_MODE before all else, writes zeros to the numbers
// that are lent and nothing to `out`.
enum { Z80_RUST = 0, Z80_CHIP = 1 };

// The parts of a text, added up to a choice: the row's bytes, its instruction with the operands, its T-states; and two choices,
// the plain text, which is without the bytes, and the full one.
enum { Z80_BYTES = 1, Z80_INSTRUCTION = 2, Z80_TIMES = 4, Z80_PLAIN = 6, Z80_FULL = 7 };

// The marks of a map, one for each byte of the image.
enum { Z80_DATA = 0, Z80_START = 1, Z80_INSIDE = 2 };

// Decodes the row that `ins` is, one to four bytes, and writes its record to the front of `out`: length, instruction, three
// operands of three bytes, four data bytes, six T-states, machine cycles, least, most, as crates/replay/README.md says. Answers
// Z80_DONE; or Z80_NOTHING, Z80_SHORT, Z80_LONG, and then writes the empty record, in which all is zero but the instruction, byte
// 1, which is NOP, 35; or Z80_NO_ROOM. Where fewer than Z80_RECORD_SIZE bytes are lent, nothing is written, whatever it answers.
// `missing` is written in any case: for Z80_SHORT the fewest bytes, 1 to 3, that for some choice of them behind `ins` would make
// it Z80_DONE in the mode; with every other answer 0. Another choice may need more: behind ED it is 1, but with 43 there it is 2
// again.
uint8_t z80_record(uint8_t mode, const uint8_t *ins, size_t ins_len, uint8_t *out, size_t out_len, uint32_t *missing);

// The parts of the text of the row that `ins` is, those that `choice` adds up, to the front of `out`, and their length to `count`.
// All three are "21 34 12 \t\tLD\tHL, 1234 [4, 3, 3, 0, 0, 0]", of which "21 34 12 \t\t" are the bytes, "LD\tHL, 1234" is the
// instruction and " [4, 3, 3, 0, 0, 0]" the T-states. No zero byte ends them. For choice 0 the text is empty and needs no room.
// Answers Z80_BAD_CHOICE before all but Z80_BAD_MODE, then by the same numbers as z80_record; where that is not Z80_DONE, `count` is 0 and
// `out` as it was. `missing` is as with z80_record.
uint8_t z80_text(uint8_t mode, uint8_t choice, const uint8_t *ins, size_t ins_len, uint8_t *out, size_t out_len,
                 uint32_t *count, uint32_t *missing);

// The line of the row at `address`, in an image whose first byte stands at `origin`: the address, a space, the full text and LF
// to the front of `out`, its length to `count`, and to `passed` how many bytes further the next row begins. Where the image ends
// before its row does, the line has one byte, a question mark and the fewest bytes that are missing, such as "0005 DD \t\t?2\n".
// Answers Z80_DONE, or Z80_IMAGE_SIZE, Z80_NOTHING, Z80_NO_ROOM; both numbers are then 0 and `out` as it was.
uint8_t z80_row(uint8_t mode, const uint8_t *image, size_t image_len, uint16_t origin, uint16_t address, uint8_t *out,
                size_t out_len, uint32_t *count, uint32_t *passed);

// Checks a code map: `marks` as above, `entries` the addresses where code is entered, two bytes each, low byte first. Answers
// Z80_DONE where it keeps the marking rules, or the first rule that is broken, Z80_IMAGE_SIZE to Z80_BAD_NEXT, and writes to
// `address` where that is; for Z80_DONE and up to Z80_ENTRY_COUNT it is 0.
uint8_t z80_map_check(uint8_t mode, const uint8_t *image, size_t image_len, uint16_t origin, const uint8_t *marks,
                      size_t marks_len, const uint8_t *entries, size_t entries_len, uint32_t *address);

#ifdef __cplusplus
}
#endif

#endif
