// Calls each function of z80.h and holds what it answers to what it should. Ends with 0, or with the number of the first case
// that is wrong. C99 and C++.
#include "z80.h"

static const uint8_t image[] = {0x21, 0x34, 0x12, 0x3E, 0x05, 0xDD, 0x23};
static uint8_t out[Z80_LINE_MAX];

// Whether the front of `out` is a text, of so many bytes.
static int is_written(const char *text, uint32_t count) {
    uint32_t at = 0;
    while (at < count && out[at] == (uint8_t)text[at]) at++;
    return at == count && text[at] == 0;
}

static int record_is_right(void) {
    // JR NZ, -126, in three machine cycles of 4, 3 and 5 T-states; where it does not jump, in 7 T-states
    static const uint8_t jump[] = {0x20, 0x80};
    uint8_t record[Z80_RECORD_SIZE];
    uint32_t missing;
    if (z80_record(Z80_RUST, jump, sizeof jump, record, sizeof record, &missing) != Z80_DONE || missing != 0) return 0;
    if (record[0] != 2 || record[15] != 4 || record[16] != 3 || record[17] != 5 || record[21] != 3) return 0;
    return record[22] == 7 && record[23] == 12;
}

// A refusal gives the empty record, unless there is no room for one.
static int empty_record_is_right(void) {
    uint8_t record[Z80_RECORD_SIZE] = {1};
    uint32_t missing;
    if (z80_record(Z80_RUST, image, 2, record, Z80_RECORD_SIZE - 1, &missing) != Z80_SHORT || record[0] != 1) return 0;
    if (z80_record(Z80_RUST, image, 3, record, Z80_RECORD_SIZE - 1, &missing) != Z80_NO_ROOM || record[0] != 1) return 0;
    if (z80_record(Z80_RUST, image, 2, record, Z80_RECORD_SIZE, &missing) != Z80_SHORT) return 0;
    for (size_t at = 0; at < Z80_RECORD_SIZE; at++) {
        if (record[at] != (at == 1 ? 35 : 0)) return 0;
    }
    return 1;
}

// As a host feeds them: the bytes of a row that are there, and how many more it takes at least.
static int missing_is_right(void) {
    static const struct { uint8_t mode, ins[3], len, missing; } rows[] = {
        {Z80_RUST, {0xDD}, 1, 3}, {Z80_RUST, {0xED}, 1, 1}, {Z80_RUST, {0xED, 0x43}, 2, 2}, {Z80_RUST, {0xDD, 0x23, 0x00}, 3, 1},
        {Z80_CHIP, {0xDD}, 1, 1}, {Z80_CHIP, {0xDD, 0x66}, 2, 1}};
    for (size_t row = 0; row < sizeof rows / sizeof rows[0]; row++) {
        uint32_t count, of_record, of_text;
        uint8_t mode = rows[row].mode;
        if (z80_record(mode, rows[row].ins, rows[row].len, NULL, 0, &of_record) != Z80_SHORT) return 0;
        if (z80_text(mode, Z80_FULL, rows[row].ins, rows[row].len, NULL, 0, &count, &of_text) != Z80_SHORT) return 0;
        if (of_record != rows[row].missing || of_text != rows[row].missing) return 0;
    }
    return 1;
}

// The parts alone, and what they add up to; no part at all needs no room.
static int texts_are_right(void) {
    static const struct { uint8_t choice; const char *text; } texts[] = {
        {Z80_BYTES, "21 34 12 \t\t"},
        {Z80_INSTRUCTION, "LD\tHL, 1234"},
        {Z80_TIMES, " [4, 3, 3, 0, 0, 0]"},
        {Z80_BYTES + Z80_INSTRUCTION, "21 34 12 \t\tLD\tHL, 1234"},
        {Z80_BYTES + Z80_TIMES, "21 34 12 \t\t [4, 3, 3, 0, 0, 0]"},
        {Z80_PLAIN, "LD\tHL, 1234 [4, 3, 3, 0, 0, 0]"},
        {Z80_FULL, "21 34 12 \t\tLD\tHL, 1234 [4, 3, 3, 0, 0, 0]"}};
    uint32_t count, missing;
    for (size_t row = 0; row < sizeof texts / sizeof texts[0]; row++) {
        uint8_t number = z80_text(Z80_RUST, texts[row].choice, image, 3, out, Z80_TEXT_MAX, &count, &missing);
        if (number != Z80_DONE || missing != 0) return 0;
        if (!is_written(texts[row].text, count)) return 0;
    }
    return z80_text(Z80_RUST, 0, image, 3, NULL, 0, &count, &missing) == Z80_DONE && count == 0 && missing == 0;
}

static int refusals_are_right(void) {
    uint32_t count, missing;
    if (z80_text(Z80_RUST, Z80_FULL + 1, image, 2, out, sizeof out, &count, &missing) != Z80_BAD_CHOICE || missing != 0) return 0;
    if (z80_text(Z80_RUST, Z80_PLAIN, NULL, 0, out, sizeof out, &count, &missing) != Z80_NOTHING || missing != 0) return 0;
    if (z80_text(Z80_RUST, Z80_PLAIN, image, 2, out, sizeof out, &count, &missing) != Z80_SHORT || missing != 1) return 0;
    if (z80_text(Z80_RUST, Z80_PLAIN, image, 5, out, sizeof out, &count, &missing) != Z80_LONG || missing != 0) return 0;
    return z80_text(Z80_RUST, Z80_PLAIN, image, 3, NULL, 0, &count, &missing) == Z80_NO_ROOM && count == 0 && missing == 0;
}

// The rows of the image from address ABCD on: there are four.
static int rows_are_right(void) {
    uint32_t count, passed, rows = 0, at = 0;
    while (at < sizeof image) {
        uint16_t address = (uint16_t)(0xABCD + at);
        uint8_t number = z80_row(Z80_RUST, image, sizeof image, 0xABCD, address, out, sizeof out, &count, &passed);
        if (number != Z80_DONE) return 0;
        if (at == 5 && !is_written("ABD2 DD \t\t?2\n", count)) return 0;
        at += passed;
        rows++;
    }
    return rows == 4 && is_written("ABD3 23 \t\tINC\tHL [6, 0, 0, 0, 0, 0]\n", count);
}

// JR to itself, and JR into its own second byte, entered at 1234.
static int maps_are_right(void) {
    static const uint8_t loop[] = {0x18, 0xFE}, wrong[] = {0x18, 0xFF};
    static const uint8_t marks[] = {Z80_START, Z80_INSIDE}, entries[] = {0x34, 0x12};
    uint32_t address;
    uint8_t number = z80_map_check(Z80_RUST, loop, sizeof loop, 0x1234, marks, sizeof marks, entries, sizeof entries, &address);
    if (number != Z80_DONE || address != 0) return 0;
    number = z80_map_check(Z80_RUST, wrong, sizeof wrong, 0x1234, marks, sizeof marks, entries, sizeof entries, &address);
    return number == Z80_BAD_NEXT && address == 0x1234;
}

// INC IX at the image's end, for the chip a row of two bytes and for the Rust an unfinished one; and JP IX, by itself a map.
static int modes_are_right(void) {
    static const uint8_t jump[] = {0xDD, 0xE9}, marks[] = {Z80_START, Z80_INSIDE}, entries[] = {0, 0};
    uint32_t count, passed, address;
    if (z80_row(Z80_CHIP, image, sizeof image, 0, 5, out, sizeof out, &count, &passed) != Z80_DONE || passed != 2) return 0;
    if (!is_written("0005 DD 23 \t\tINC\tIX [4, 6, 0, 0, 0, 0]\n", count)) return 0;
    if (z80_map_check(Z80_CHIP, jump, 2, 0, marks, 2, entries, 2, &address) != Z80_DONE) return 0;
    return z80_map_check(Z80_RUST, jump, 2, 0, marks, 2, entries, 2, &address) == Z80_UNFINISHED;
}

// A mode that is none comes before all else, here before a bad choice and an empty image.
static int bad_modes_are_right(void) {
    uint32_t count = 1, missing = 1, passed = 1, address = 1;
    out[0] = 'x';
    if (z80_record(2, image, 2, out, sizeof out, &missing) != Z80_BAD_MODE || missing != 0) return 0;
    if (z80_text(255, Z80_FULL + 1, image, 3, out, sizeof out, &count, &missing) != Z80_BAD_MODE || count != 0) return 0;
    if (z80_row(2, NULL, 0, 0, 0, out, sizeof out, &count, &passed) != Z80_BAD_MODE || passed != 0) return 0;
    if (z80_map_check(2, NULL, 0, 0, NULL, 0, NULL, 0, &address) != Z80_BAD_MODE || address != 0) return 0;
    return out[0] == 'x';
}

int main(void) {
    if (!record_is_right()) return 1;
    if (!empty_record_is_right()) return 2;
    if (!missing_is_right()) return 3;
    if (!texts_are_right()) return 4;
    if (!refusals_are_right()) return 5;
    if (!rows_are_right()) return 6;
    if (!maps_are_right()) return 7;
    if (!modes_are_right()) return 8;
    return bad_modes_are_right() ? 0 : 9;
}
