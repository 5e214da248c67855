// The bridge between the comparison and the exported functions, where the machine is no x86-64: compiled by the kit for
// x86-64 and run under the kit's emulator. It reads calls on standard input, as `Calls::request` writes them, and writes for
// each the answer number, whether a map was altered, the lent count, number of bytes passed, address and number of missing bytes,
// and the lent buffer as they are then.
#include "z80.h"
#include <unistd.h>

// The functions by the numbers of src/function.rs and src/calls.rs: from TEXT on one for each choice of a text.
enum { RECORD, TEXT, ROW = TEXT + 256, MAP };
enum { NUMBER = 4, NUMBERS = 4, LOOKED_AT = 64, OUTCOME = 2 + NUMBERS * NUMBER + LOOKED_AT };
enum { LONGEST = 65537, LONGEST_PART = 2 * LONGEST + 1, BEHIND = 4, PIPE = 65536 };

// What a call is about, in its mode: the bytes of a row, an image and where it is looked at, or the map that was read last.
struct about {
    size_t function, mode, len;
    uint16_t origin, address;
};

// The numbers that a call may write.
struct numbers {
    uint32_t count, passed, address, missing;
};

// A part of a map, with what stands behind it, as src/laid.rs has it: as it is lent, and as it was.
struct part {
    size_t len;
    uint8_t lent[LONGEST_PART + BEHIND], kept[LONGEST_PART + BEHIND];
};

static uint8_t asked[PIPE], said[PIPE], bytes[LONGEST + BEHIND], rooms[256];
static size_t asked_at, asked_end, said_end, sizes;
static struct part image, marks, entries;

// The next n bytes asked; 0 where the input ends before them.
static int get(uint8_t *to, size_t n) {
    for (size_t i = 0; i < n; i++) {
        if (asked_at == asked_end) {
            ssize_t got = read(0, asked, PIPE);
            if (got <= 0) return 0;
            asked_at = 0;
            asked_end = got;
        }
        to[i] = asked[asked_at++];
    }
    return 1;
}

// The next n bytes as a number, low byte first.
static int get_number(size_t *to, size_t n) {
    uint8_t byte;
    *to = 0;
    for (size_t i = 0; i < n; i++) {
        if (!get(&byte, 1)) return 0;
        *to |= (size_t)byte << 8 * i;
    }
    return 1;
}

static int get_rooms(void) {
    return get_number(&sizes, 1) && get(rooms, sizes);
}

// So many bytes, zeros behind them, and the rooms.
static int get_bytes_and_rooms(size_t len) {
    if (len > LONGEST || !get(bytes, len)) return 0;
    for (size_t i = 0; i < BEHIND; i++) bytes[len + i] = 0;
    return get_rooms();
}

// A part of a map behind its count, and so many times a byte behind it.
static int get_part(struct part *part, uint8_t behind) {
    if (!get_number(&part->len, 4) || part->len > LONGEST_PART || !get(part->kept, part->len)) return 0;
    for (size_t i = 0; i < BEHIND; i++) part->kept[part->len + i] = behind;
    for (size_t i = 0; i < part->len + BEHIND; i++) part->lent[i] = part->kept[i];
    return 1;
}

// Writes out what is said so far.
static int flush(void) {
    for (size_t at = 0; at < said_end;) {
        ssize_t took = write(1, said + at, said_end - at);
        if (took <= 0) return 0;
        at += took;
    }
    said_end = 0;
    return 1;
}

static void put_number(uint8_t *to, uint32_t number) {
    for (size_t i = 0; i < NUMBER; i++) to[i] = number >> 8 * i;
}

// An empty slice passes as a null pointer, through which nothing may be read or written.
static const uint8_t *slice(const uint8_t *from, size_t len) {
    return len ? from : 0;
}

static uint8_t check(uint8_t mode, uint16_t origin, uint32_t *address) {
    const uint8_t *i = slice(image.lent, image.len), *m = slice(marks.lent, marks.len), *e = slice(entries.lent, entries.len);
    return z80_map_check(mode, i, image.len, origin, m, marks.len, e, entries.len, address);
}

// Whether a part of the map, or what stands behind it, is not as it was.
static int is_altered(const struct part *part) {
    for (size_t i = 0; i < part->len + BEHIND; i++) {
        if (part->lent[i] != part->kept[i]) return 1;
    }
    return 0;
}

static uint8_t call(const struct about *a, uint8_t *out, size_t room, struct numbers *n) {
    const uint8_t *ins = slice(bytes, a->len);
    if (!room) out = 0;
    switch (a->function) {
    case RECORD: return z80_record(a->mode, ins, a->len, out, room, &n->missing);
    case ROW: return z80_row(a->mode, ins, a->len, a->origin, a->address, out, room, &n->count, &n->passed);
    case MAP: return check(a->mode, a->origin, &n->address);
    default: return z80_text(a->mode, a->function - TEXT, ins, a->len, out, room, &n->count, &n->missing);
    }
}

// The k-th call, with numbers and buffer filled as by `filled` of src/outcome.rs.
static int answer(const struct about *a, size_t room, size_t k) {
    if (room > LOOKED_AT || (PIPE - said_end < OUTCOME && !flush())) return 0;
    uint8_t *number = said + said_end, *altered = number + 1, *numbers = number + 2, *lent = numbers + NUMBERS * NUMBER;
    struct numbers n = {0xA5A50000 + k, 0x5A5A0000 + k, 0xC3C30000 + k, 0x3C3C0000 + k};
    for (size_t place = 0; place < LOOKED_AT; place++) lent[place] = 31 * k + 7 * place + 1;
    *number = call(a, lent, room, &n);
    *altered = a->function == MAP && (is_altered(&image) || is_altered(&marks) || is_altered(&entries));
    put_number(numbers, n.count);
    put_number(numbers + NUMBER, n.passed);
    put_number(numbers + 2 * NUMBER, n.address);
    put_number(numbers + 3 * NUMBER, n.missing);
    said_end += OUTCOME;
    return 1;
}

// The calls in each of the rooms, of which the first is the k-th.
static int answer_rooms(const struct about *a, size_t k) {
    for (size_t i = 0; i < sizes; i++) {
        if (!answer(a, rooms[i], k + i)) return 0;
    }
    return 1;
}

// A function of a row's bytes: the fixed ones, then every choice of the free ones.
static int answer_inputs(size_t mode, size_t function) {
    size_t free, fixed;
    if (!get_number(&free, 1) || !get_number(&fixed, 2) || !get_bytes_and_rooms(fixed) || free > 2) return 0;
    struct about a = {function, mode, fixed + free, 0, 0};
    for (size_t choice = 0; choice < 1ul << 8 * free; choice++) {
        for (size_t i = 0; i < free; i++) bytes[fixed + i] = choice >> 8 * (free - 1 - i);
        if (!answer_rooms(&a, choice * sizes)) return 0;
    }
    return 1;
}

// Rows of an image, at so many addresses from the first on.
static int answer_places(size_t mode) {
    size_t origin, first, count, len;
    if (!get_number(&origin, 2) || !get_number(&first, 2) || !get_number(&count, 4) || !get_number(&len, 4)) return 0;
    if (!get_bytes_and_rooms(len)) return 0;
    for (size_t i = 0; i < count; i++) {
        struct about a = {ROW, mode, len, origin, first + i};
        if (!answer_rooms(&a, i * sizes)) return 0;
    }
    return 1;
}

// The check of a map: starts stand behind its marks, and entries outside behind those that it has.
static int answer_map(size_t mode) {
    size_t origin;
    if (!get_number(&origin, 2) || !get_part(&image, 0) || !get_part(&marks, 1) || !get_part(&entries, 0xFF)) return 0;
    struct about a = {MAP, mode, 0, origin, 0};
    return get_rooms() && answer_rooms(&a, 0);
}

static int answer_next(size_t mode) {
    size_t function;
    if (!get_number(&function, 2)) return 0;
    switch (function) {
    case ROW: return answer_places(mode);
    case MAP: return answer_map(mode);
    default: return function < ROW && answer_inputs(mode, function);
    }
}

int main(void) {
    size_t mode;
    while (get_number(&mode, 1)) {
        if (!answer_next(mode)) return 1;
    }
    return flush() ? 0 : 1;
}
