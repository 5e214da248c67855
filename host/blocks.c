// The archive's side of the exhaustive run: compiled by the kit for x86-64. It reads requests on standard input, as
// src/bin/exhaust/child.rs writes them, calls a function for so many inputs of four bytes, and writes one hash of all that the
// calls left, or what each of them left.
#include "z80.h"
#include <unistd.h>

// The record by its number of src/function.rs, in which a text is one more than its choice; and what is wanted of the calls.
enum { RECORD };
enum { HASH, ALL };

enum { INPUT = 4, LENT = 60, WORDS = 9 };
static const uint64_t FILL = 0xA5A5A5A5A5A5A5A5;

// Inputs are counted with the first byte highest.
struct request {
    uint32_t wanted, mode, function, first, count;
};

// What a call leaves: its number, count and missing bytes, and the buffer with what stands behind the room. As words it is hashed.
union left {
    struct {
        uint32_t number, count, missing;
        uint8_t lent[LENT];
    };
    uint64_t words[WORDS];
};

static int get(void *to, size_t n) {
    for (size_t at = 0; at < n;) {
        ssize_t got = read(0, (uint8_t *)to + at, n - at);
        if (got <= 0) return 0;
        at += got;
    }
    return 1;
}

static int put(const void *from, size_t n) {
    for (size_t at = 0; at < n;) {
        ssize_t took = write(1, (const uint8_t *)from + at, n - at);
        if (took <= 0) return 0;
        at += took;
    }
    return 1;
}

// The same as `step` of src/bin/exhaust/hash.rs.
static uint64_t step(uint64_t state, uint64_t word) {
    state += word * 0x9E3779B185EBCA87;
    return (state << 31 | state >> 33) * 0xC2B2AE3D27D4EB4F;
}

// One call, with everything that it may leave filled before it; the bytes of an input are those of src/bin/exhaust/block.rs.
static void call(const struct request *r, uint32_t input, union left *left) {
    uint8_t ins[INPUT] = {input >> 16, input >> 8, input, (input >> 24) + (input >> 16) + (input >> 8) + input};
    for (size_t i = 0; i < WORDS; i++) left->words[i] = FILL;
    if (r->function == RECORD) {
        left->number = z80_record(r->mode, ins, INPUT, left->lent, Z80_RECORD_SIZE, &left->missing);
    } else {
        uint8_t choice = r->function - 1;
        left->number = z80_text(r->mode, choice, ins, INPUT, left->lent, Z80_TEXT_MAX, &left->count, &left->missing);
    }
}

static int put_hash(const struct request *r) {
    union left left;
    uint64_t state = 0;
    for (uint32_t i = 0; i < r->count; i++) {
        call(r, r->first + i, &left);
        for (size_t k = 0; k < WORDS; k++) state = step(state, left.words[k]);
    }
    return put(&state, sizeof state);
}

static int put_all(const struct request *r) {
    union left left;
    for (uint32_t i = 0; i < r->count; i++) {
        call(r, r->first + i, &left);
        if (!put(&left, sizeof left)) return 0;
    }
    return 1;
}

int main(void) {
    struct request r;
    while (get(&r, sizeof r)) {
        if (!(r.wanted == HASH ? put_hash(&r) : put_all(&r))) return 1;
    }
    return 0;
}
