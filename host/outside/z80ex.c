// An outside opinion on rows: executes every code of every page with the emulator z80ex and prints for each its bytes, how many
// of them were fetched, and the T-states of its steps, once where it takes the fewest and once where it takes the most. A prefix
// is a step of its own; a plus stands between steps. host/outside/make runs it.
#include <stdint.h>
#include <stdio.h>
#include <string.h>
#include <z80ex/z80ex.h>

enum { BASE = 0x4000, POINTERS = 0x8000, STACK = 0xC000, ROW = 8, STEPS = 8 };

// The states that a row is run from: B and C, so that a count ends or goes on, and the flags, so that a condition holds or not.
static const uint16_t COUNTS[] = {0x0001, 0x0100, 0x0202};
static const uint16_t FLAGS[] = {0x5A00, 0x5AFF};

static uint8_t row[ROW];
static unsigned fetched;

// What a run came to: its steps and their sum, and how many bytes of the row were fetched.
struct run {
    int steps[STEPS], count, sum;
    unsigned fetched;
};

// The row stands at BASE; all other memory is zero, and neither data nor stack comes near the row.
static Z80EX_BYTE read_memory(Z80EX_CONTEXT *cpu, Z80EX_WORD at, int fetch, void *data) {
    (void)cpu, (void)fetch, (void)data;
    if (at < BASE || at >= BASE + ROW) return 0;
    if (at - BASE + 1u > fetched) fetched = at - BASE + 1u;
    return row[at - BASE];
}

static void write_memory(Z80EX_CONTEXT *cpu, Z80EX_WORD at, Z80EX_BYTE value, void *data) {
    (void)cpu, (void)at, (void)value, (void)data;
}

static Z80EX_BYTE read_port(Z80EX_CONTEXT *cpu, Z80EX_WORD port, void *data) {
    (void)cpu, (void)port, (void)data;
    return 0;
}

static void write_port(Z80EX_CONTEXT *cpu, Z80EX_WORD port, Z80EX_BYTE value, void *data) {
    (void)cpu, (void)port, (void)value, (void)data;
}

static Z80EX_BYTE read_vector(Z80EX_CONTEXT *cpu, void *data) {
    (void)cpu, (void)data;
    return 0xFF;
}

// One instruction with its prefixes.
static struct run executed(uint16_t af, uint16_t bc) {
    struct run run = {{0}, 0, 0, 0};
    Z80EX_CONTEXT *cpu = z80ex_create(read_memory, 0, write_memory, 0, read_port, 0, write_port, 0, read_vector, 0);
    z80ex_set_reg(cpu, regPC, BASE);
    z80ex_set_reg(cpu, regSP, STACK);
    z80ex_set_reg(cpu, regAF, af);
    z80ex_set_reg(cpu, regBC, bc);
    z80ex_set_reg(cpu, regDE, POINTERS);
    z80ex_set_reg(cpu, regHL, POINTERS);
    z80ex_set_reg(cpu, regIX, POINTERS);
    z80ex_set_reg(cpu, regIY, POINTERS);
    fetched = 0;
    do {
        run.steps[run.count] = z80ex_step(cpu);
        run.sum += run.steps[run.count++];
    } while (z80ex_last_op_type(cpu) != 0 && run.count < STEPS);
    run.fetched = fetched;
    z80ex_destroy(cpu);
    return run;
}

static void print_steps(const struct run *run) {
    for (int i = 0; i < run->count; i++) printf("%c%d", i ? '+' : ' ', run->steps[i]);
}

// A row: its fixed bytes, with zeros behind them.
static void print_row(const uint8_t *bytes, unsigned count) {
    struct run least = {{0}, 0, 1 << 30, 0}, most = {{0}, 0, 0, 0};
    memset(row, 0, sizeof row);
    memcpy(row, bytes, count);
    for (unsigned i = 0; i < sizeof COUNTS / sizeof COUNTS[0] * 2; i++) {
        struct run run = executed(FLAGS[i % 2], COUNTS[i / 2]);
        if (run.sum < least.sum) least = run;
        if (run.sum > most.sum) most = run;
    }
    for (unsigned i = 0; i < count; i++) printf("%02X ", bytes[i]);
    printf("= %u", most.fetched);
    print_steps(&least);
    print_steps(&most);
    printf("\n");
}

// Every code behind a prefix of up to two bytes; behind DD CB and FD CB a displacement stands before it.
static void print_page(const uint8_t *prefix, unsigned count) {
    uint8_t bytes[4] = {0};
    memcpy(bytes, prefix, count);
    if (count == 2 && prefix[1] == 0xCB) count = 3;
    for (unsigned code = 0; code < 256; code++) {
        bytes[count] = code;
        print_row(bytes, count + 1);
    }
}

int main(void) {
    static const struct { unsigned count; uint8_t prefix[2]; } pages[] = {
        {0, {0}}, {1, {0xCB}}, {1, {0xED}}, {1, {0xDD}}, {1, {0xFD}},
        {2, {0xDD, 0xCB}}, {2, {0xFD, 0xCB}}, {2, {0xDD, 0xED}}, {2, {0xFD, 0xED}}};
    for (unsigned i = 0; i < sizeof pages / sizeof pages[0]; i++) print_page(pages[i].prefix, pages[i].count);
    return 0;
}
