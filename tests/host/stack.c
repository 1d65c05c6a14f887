/* How much stack the functions take: each is called on a stack of its own that was painted before, and what was painted over is
 * counted. The arguments are in it, and up to 96 bytes of the caller that calls from there, which keeps them few: results go to static
 * memory, and the header's tests are off. What an empty caller takes is not in it. */
#define _GNU_SOURCE
#define TB_UNCHECKED
#include <stdio.h>
#include <stdlib.h>
#include <string.h>
#include <ucontext.h>

#include "cases.h"

#if !defined(STACK) || !defined(TABLE_STACK)
#error "STACK is what the header says that a call needs at most, TABLE_STACK what tb_table_cycle does; run.sh reads them there"
#endif
enum { ROOM = 65536, PAINT = 0xC7, CALLER = 96 };

static _Alignas(64) uint8_t painted[ROOM];
static uint8_t array[TB_SIZE_MOST], residue[TB_BLOCK_MOST], wanted[8192], scratch[8192], payload[TB_PAYLOAD_MOST], file[TB_FILE_MOST];
static uint8_t promised[TB_SIZE_MOST], memory[14336], main_scratch[14336]; /* of the main block of bench T */
static tb_record records[12];
static const tb_device kinds[] = {{TB_BENCH_T, 0, 2, 3, 1}, {TB_28F200BR_T, 0, 2, 3, 1}, {TB_28F200BR_T, 1, 2, 3, 1}};
static tb_device device;
static size_t size, block; /* bytes of the device at hand, and of its block 1 */
static tb_state state, fresh;
static tb_loader loader;
static tb_held_given held;
static const uint32_t polls[] = {1, 2}, addresses[] = {0x10, 0x20};
static uint8_t room[8];
static tb_bus bus;
static tb_report report;
static uint32_t counts[7 * 100];
static uint8_t byte, numbers[100];
static uint16_t value;

static size_t used_by(void (*call)(void)) {
    ucontext_t back, there;
    size_t low = 0;
    memset(painted, PAINT, ROOM);
    if (getcontext(&there) != 0)
        exit(2);
    there.uc_stack.ss_sp = painted;
    there.uc_stack.ss_size = ROOM;
    there.uc_link = &back;
    makecontext(&there, call, 0);
    if (swapcontext(&back, &there) != 0)
        exit(2);
    while (low < ROOM && painted[low] == PAINT)
        low++;
    return ROOM - low;
}

static void nothing(void) {}
static void cycle(void) { state = tb_cycle(device, state, bus, array, size, residue, sizeof residue).state; }
static void table_cycle(void) { state = tb_table_cycle(device, state, bus, array, size, residue, sizeof residue).state; }
static void start(void) { loader = tb_start(device.number, device.word, 1, 0, 12000, 1, wanted, block, scratch, block).loader; }
static void step(void) { bus = tb_step(&loader, value, wanted, block, scratch, block).cycle; }
static void run(void) { state = tb_run(device, fresh, 1, 0, 12000, 1, array, size, wanted, block, scratch, block).state; }
static void load_run(void) { state = tb_load_run(device, fresh, 1, 0, 12000, 1, array, size, wanted, block, scratch, block).state; }
static void verify_run(void) {
    state = tb_verify_run(device, fresh, 1, 0, 12000, 1, array, size, wanted, block, scratch, block).state;
}
static void verify_file(void) {
    state = tb_verify_file(device, fresh, 1, 0, 12000, 1, 'K', file, 512, array, size, wanted, block, scratch, block).state;
}
static void load(void) {
    state = tb_load(device, fresh, 1, 0, 12000, 1, 'K', file, 512, array, size, wanted, block, scratch, block).state;
}
static void held_start(void) {
    held = tb_held_start(device.number, device.word, 1, 0, 12000, 1, 1, wanted, block, scratch, block, addresses, 2, room, sizeof room);
}
static void held_step(void) {
    held = tb_held_step(held.held, value, wanted, block, scratch, block, polls, 2, addresses, 2, room, sizeof room);
}
static void held_run(void) {
    state = tb_held_run(device, fresh, 1, 0, 12000, 1, 1, array, size, wanted, block, scratch, block, polls, 2, addresses, 2, room,
                        sizeof room).state;
}
static void held_load(void) {
    state = tb_held_load(device, fresh, 1, 0, 12000, 1, 1, 'K', file, 512, array, size, wanted, block, scratch, block, polls, 2, addresses,
                         2, room, sizeof room).state;
}
static void recording(void) {
    state = tb_recording(device, fresh, records, sizeof records / sizeof records[0], promised, size, array, size).state;
}
static void write(void) { byte = tb_file_write('K', payload, sizeof payload, file, sizeof file).number; }
static void write_short(void) { byte = tb_file_write('K', payload, 100, file, sizeof file).number; }
static void read(void) { byte = tb_file_read('K', file, sizeof file, payload, sizeof payload).number; }
static void check(void) { byte = (uint8_t)tb_block_check(file, sizeof file); }
static void reading(void) {
    for (size_t i = 0; i < 100; i++) /* knots one microvolt apart */
        payload[6 * i + 3] = (uint8_t)i;
    byte = (uint8_t)(tb_table_judge(payload, 600) + tb_table_reading(payload, 600, 5).answer);
    byte = (uint8_t)(byte + tb_file_reading('K', file, sizeof file, payload, sizeof payload, 5).answer);
}
static void blank(void) {
    memset(file, 0xFF, sizeof file);
    byte = tb_file_read('K', file, sizeof file, payload, sizeof payload).number;
}
static void wear_add(void) { report = tb_wear_add(3, report, 3, state.wear).report; }
static void wear_report(void) {
    memset(numbers, 3, sizeof numbers);
    report = tb_wear_report(3, numbers, sizeof numbers, counts, sizeof counts / sizeof counts[0]).report;
}
static void store_add(void) {
    state = tb_store_add(device, fresh, 1, 0, 12000, 'K', file, 512, array, size, memory, sizeof memory, main_scratch,
                         sizeof main_scratch).state;
}
static void store_drop(void) {
    state = tb_store_drop(device, fresh, 1, 0, 12000, 'K', array, size, memory, sizeof memory, main_scratch, sizeof main_scratch).state;
}
static void store_find(void) { byte = tb_store_find(device.number, 0, 'K', array, size, payload, sizeof payload).number; }
static void store_read(void) { byte = tb_store_read(device.number, 0, 'K', array, size, payload, sizeof payload, 5).answer; }
static void knot(void) {
    byte = tb_knot_pack(3, 4096, 1000, payload, 600);
    byte = (uint8_t)(byte + tb_knot_unpack(3, payload, 600).tenths + tb_version());
}
static void words(void) { size = tb_words(41, payload, sizeof payload); }
static void part(void) { byte = (uint8_t)(tb_size(3) + tb_block(3, 1).first + tb_fresh().status); }

static size_t most, table_most; /* of all calls but tb_table_cycle, and of that */

static void larger(size_t *of, size_t used) { *of = used > *of ? used : *of; }

static void measure(void (*call)(void)) { larger(&most, used_by(call)); }

/* A cycle by each engine, from the same state. */
static void measure_cycle(void) {
    tb_state before = state;
    measure(cycle);
    state = before;
    larger(&table_most, used_by(table_cycle));
}

/* Cycles of each kind on an operation with one cycle to go, at each RP# and at VPP low and high: it ends, is cut or is suspended. */
static void cycles_of(uint8_t phase) {
    for (unsigned k = 0; k < 18; k++) {
        bus = (tb_bus){(uint8_t)(k % 3), (uint8_t)(k / 3 % 3), 0, 0, 0xB0, k < 9 ? 0 : 12000, 0x10};
        state = (tb_state){.mode = TB_MODE_STATUS, .phase = phase, .left = 1, .address = 0x10};
        measure_cycle();
    }
}

/* Cycles at rest: each kind, in each mode. */
static void cycles_at_rest(void) {
    for (unsigned k = 0; k < 9; k++) {
        bus = (tb_bus){(uint8_t)(k % 3), 1, 0, 0, 0x40, 12000, 1};
        state = (tb_state){.mode = (uint8_t)(k / 3), .status = TB_SR_READY};
        measure_cycle();
    }
}

/* The second write of an erase and of a program: it starts, is barred, or is locked. */
static void second_writes(void) {
    uint32_t boot = (uint32_t)(tb_block(device.number, 0).first >> device.word);
    for (unsigned k = 0; k < 6; k++) {
        bus = (tb_bus){TB_CYCLE_WRITE, TB_RP_HIGH, 0, 0, 0xD0, k < 2 ? 0 : 12000, k < 4 ? 0x10 : boot};
        state = (tb_state){.mode = TB_MODE_STATUS, .status = TB_SR_READY, .phase = k % 2 ? TB_DATA_AWAITED : TB_ERASE_AWAITED};
        measure_cycle();
    }
}

/* A load by hand, its bytes as a good part would give them. */
static void steps_of_a_load(void) {
    memset(wanted, 0x5A, sizeof wanted);
    measure(start);
    while (loader.stage != TB_ENDED) {
        value = loader.stage == TB_READING ? 0x0000 : loader.stage == TB_VERIFYING ? 0x5A5A : 0x0080;
        measure(step);
        if (loader.stage == TB_READING && loader.place == 3 && block > 512) /* a long block's middle is like its ends */
            loader.place = (block >> device.word) - 3;
        if (loader.stage == TB_PROGRAM_ASKING && loader.place == 3)
            memcpy(scratch + 8, wanted + 8, block - 16);
        if (loader.stage == TB_VERIFYING && loader.place == 3)
            loader.place = (block >> device.word) - 3;
    }
}

/* An interrupted load by hand, from its erase on: both polls are interrupted, the second finds the erase finished. */
static void steps_of_a_held_load(void) {
    memset(wanted, 0x5A, sizeof wanted);
    measure(held_start);
    held.held.loader.stage = TB_ERASE_CONFIRMING;
    for (int i = 0; i < 24; i++) {
        value = i < 8 ? 0x00C0 : 0x0080;
        measure(held_step);
    }
}

/* An erase that is suspended and resumed, a program, and a read, each write and wait answered by no data. */
static void recorded(void) {
    static const uint8_t writes[] = {0x20, 0xD0, 0xB0, 0, 0xD0, 0, 0x40, 0x5A, 0, 0xFF, 0, 0x70};
    for (size_t i = 0; i < sizeof writes; i++)
        records[i] = (tb_record){{writes[i] == 0 ? TB_CYCLE_IDLE : TB_CYCLE_WRITE, TB_RP_HIGH, 0, 0, writes[i], 12000, 0x10},
                                 TB_NO_DATA, 0, 1};
    records[1].busy = 2;
    records[10] = (tb_record){{TB_CYCLE_READ, TB_RP_HIGH, 0, 0, 0, 12000, 0x10}, TB_DATA, device.word ? 0x005A : 0x5A, 0};
}

static void on_device(tb_device d) {
    void (*const calls[])(void) = {run, load, load_run, verify_run, verify_file, recording, held_run, held_load};
    device = d;
    fresh = tb_fresh();
    size = tb_size(d.number);
    block = tb_block(d.number, 1).length;
    recorded();
    cycles_of(TB_PROGRAMMING);
    cycles_of(TB_ERASING);
    cycles_at_rest();
    second_writes();
    steps_of_a_load();
    steps_of_a_held_load();
    for (size_t i = 0; i < sizeof calls / sizeof calls[0]; i++) {
        memset(array, 0, size);
        measure(calls[i]);
    }
}

/* A file into the empty store, found, read by and dropped; then into a store of dead places, by a slide. */
static void on_store(void) {
    void (*const calls[])(void) = {store_add, store_find, store_read, store_drop, store_add};
    device = kinds[0];
    size = tb_size(device.number);
    write_short();
    memset(array, 0xFF, size);
    for (size_t i = 0; i < sizeof calls / sizeof calls[0]; i++) {
        measure(calls[i]);
        if (calls[i] == store_drop)
            memset(array, 0, 14336);
    }
}

static void holds(const char *what, size_t used, size_t told) {
    if (used <= told + CALLER)
        return;
    printf("%s took %zu bytes of stack; the header says %zu\n", what, used, told);
    exit(1);
}

void stack(bool verbose) {
    void (*const calls[])(void) = {part, write, read, check, reading, write_short, wear_add, wear_report, knot, words};
    size_t none = used_by(nothing);
    for (size_t i = 0; i < sizeof calls / sizeof calls[0]; i++)
        measure(calls[i]);
    for (size_t i = 0; i < sizeof kinds / sizeof kinds[0]; i++)
        on_device(kinds[i]);
    on_store();
    measure(blank);
    if (verbose)
        printf("stack  %zu bytes at most, %zu by the table\n", most - none, table_most - none);
    holds("a call", most - none, STACK);
    holds("tb_table_cycle", table_most - none, TABLE_STACK);
}
