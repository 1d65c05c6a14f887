/* Does each piece of work twice, by the library and by the second implementation in C, and marks where each begins and ends. For
 * every row it prints its number, the calls, and its name; count.c says the instructions. A line `more` asks for a difference of
 * two rows. */
#include <stdbool.h>
#include <stdio.h>
#include <stdlib.h>
#include <string.h>
#include <unistd.h>

#include "mark.h"
#include "second.h"
#include "second_file.h"

typedef struct {
    size_t (*size)(uint8_t);
    tb_span (*block)(uint8_t, uint8_t);
    tb_state (*fresh)(void);
    tb_answer (*cycle)(tb_device, tb_state, tb_bus, uint8_t *, size_t, const uint8_t *, size_t);
    tb_answer (*table_cycle)(tb_device, tb_state, tb_bus, uint8_t *, size_t, const uint8_t *, size_t);
    tb_given (*start)(uint8_t, uint8_t, uint8_t, uint8_t, uint32_t, uint8_t, const uint8_t *, size_t, const uint8_t *, size_t);
    tb_turn (*step)(tb_loader *, uint16_t, const uint8_t *, size_t, uint8_t *, size_t);
    tb_ran (*run)(tb_device, tb_state, uint8_t, uint8_t, uint32_t, uint8_t, uint8_t *, size_t, const uint8_t *, size_t, uint8_t *, size_t);
    tb_ran (*stepped)(tb_device, tb_state, uint8_t, uint8_t, uint32_t, uint8_t, uint8_t *, size_t, const uint8_t *, size_t, uint8_t *,
                      size_t);
    tb_ran (*verify)(tb_device, tb_state, uint8_t, uint8_t, uint32_t, uint8_t, uint8_t *, size_t, const uint8_t *, size_t, uint8_t *,
                     size_t);
    tb_ran (*load)(tb_device, tb_state, uint8_t, uint8_t, uint32_t, uint8_t, uint8_t, const uint8_t *, size_t, uint8_t *, size_t,
                   uint8_t *, size_t, uint8_t *, size_t);
    tb_sized (*write)(uint8_t, const uint8_t *, size_t, uint8_t *, size_t);
    tb_sized (*read)(uint8_t, const uint8_t *, size_t, uint8_t *, size_t);
    tb_sized (*write_sums)(uint8_t, const uint8_t *, size_t, uint8_t *, size_t);
    tb_sized (*read_sums)(uint8_t, const uint8_t *, size_t, uint8_t *, size_t);
    uint16_t (*check)(const uint8_t *, size_t);
    uint16_t (*sums)(const uint8_t *, size_t);
    uint8_t (*judge)(const uint8_t *, size_t);
    tb_reading (*reading)(const uint8_t *, size_t, int32_t);
    tb_reported (*add)(uint8_t, tb_report, uint8_t, tb_wear);
    tb_reported (*report)(uint8_t, const uint8_t *, size_t, const uint32_t *, size_t);
    tb_sized (*find)(uint8_t, uint8_t, uint8_t, const uint8_t *, size_t, uint8_t *, size_t);
    tb_checked (*recording)(tb_device, tb_state, const tb_record *, size_t, const uint8_t *, size_t, uint8_t *, size_t);
    tb_ran (*held)(tb_device, tb_state, uint8_t, uint8_t, uint32_t, uint8_t, uint8_t, uint8_t *, size_t, const uint8_t *, size_t,
                   uint8_t *, size_t, const uint32_t *, size_t, const uint32_t *, size_t, uint8_t *, size_t);
} maker;

static const maker proved = {tb_size, tb_block, tb_fresh, tb_cycle, tb_table_cycle, tb_start, tb_step, tb_run, tb_run, tb_verify_run,
                             tb_load, tb_file_write, tb_file_read, tb_file_write, tb_file_read, tb_block_check, tb_block_check, tb_table_judge,
                             tb_table_reading, tb_wear_add, tb_wear_report, tb_store_find, tb_recording, tb_held_run};
static const maker second = {c_size, c_block, c_fresh, c_cycle, c_cycle, c_start, c_step, c_run, c_stepped_run, c_verify_run,
                             c_load, c_file_write, c_file_read, c_file_write_sums, c_file_read_sums, c_block_check, c_block_sums, c_table_judge,
                             c_table_reading, c_wear_add, c_wear_report, c_store_find, c_recording, c_held_quick};

/* What the work is done on; `ready` of a row sets it, and all of it is compared after the row. It stands at the start of a page,
 * since the C library's copies go different ways for different addresses. */
enum { TRACES = TB_TRACES_MOST, RECORDS = 600, READS = 16 };
static _Alignas(4096) struct {
    uint8_t array[TB_SIZE_MOST], residue[TB_BLOCK_MOST], wanted[TB_BLOCK_MOST], scratch[TB_BLOCK_MOST], file[TB_FILE_MOST];
    uint8_t payload[TB_PAYLOAD_MOST], back[TB_PAYLOAD_MOST], numbers[TRACES + 1], room[2 * READS];
    uint32_t counts[7 * TRACES];
    tb_device device;
    tb_state state;
    tb_answer answer;
    tb_given given;
    tb_ran ran;
    tb_sized sized;
    tb_span span;
    tb_reported reported;
    tb_checked checked;
    uint32_t sum;
    double heat;
} at;

enum { TURNS = 100 };
static size_t size; /* of the row at hand */

/* Bytes that look like a table. */
static uint8_t speck(size_t i) { return (uint8_t)(i * 37 + i / 256 * 11 + 5); }

static void specks(uint8_t *to, size_t n) {
    for (size_t i = 0; i < n; i++)
        to[i] = speck(i);
}

/* A mix of cycles on bench T: identifier, array reads, four programs, an erase with a suspend, and some that are refused. */
#define R(a) {.kind = 0, .rp = 1, .vpp_mv = 12000, .address = a}
#define W(a, b) {.kind = 1, .rp = 1, .data = b, .vpp_mv = 12000, .address = a}
#define IDLE(vpp) {.kind = 2, .rp = 1, .vpp_mv = vpp}
#define DOWN(k) {.kind = k, .rp = 0, .vpp_mv = 12000}
#define PROGRAM(a, b) W(a, 0x40), W(a, b), R(a), R(a)
static const tb_bus mix[] = {
    W(0, 0x90), R(0), R(1), R(2), W(0, 0xFF), R(0x10), R(0x11), R(0x12), R(0x13), R(0x14), R(0x15), R(0x16), R(0x17),
    PROGRAM(0x3A00, 0x5A), PROGRAM(0x3A01, 0xFF), PROGRAM(0x3A02, 0x00), PROGRAM(0x1234, 0xC3), W(0, 0xFF), R(0x3A00),
    R(0x3A01), R(0x3A02), R(0x1234), W(0x3A00, 0x20), W(0x3A00, 0xD0), R(0x3A00), W(0x3A00, 0xB0), R(0x3A00), W(0, 0xFF), R(0x20),
    R(0x21), R(0x22), R(0x23), R(0x3A01), W(0, 0xD0), R(0x3A00), R(0x3A00), R(0x3A00), W(0, 0x70), R(0), W(0, 0x00), R(0x4000),
    IDLE(0), IDLE(12000), W(0x3C00, 0x40), W(0x3C00, 0x12), R(0x3C00), W(0, 0x50), W(0, 0xFF),
    R(0x3A00), {.kind = 0, .rp = 1, .vpp_mv = 9000}, DOWN(0),
};
enum { MIXED = sizeof mix / sizeof mix[0] };

/* Counts of erases, in every state that a row begins with. */
#define WORN {{1, 99999, 7, 4294967294, 0, 5, 6}}
static const tb_state resting = {.mode = TB_MODE_ARRAY, .status = 0x80, .wear = WORN};

static void part(uint8_t number, uint8_t word, uint16_t p, uint16_t e) {
    at.device = (tb_device){number, word, p, e, 1};
    at.state = resting;
    specks(at.array, sizeof at.array);
}

/* An operation under way, with cycles to go. */
static tb_state busy(uint8_t phase, uint16_t left, uint32_t address) {
    return (tb_state){.mode = TB_MODE_STATUS, .phase = phase, .left = left, .address = address, .wear = WORN};
}

static void ready_mix(void) { part(3, 0, 2, 3); }
static void work_mix(const maker *m) {
    for (int t = 0; t < TURNS; t++)
        for (int i = 0; i < MIXED; i++)
            at.state = m->cycle(at.device, at.state, mix[i], at.array, 16384, at.residue, 8192).state;
}

static void work_reads(const maker *m) {
    for (uint32_t i = 0; i < TURNS; i++)
        at.sum += m->cycle(at.device, at.state, (tb_bus)R(i), at.array, 16384, NULL, 0).value;
}

/* An erase with one cycle to go, in the block of `size` bytes: it ends, or RP# falls. */
static void ready_erase(void) {
    part(1, 0, 1, 1);
    at.state = busy(TB_ERASING, 1, size == 4096 ? 0x1D000 : 0x1E000);
    specks(at.residue, sizeof at.residue);
}
static void work_end(const maker *m) {
    for (int t = 0; t < TURNS; t++)
        at.sum += m->cycle(at.device, at.state, (tb_bus)R(0), at.array, 131072, NULL, 0).value;
}
static void work_cut(const maker *m) {
    for (int t = 0; t < TURNS; t++)
        at.sum += m->cycle(at.device, at.state, (tb_bus)DOWN(2), at.array, 131072, at.residue, 8192).state.status;
}

/* The same in the last block of a 28F400BR-T, the longest there is. */
static void ready_long_erase(void) {
    part(TB_28F400BR_T, 0, 1, 1);
    at.state = busy(TB_ERASING, 1, 0);
    specks(at.residue, sizeof at.residue);
}
static void work_long_end(const maker *m) {
    for (int t = 0; t < TURNS; t++)
        at.sum += m->cycle(at.device, at.state, (tb_bus)R(0), at.array, TB_SIZE_MOST, NULL, 0).value;
}
static void work_long_cut(const maker *m) {
    for (int t = 0; t < TURNS; t++)
        at.sum += m->cycle(at.device, at.state, (tb_bus)DOWN(2), at.array, TB_SIZE_MOST, at.residue, sizeof at.residue).state.status;
}

/* One cycle over and over from one state of bench T. */
static tb_bus same;
static void ready_same_cycle(tb_state state, tb_bus cycle) {
    part(3, 0, 2, 3);
    at.state = state;
    same = cycle;
    specks(at.residue, sizeof at.residue);
}
static void ready_idle(void) { ready_same_cycle(resting, (tb_bus)IDLE(12000)); }
static void ready_command(void) { ready_same_cycle(resting, (tb_bus)W(0, 0x70)); }
static void ready_confirm(void) {
    tb_state s = {.mode = TB_MODE_STATUS, .status = 0x80, .phase = TB_ERASE_AWAITED, .wear = WORN};
    ready_same_cycle(s, (tb_bus)W(0x3A00, 0xD0));
}
static void ready_poll(void) { ready_same_cycle(busy(TB_ERASING, 3, 0x3A00), (tb_bus)R(0x3A00)); }
static void ready_suspend(void) { ready_same_cycle(busy(TB_ERASING, 3, 0x3A00), (tb_bus)W(0, 0xB0)); }
static void ready_held(void) {
    tb_state s = busy(TB_SUSPENDING, 3, 0x3A00);
    s.suspend = 1;
    ready_same_cycle(s, (tb_bus)R(0x3A00));
}
static void ready_resume(void) {
    tb_state s = busy(TB_SUSPENDED, 3, 0x3A00);
    s.status = 0xC0;
    ready_same_cycle(s, (tb_bus)W(0, 0xD0));
}
static void ready_fall(void) {
    tb_state s = busy(TB_PROGRAMMING, 2, 0x10);
    s.data = 0x5A;
    ready_same_cycle(s, (tb_bus){.kind = 0, .rp = 1, .address = 0x10});
}
static void ready_reset(void) {
    ready_same_cycle((tb_state){.mode = TB_MODE_STATUS, .status = 0xB0, .wear = WORN}, (tb_bus)DOWN(0));
}
static void work_same_cycle(const maker *m) {
    for (int t = 0; t < TURNS; t++)
        at.answer = m->cycle(at.device, at.state, same, at.array, 16384, at.residue, 8192);
}

/* The mix, and one cycle over and over, by the second engine; in C it is the same cycle. */
static void work_table_mix(const maker *m) {
    for (int t = 0; t < TURNS; t++)
        for (int i = 0; i < MIXED; i++)
            at.state = m->table_cycle(at.device, at.state, mix[i], at.array, 16384, at.residue, 8192).state;
}
static void work_table_cycle(const maker *m) {
    for (int t = 0; t < TURNS; t++)
        at.answer = m->table_cycle(at.device, at.state, same, at.array, 16384, at.residue, 8192);
}

/* The same on a 28F200BR-T in word mode, at 5 V. */
#define AT_5V(k, a, b) {.kind = k, .rp = 1, .data = b, .vpp_mv = 5000, .address = a}
static void ready_words(tb_state state, tb_bus cycle) {
    part(TB_28F200BR_T, 1, 2, 3);
    at.state = state;
    same = cycle;
}
static void ready_word_read(void) { ready_words(resting, (tb_bus)AT_5V(0, 0x1234, 0)); }
static void ready_word_command(void) { ready_words(resting, (tb_bus)AT_5V(1, 0, 0x70)); }
static void ready_word_end(void) {
    tb_state s = busy(TB_PROGRAMMING, 1, 0x1D000);
    s.data = 0x5AC3;
    ready_words(s, (tb_bus)AT_5V(0, 0x1D000, 0));
}
static void ready_word_erase(void) { ready_words(busy(TB_ERASING, 1, 0x1D000), (tb_bus)AT_5V(0, 0, 0)); }
static void ready_byte_read(void) { ready_words(resting, (tb_bus)AT_5V(0, 0x1234, 0)), at.device.word = 0; }
static void ready_byte_command(void) { ready_words(resting, (tb_bus)AT_5V(1, 0, 0x70)), at.device.word = 0; }
static void ready_byte_end(void) {
    tb_state s = busy(TB_PROGRAMMING, 1, 0x3A000);
    s.data = 0x5A;
    ready_words(s, (tb_bus)AT_5V(0, 0x3A000, 0)), at.device.word = 0;
}
static void ready_large_confirm(void) {
    tb_state s = {.mode = TB_MODE_STATUS, .status = 0x80, .phase = TB_ERASE_AWAITED, .wear = WORN};
    ready_words(s, (tb_bus)AT_5V(1, 0x3A000, 0xD0)), at.device.number = TB_28F400BR_B;
}
static void work_large(const maker *m) {
    for (int t = 0; t < TURNS; t++)
        at.answer = m->cycle(at.device, at.state, same, at.array, TB_SIZE_MOST, NULL, 0);
}
static void work_words(const maker *m) {
    for (int t = 0; t < TURNS; t++)
        at.answer = m->cycle(at.device, at.state, same, at.array, 262144, NULL, 0);
}

/* A load of block 1 or 0 of bench T: 512 or 1,024 bytes; of block 1 of a 28F200BR-T, 8,192 bytes; or of the last block of a 28F400BR-T,
 * 131,072 bytes, the longest there is. */
static uint32_t first_of(void) { return size == 512 ? 0x3A00 : size == 1024 ? 0x3C00 : size == 8192 ? 0x3A000 : 0; }
static void fill_full(void) {
    memset(at.array + first_of(), 0, size);
    for (size_t i = 0; i < size; i++)
        at.wanted[i] = speck(i) & 0x7F;
}
static void ready_full(void) {
    part(3, 0, 2, 3);
    fill_full();
}
static void ready_full_words(void) {
    part(TB_28F200BR_T, 1, 2, 3);
    fill_full();
}
static void ready_same(void) {
    ready_full();
    memcpy(at.array + first_of(), at.wanted, size);
}
static void ready_same_words(void) {
    ready_full_words();
    memcpy(at.array + first_of(), at.wanted, size);
}
static void ready_large_on(uint8_t word, bool held) {
    part(TB_28F400BR_T, word, 1, 1);
    fill_full();
    if (held)
        memcpy(at.array, at.wanted, size);
}
static void ready_large(void) { ready_large_on(0, false); }
static void ready_large_same(void) { ready_large_on(0, true); }
static void ready_large_words(void) { ready_large_on(1, false); }
static void ready_large_words_same(void) { ready_large_on(1, true); }
static void work_run_large(const maker *m) {
    at.ran = m->run(at.device, at.state, 1, 0, 5000, 6, at.array, TB_SIZE_MOST, at.wanted, size, at.scratch, size);
}
static void work_verify_large(const maker *m) {
    at.ran = m->verify(at.device, at.state, 1, 0, 0, 6, at.array, TB_SIZE_MOST, at.wanted, size, at.scratch, size);
}
/* The longest run there is, 8,590,393,348 cycles. A run that makes each of its cycles does not come to its end here. */
static void ready_longest(void) {
    ready_large_on(0, false);
    at.device.program = at.device.erase = TB_BUSY_MOST;
}
static void ready_full_bytes(void) {
    part(TB_28F200BR_T, 0, 2, 3);
    fill_full();
}
static void work_stepped(const maker *m) {
    at.ran = m->stepped(at.device, at.state, 2, 0, 12000, size == 512 ? 1 : 0, at.array, 16384, at.wanted, size, at.scratch, size);
}
static void work_run(const maker *m) {
    at.ran = m->run(at.device, at.state, 2, 0, 12000, size == 512 ? 1 : 0, at.array, 16384, at.wanted, size, at.scratch, size);
}
static void work_run_words(const maker *m) {
    at.ran = m->run(at.device, at.state, 1, 0, 5000, 1, at.array, 262144, at.wanted, size, at.scratch, size);
}

/* The verify alone, of block 1 without 12 V. */
static void work_verify(const maker *m) {
    at.ran = m->verify(at.device, at.state, 1, 0, 0, 1, at.array, 16384, at.wanted, size, at.scratch, size);
}
static void work_verify_words(const maker *m) {
    at.ran = m->verify(at.device, at.state, 1, 0, 0, 1, at.array, 262144, at.wanted, size, at.scratch, size);
}

/* The same load by hand: what a part would answer to each of its cycles is worked out before. */
#define STEPS_OF(n) (2 + (n) + 3 + 3 * (n) + 1 + (n))
enum { STEPS = STEPS_OF(512), WORD_STEPS = STEPS_OF(4096) };
static uint16_t fed[WORD_STEPS];
static void feed(tb_device device, size_t bytes, size_t steps) {
    at.given = c_start(device.number, device.word, 1, 0, 12000, 1, at.wanted, size, at.scratch, size);
    tb_state state = at.state;
    tb_turn turn = at.given.turn;
    tb_loader loader = at.given.loader;
    for (size_t i = 0; i < steps; i++) {
        tb_answer a = c_cycle(device, state, turn.cycle, at.array, bytes, NULL, 0);
        state = a.state;
        fed[i] = a.value;
        turn = c_step(&loader, a.value, at.wanted, size, at.scratch, size);
    }
    memset(at.scratch, 0, sizeof at.scratch);
}
static void ready_steps(void) {
    ready_full();
    feed((tb_device){TB_BENCH_T, 0, 1, 1, 1}, 16384, STEPS);
}
static void ready_word_steps(void) {
    ready_full_words();
    feed((tb_device){TB_28F200BR_T, 1, 1, 1, 1}, 262144, WORD_STEPS);
}
static void work_start(const maker *m) {
    for (int t = 0; t < TURNS; t++)
        at.given = m->start(3, 0, 1, 0, 12000, 1, at.wanted, size, at.scratch, size);
}
static void steps(const maker *m, size_t n) {
    for (size_t i = 0; i < n; i++)
        at.given.turn = m->step(&at.given.loader, fed[i], at.wanted, size, at.scratch, size);
}
static void work_steps(const maker *m) { steps(m, STEPS); }
static void work_word_steps(const maker *m) { steps(m, WORD_STEPS); }

static void ready_nothing(void) {}
static void work_fresh(const maker *m) {
    for (int t = 0; t < TURNS; t++)
        at.state = m->fresh();
}
static void work_size(const maker *m) {
    for (int t = 0; t < TURNS; t++)
        at.sum += (uint32_t)m->size(3);
}
static void work_block(const maker *m) {
    for (int t = 0; t < TURNS; t++)
        at.span = m->block(3, 1);
}

/* A file whose payload has `size` bytes. */
static void ready_file(void) {
    specks(at.payload, sizeof at.payload);
    memset(at.file, 0, sizeof at.file);
    at.sized = c_file_write('K', at.payload, size, at.file, sizeof at.file);
}
static void ready_load(void) {
    size = 512;
    ready_full();
    size = 505;
    ready_file();
}
static void work_load(const maker *m) {
    at.ran = m->load(at.device, at.state, 1, 0, 12000, 1, 'K', at.file, 512, at.array, 16384, at.wanted, 512, at.scratch, 512);
}
static void work_write(const maker *m) {
    for (int t = 0; t < TURNS; t++)
        at.sized = m->write('K', at.payload, size, at.file, sizeof at.file);
}
static void work_read(const maker *m) {
    for (int t = 0; t < TURNS; t++)
        at.sum += (uint32_t)m->read('K', at.file, at.sized.length, at.back, sizeof at.back).length;
}
static void work_write_sums(const maker *m) {
    for (int t = 0; t < TURNS; t++)
        at.sized = m->write_sums('K', at.payload, size, at.file, sizeof at.file);
}
static void work_read_sums(const maker *m) {
    for (int t = 0; t < TURNS; t++)
        at.sum += (uint32_t)m->read_sums('K', at.file, at.sized.length, at.back, sizeof at.back).length;
}
static void work_sums(const maker *m) {
    for (int t = 0; t < TURNS; t++)
        at.sum += m->sums(at.file, 510);
}
/* A table of as many knots as `size` says, some 120 microvolts apart, or 4 in a longer one. */
static void ready_table(void) {
    for (size_t i = 0; i < size; i++) {
        uint32_t volts = (uint32_t)(-9000 + (int32_t)(size > 673 ? i * 4 : i * 118 + i * 7 % 50)), tenths = (uint32_t)(i * 13 % 9000);
        const uint8_t six[] = {(uint8_t)(volts >> 24), (uint8_t)(volts >> 16), (uint8_t)(volts >> 8),
                               (uint8_t)volts,         (uint8_t)(tenths >> 8), (uint8_t)tenths};
        memcpy(at.payload + 6 * i, six, 6);
    }
}
static void work_judge(const maker *m) {
    for (int t = 0; t < TURNS; t++)
        at.sum += m->judge(at.payload, 6 * size);
}
static void work_reading(const maker *m) {
    for (int t = 0; t < TURNS; t++) {
        tb_reading r = m->reading(at.payload, 6 * size, -8900 + 780 * t);
        at.heat += r.tenths;
        at.sum += r.answer;
    }
}
static void work_check(const maker *m) {
    for (int t = 0; t < TURNS; t++)
        at.sum += m->check(at.file, 510);
}

/* Reports: one trace more, and as many traces as `size` says. */
static void ready_traces(void) {
    at.state = resting;
    memset(at.numbers, 3, sizeof at.numbers);
    for (size_t i = 0; i < 7 * (size_t)TRACES; i++)
        at.counts[i] = (uint32_t)(i * i * 2654435761u >> 7);
}
static void work_add(const maker *m) {
    for (int t = 0; t < TURNS; t++)
        at.reported = m->add(3, at.reported.report, 3, at.state.wear);
}
static void work_report_once(const maker *m) { at.reported = m->report(3, at.numbers, size, at.counts, 7 * size); }
static void work_report(const maker *m) {
    for (int t = 0; t < TURNS; t++)
        work_report_once(m);
}

/* A store of eight files that fill the main block of part `size`: 28 places each on the 28F001BX, 3 or 4 on bench T. */
static void ready_store(void) {
    static const uint8_t few[8] = {4, 4, 4, 4, 3, 3, 3, 3};
    tb_span b = c_block((uint8_t)size, 3);
    uint8_t *to = at.array + b.first;
    specks(at.payload, sizeof at.payload);
    for (int i = 0; i < 8; i++) {
        size_t blocks = b.length > 100000 ? 28 : few[i];
        to += c_file_write((uint8_t)TB_LETTERS[i], at.payload, blocks * TB_FILE_USED, to, blocks * TB_FILE_BLOCK).length;
    }
}
static void ready_blank_store(void) { memset(at.array, 0xFF, sizeof at.array); }
static void work_find(const maker *m) {
    for (int i = 0; i < TURNS; i++)
        at.sized = m->find((uint8_t)size, 0, 'T', at.array, c_size((uint8_t)size), at.file, sizeof at.file);
}
static void work_find_none(const maker *m) {
    for (int i = 0; i < TURNS; i++)
        at.sized = m->find((uint8_t)size, 0, 'A', at.array, c_size((uint8_t)size), at.file, sizeof at.file);
}

/* A recording of as many records as `size` says, on bench T or on a 28F400BR-T in words: programs with their polls and reads, every tenth
 * time an erase with a suspend. It is made by the second implementation, on an array of its own, which is then the one promised. */
static uint8_t promised[TB_SIZE_MOST];
static tb_record records[RECORDS + 64];
static size_t recorded;
static tb_state recorded_state;
static void record(uint8_t kind, uint32_t address, uint16_t data) {
    tb_device longest = {at.device.number, at.device.word, TB_BUSY_MOST, TB_BUSY_MOST, at.device.suspend};
    tb_bus bus = {.kind = kind, .rp = 1, .data = data, .vpp_mv = 12000, .address = address};
    tb_answer a = c_cycle(longest, recorded_state, bus, promised, c_size(at.device.number), NULL, 0);
    records[recorded++] = (tb_record){bus, a.seen, a.value, 3};
    if (recorded_state.phase < TB_PROGRAMMING && a.state.phase >= TB_PROGRAMMING)
        a.state.left = 3;
    recorded_state = a.state;
}
static void record_program(uint32_t i) {
    const uint16_t writes[] = {0x40, (uint16_t)(i * 321), 0xFF};
    record(1, i, writes[0]), record(1, i, writes[1]), record(0, i, 0), record(0, i, 0), record(0, i, 0), record(1, i, writes[2]);
    record(0, i, 0), record(0, i + 1, 0);
}
static void record_erase(void) {
    static const uint16_t writes[] = {0x20, 0xD0, 0xB0, 0x70, 0xFF};
    uint32_t first = (uint32_t)(c_block(at.device.number, 1).first >> at.device.word);
    for (int i = 0; i < 5; i++)
        record(1, first, writes[i]);
    record(0, 0, 0), record(0, 1, 0), record(1, first, 0xD0), record(0, first, 0), record(0, first, 0), record(1, first, 0xFF);
}
static void ready_recording_on(uint8_t number, uint8_t word) {
    part(number, word, 2, 3);
    memcpy(promised, at.array, sizeof promised);
    recorded_state = at.state;
    recorded = 0;
    for (uint32_t i = 0; recorded + 12 < size; i++)
        i % 10 == 9 ? record_erase() : record_program(i);
    while (recorded < size)
        record(0, (uint32_t)recorded, 0);
}
static void ready_recording(void) { ready_recording_on(TB_BENCH_T, 0); }
static void ready_word_recording(void) { ready_recording_on(TB_28F400BR_T, 1); }
static void work_recording(const maker *m) {
    size_t n = c_size(at.device.number);
    at.checked = m->recording(at.device, at.state, records, size, promised, n, at.array, n);
}

/* A load of 512 bytes whose erase takes 40 cycles and is interrupted `size` times for 16 reads each; S is 3. */
static const uint32_t interrupted_at[] = {2, 5, 9, 20};
static void ready_interrupted(void) {
    size_t times = size;
    size = 512;
    part(TB_BENCH_T, 0, 2, 40);
    fill_full();
    at.device.suspend = 3;
    size = times;
}
/* .. and 65,535 cycles. */
static void ready_long_interrupted(void) {
    ready_interrupted();
    at.device.erase = 65535;
}
static void work_interrupted(const maker *m) {
    uint32_t addresses[READS];
    for (uint32_t i = 0; i < READS; i++)
        addresses[i] = 100 * i;
    at.ran = m->held(at.device, at.state, 1, 0, 12000, 1, 1, at.array, 16384, at.wanted, 512, at.scratch, 512, interrupted_at, size,
                     addresses, READS, at.room, sizeof at.room);
}

static const struct {
    const char *name;
    size_t size;
    unsigned calls;
    void (*ready)(void), (*work)(const maker *);
    const char *more;
} rows[] = {
    {"model: a mix of cycles, per cycle", 0, TURNS * MIXED, ready_mix, work_mix, NULL},
    {"model: an array read", 0, TURNS, ready_mix, work_reads, NULL},
    {"model: an erase's end, 4,096 bytes", 4096, TURNS, ready_erase, work_end, NULL},
    {"model: an erase's end, 8,192 bytes", 8192, TURNS, ready_erase, work_end, "the fill alone, 4,096 bytes"},
    {"model: an erase cut, 4,096 bytes copied", 4096, TURNS, ready_erase, work_cut, NULL},
    {"model: an erase cut, 8,192 bytes copied", 8192, TURNS, ready_erase, work_cut, "the copy alone, 4,096 bytes"},
    {"model: an idle cycle", 0, TURNS, ready_idle, work_same_cycle, NULL},
    {"model: a write, 70H", 0, TURNS, ready_command, work_same_cycle, NULL},
    {"model: D0H that starts an erase", 0, TURNS, ready_confirm, work_same_cycle, NULL},
    {"model: a poll while an erase is busy", 0, TURNS, ready_poll, work_same_cycle, NULL},
    {"model: B0H while an erase is busy", 0, TURNS, ready_suspend, work_same_cycle, NULL},
    {"model: the last cycle of a suspend, a read", 0, TURNS, ready_held, work_same_cycle, NULL},
    {"model: D0H while suspended", 0, TURNS, ready_resume, work_same_cycle, NULL},
    {"model: a program cut by VPP", 0, TURNS, ready_fall, work_same_cycle, NULL},
    {"model: a reset by RP# low", 0, TURNS, ready_reset, work_same_cycle, NULL},
    {"by the table: a mix of cycles, per cycle", 0, TURNS * MIXED, ready_mix, work_table_mix, NULL},
    {"by the table: an idle cycle", 0, TURNS, ready_idle, work_table_cycle, NULL},
    {"by the table: a write, 70H", 0, TURNS, ready_command, work_table_cycle, NULL},
    {"words: an array read", 0, TURNS, ready_word_read, work_words, NULL},
    {"words: a write, 70H", 0, TURNS, ready_word_command, work_words, NULL},
    {"words: a program's end", 0, TURNS, ready_word_end, work_words, NULL},
    {"words: an erase's end, 8,192 bytes", 0, TURNS, ready_word_erase, work_words, NULL},
    {"device 5, bytes: an array read", 0, TURNS, ready_byte_read, work_words, NULL},
    {"device 5, bytes: a write, 70H", 0, TURNS, ready_byte_command, work_words, NULL},
    {"device 5, bytes: a program's end", 0, TURNS, ready_byte_end, work_words, NULL},
    {"device 8, words: D0H that starts an erase, block 6", 0, TURNS, ready_large_confirm, work_large, NULL},
    {"device 7: an erase's end, 131,072 bytes", 0, TURNS, ready_long_erase, work_long_end, NULL},
    {"device 7: an erase cut, 131,072 bytes copied", 0, TURNS, ready_long_erase, work_long_cut, NULL},
    {"fresh", 0, TURNS, ready_nothing, work_fresh, NULL},
    {"size of a part", 0, TURNS, ready_nothing, work_size, NULL},
    {"block of a part", 0, TURNS, ready_nothing, work_block, NULL},
    {"loader: a start", 512, TURNS, ready_full, work_start, NULL},
    {"loader: a load of 512 bytes, per step", 512, STEPS, ready_steps, work_steps, NULL},
    {"words: a load of 4,096, per step", 8192, WORD_STEPS, ready_word_steps, work_word_steps, NULL},
    {"run: 512 bytes, one erase, all programmed", 512, 1, ready_full, work_run, NULL},
    {"run: 1,024 bytes, one erase, all programmed", 1024, 1, ready_full, work_run, NULL},
    {"run: 512 bytes held as wanted", 512, 1, ready_same, work_run, NULL},
    {"run: 1,024 bytes held as wanted", 1024, 1, ready_same, work_run, NULL},
    {"verify: 512 bytes held as wanted", 512, 1, ready_same, work_verify, NULL},
    {"words: a run of 4,096, one erase, all programmed", 8192, 1, ready_full_words, work_run_words, NULL},
    {"words: a run of 4,096 held as wanted", 8192, 1, ready_same_words, work_run_words, NULL},
    {"words: a verify of 4,096 held as wanted", 8192, 1, ready_same_words, work_verify_words, NULL},
    {"run: 512 bytes, all programmed, the C by steps", 512, 1, ready_full, work_stepped, NULL},
    {"run: 512 bytes held as wanted, the C by steps", 512, 1, ready_same, work_stepped, NULL},
    {"device 5, bytes: a run of 8,192, all programmed", 8192, 1, ready_full_bytes, work_run_words, NULL},
    {"device 7, bytes: a run of 131,072, P and E 1", TB_BLOCK_MOST, 1, ready_large, work_run_large, NULL},
    {"device 7, bytes: 131,072 held as wanted", TB_BLOCK_MOST, 1, ready_large_same, work_run_large, NULL},
    {"device 7, words: a run of 65,536, P and E 1", TB_BLOCK_MOST, 1, ready_large_words, work_run_large, NULL},
    {"device 7, words: 65,536 held as wanted", TB_BLOCK_MOST, 1, ready_large_words_same, work_run_large, NULL},
    {"device 7, bytes: a verify of 131,072", TB_BLOCK_MOST, 1, ready_large_same, work_verify_large, NULL},
    {"device 7, words: a verify of 65,536", TB_BLOCK_MOST, 1, ready_large_words_same, work_verify_large, NULL},
    {"device 7, bytes: a run of 131,072, P and E 65,535", TB_BLOCK_MOST, 1, ready_longest, work_run_large, NULL},
    {"held: 512 bytes, an erase of 40, no interruption", 0, 1, ready_interrupted, work_interrupted, NULL},
    {"held: the same with four interruptions of 16 reads", 4, 1, ready_interrupted, work_interrupted, "the four interruptions alone"},
    {"held: the same, an erase of 65,535", 4, 1, ready_long_interrupted, work_interrupted, NULL},
    {"load from a file of one block", 505, 1, ready_load, work_load, NULL},
    {"writer: one block", 505, TURNS, ready_file, work_write, NULL},
    {"writer: eight blocks", 4040, TURNS, ready_file, work_write, NULL},
    {"reader: one block", 505, TURNS, ready_file, work_read, NULL},
    {"reader: eight blocks", 4040, TURNS, ready_file, work_read, NULL},
    {"writer: 224 blocks", TB_PAYLOAD_MOST, TURNS, ready_file, work_write, NULL},
    {"reader: 224 blocks", TB_PAYLOAD_MOST, TURNS, ready_file, work_read, NULL},
    {"writer: one block, the C without a product", 505, TURNS, ready_file, work_write_sums, NULL},
    {"writer: 224 blocks, the C without a product", TB_PAYLOAD_MOST, TURNS, ready_file, work_write_sums, NULL},
    {"reader: one block, the C without a product", 505, TURNS, ready_file, work_read_sums, NULL},
    {"reader: 224 blocks, the C without a product", TB_PAYLOAD_MOST, TURNS, ready_file, work_read_sums, NULL},
    {"check of 510 bytes", 505, TURNS, ready_file, work_check, NULL},
    {"check of 510 bytes, the C without a product", 505, TURNS, ready_file, work_sums, NULL},
    {"reading: a table of 673 knots judged", 673, TURNS, ready_table, work_judge, NULL},
    {"reading: one by a table of 673 knots", 673, TURNS, ready_table, work_reading, NULL},
    {"reading: a table of 18,853 knots judged", 18853, TURNS, ready_table, work_judge, NULL},
    {"reading: one by a table of 18,853 knots", 18853, TURNS, ready_table, work_reading, NULL},
    {"wear: a report with one trace more", 0, TURNS, ready_traces, work_add, NULL},
    {"wear: a report on 100 traces", 100, TURNS, ready_traces, work_report, NULL},
    {"wear: a report on 1,000 traces", 1000, TURNS, ready_traces, work_report, NULL},
    {"wear: a report on 65,535 traces", TB_TRACES_MOST, 1, ready_traces, work_report_once, NULL},
    {"recording: 300 records, array of 16,384 compared", 300, 1, ready_recording, work_recording, NULL},
    {"recording: 600 records, array of 16,384 compared", 600, 1, ready_recording, work_recording, "300 records alone"},
    {"words: 300 records, array of 524,288 compared", 300, 1, ready_word_recording, work_recording, NULL},
    {"words: 600 records, array of 524,288 compared", 600, 1, ready_word_recording, work_recording, "words: 300 records alone"},
    {"store: 28 blank places judged", 3, TURNS, ready_blank_store, work_find_none, NULL},
    {"store: eight files in 28 places judged", 3, TURNS, ready_store, work_find_none, NULL},
    {"store: a file of 3 blocks found among them", 3, TURNS, ready_store, work_find, NULL},
    {"store: eight files in 224 places judged", 1, TURNS, ready_store, work_find_none, NULL},
    {"store: a file of 28 blocks found among them", 1, TURNS, ready_store, work_find, NULL},
};

/* A number over everything that the work left. Structs have padding, so it goes field by field. */
static uint64_t more(uint64_t h, uint64_t x) { return (h ^ x) * 0x100000001B3u + (x >> 32); }
static uint64_t with_state(uint64_t h, tb_state s) {
    for (int k = 0; k < TB_BLOCKS_MOST; k++)
        h = more(h, s.wear.block[k]);
    return more(more(more(more(more(more(more(h, s.mode), s.status), s.phase), s.data), s.left), s.suspend), s.address);
}
static uint64_t with_report(uint64_t h, tb_report r) {
    for (int k = 0; k < TB_BLOCKS_MOST; k++)
        h = more(more(more(more(h, r.block[k].total), r.block[k].largest), r.block[k].smallest), r.block[k].passed);
    return more(h, r.traces);
}
static uint64_t with_given(uint64_t h, tb_given g) {
    tb_bus c = g.turn.cycle;
    tb_loader l = g.loader;
    const uint64_t all[] = {g.turn.turn, g.turn.number, g.turn.address, c.kind, c.rp, c.oe, c.wp, c.data, c.vpp_mv,
                            c.address, l.part, l.word, l.rp, l.wp, l.block, l.stage, l.end, l.verify, l.high, l.vpp_mv, l.polls, l.place};
    for (size_t i = 0; i < sizeof all / sizeof all[0]; i++)
        h = more(h, all[i]);
    return h;
}
static uint64_t heat_bits(void) {
    uint64_t bits;
    memcpy(&bits, &at.heat, sizeof bits);
    return bits;
}
static uint64_t left(void) {
    const uint64_t all[] = {at.answer.seen, at.answer.value, at.ran.count, at.ran.end, at.ran.address, at.sized.number,
                            at.sized.length, at.span.first, at.span.length, at.reported.number, at.checked.refusal, at.checked.accepted,
                            at.checked.at, at.sum, heat_bits()};
    uint64_t h = 14695981039346656037u, eight;
    h = with_given(with_state(with_state(with_state(h, at.state), at.answer.state), at.ran.state), at.given);
    h = with_state(h, at.checked.state);
    h = with_report(h, at.reported.report);
    for (size_t i = 0; i < sizeof all / sizeof all[0]; i++)
        h = more(h, all[i]);
    for (size_t i = 0; i < offsetof(__typeof__(at), device); i += sizeof eight) {
        memcpy(&eight, (const uint8_t *)&at + i, sizeof eight);
        h = more(h, eight);
    }
    return h;
}

static uint64_t part_of_row(unsigned k, int which) {
    memset(&at, 0, sizeof at);
    size = rows[k].size;
    rows[k].ready();
    syscall(MARK, 4 * k + 2 * (unsigned)which);
    rows[k].work(which == 0 ? &proved : &second);
    syscall(MARK, 4 * k + 2 * (unsigned)which + 1);
    return left();
}

int main(void) {
    for (unsigned k = 0; k < sizeof rows / sizeof rows[0]; k++) {
        uint64_t a = part_of_row(k, 0), b = part_of_row(k, 1);
        if (a != b) {
            printf("the two differ in: %s\n", rows[k].name);
            return 1;
        }
        printf("row %u %u %s\n", k, rows[k].calls, rows[k].name);
        if (rows[k].more != NULL) /* what this row cost above the one before it */
            printf("more %u %u %s\n", k, rows[k].calls, rows[k].more);
    }
    return 0;
}
