/* The stepped loader: fed by a model, by status-like values or by noise; and forged records. */
#include <stdio.h>

#include "cases.h"

static twin wanted, scratch;
static tb_loader before, lib_record, ref_record;
static tb_turn lib, ref;
static uint16_t value; /* what was read */
static uint32_t blank; /* how many of a hundred units of a fed block are blank */

static void tell_loader(const char *who, tb_loader l) {
    printf("  %s: part %u, word mode %u, RP# %u, WP# %u, VPP %lu, block %u", who, l.part, l.word, l.rp, l.wp, (unsigned long)l.vpp_mv,
           l.block);
    printf(", stage %u, end %u, verify %u, high %u, polls %lu, place %zu\n", l.stage, l.end, l.verify, l.high,
           (unsigned long)l.polls, l.place);
}

static void tell_turn(const char *who, tb_turn t) {
    printf("  %s: turn %u, number %u, address %lX\n", who, t.turn, t.number, (unsigned long)t.address);
    tell_bus(t.cycle);
}

static void tell(void) {
    tell_loader("record", before);
    printf("  value %04X, wanted %zu, scratch %zu bytes\n", value, wanted.length, scratch.length);
    tell_turn("the library", lib);
    tell_loader("leaves", lib_record);
    tell_turn("expected", ref);
    tell_loader("leaves", ref_record);
}

static bool same_turn(void) {
    return lib.turn == ref.turn && lib.number == ref.number && lib.address == ref.address && same_bus(lib.cycle, ref.cycle);
}

static bool same_record(tb_loader a, tb_loader b) {
    return a.part == b.part && a.word == b.word && a.rp == b.rp && a.wp == b.wp && a.block == b.block && a.stage == b.stage &&
           a.end == b.end && a.verify == b.verify && a.high == b.high && a.vpp_mv == b.vpp_mv && a.polls == b.polls &&
           a.place == b.place;
}

typedef tb_given start_call(uint8_t, uint8_t, uint8_t, uint8_t, uint32_t, uint8_t, const uint8_t *, size_t, const uint8_t *, size_t);
static start_call *const lib_starts[] = {tb_start, tb_load_start, tb_verify_start};
static start_call *const ref_starts[] = {c_start, c_load_start, c_verify_start};

/* The start of a run, of a load alone or of a verify alone, by what stands in `before`. */
static void compare_start(uint32_t what) {
    twin *lent[] = {&wanted, &scratch};
    tb_loader l = before;
    tb_given a = lib_starts[what](l.part, l.word, l.rp, l.wp, l.vpp_mv, l.block, lib_of(&wanted), wanted.length, lib_of(&scratch),
                                  scratch.length);
    tb_given b = ref_starts[what](l.part, l.word, l.rp, l.wp, l.vpp_mv, l.block, ref_of(&wanted), wanted.length, ref_of(&scratch),
                                  scratch.length);
    lib = a.turn, lib_record = a.loader;
    ref = b.turn, ref_record = b.loader;
    alike(same_turn() && same_record(lib_record, ref_record), "start", lent, 2);
    met_on(IN_START, l.part, l.word, ref.number, ref.turn == TB_BARRED);
}

static void account(void) {
    bool word = real_mode(before.part, before.word);
    count_step();
    if (ref.turn != TB_CYCLE_OUT)
        met_on(IN_STEP, before.part, before.word, ref.number, ref.turn == TB_BARRED);
    if (ref.turn != TB_BARRED)
        met_stage(before.stage, word);
    mark_if(word && before.stage == TB_VERIFYING && ref.turn == TB_OVER && ref.number == TB_VERIFY_FAILED,
            ref.address % 2 ? HIGH_DIFFERS : LOW_DIFFERS);
}

static void compare_step(void) {
    twin *lent[] = {&wanted, &scratch};
    before = ref_record;
    lib = tb_step(&lib_record, value, lib_of(&wanted), wanted.length, lib_of(&scratch), scratch.length);
    untouched(lib.turn == TB_BARRED, "step", lent, 2);
    if (lib.turn == TB_BARRED && !same_record(lib_record, before))
        mismatch("step: a refusal moved the record");
    ref = c_step(&ref_record, value, ref_of(&wanted), wanted.length, ref_of(&scratch), scratch.length);
    alike(same_turn() && same_record(lib_record, ref_record), "step", lent, 2);
    account();
}

static void some_bytes(tb_span b) {
    uint32_t n = (uint32_t)b.length;
    wanted.length = scratch.length = n;
    twin_fill(&wanted, 0, n, 0xFF);
    for (uint32_t i = below(12); i > 0; i--)
        twin_set(&wanted, below(n), (uint8_t)any32());
    twin_noise(&scratch, below(n - 8), 8);
}

/* The wanted unit at the record's place. */
static uint16_t wanted_here(void) {
    const uint8_t *at = wanted.ref + (ref_record.place << ref_record.word);
    return (uint16_t)(ref_record.word ? at[0] | at[1] << 8 : at[0]);
}

/* Eight bits where they are all that counts, mostly without others above. */
static uint16_t with_high(uint32_t low) { return (uint16_t)(chance(80) ? low & 0xFF : (low & 0xFF) | any32() << 8); }

static uint16_t some_status(void) {
    return with_high(chance(40) ? 0x80 : chance(50) ? below(8) << 3 : chance(50) ? 0x80 | below(32) << 3 : any32());
}

/* Another unit than the one that is wanted: a byte of it, or any. */
static uint16_t near_miss(uint16_t unit) { return (uint16_t)(chance(80) ? unit ^ 1u << below(ref_record.word ? 16 : 8) : any32()); }

/* How a load is fed: 0 noise, 1 by what is wanted with good statuses, 2 the same with faults. */
static uint16_t fed(int how) {
    bool verify = ref_record.stage == TB_VERIFYING, array_read = verify || ref_record.stage == TB_READING;
    if (how == 0)
        return (uint16_t)any32();
    if (how == 2 && !array_read && chance(30))
        return some_status();
    if (how == 2 && verify && below(2000) == 0)
        return near_miss(wanted_here());
    if (!array_read)
        return with_high(chance(20) ? 0x00 : 0x80);
    if (verify)
        return wanted_here();
    return (uint16_t)(chance(blank) ? 0xFFFF : any32());
}

static void good_levels(uint8_t part, uint8_t word, uint8_t block) {
    before = (tb_loader){.part = part, .word = word, .rp = (uint8_t)(1 + below(2)), .wp = some_wp(part, 0), .block = block};
    before.vpp_mv = some_vpp(part, 0);
}

static void feed(uint8_t part, uint8_t word, uint8_t block) {
    int how = (int)below(3);
    blank = ONE_OF(98, 100);
    some_bytes(c_block(part, block));
    good_levels(part, word, block);
    compare_start(below(3));
    while (ref.turn == TB_CYCLE_OUT) {
        value = fed(how);
        compare_step();
    }
    for (int i = 0; i < 3; i++) { /* the end is repeated */
        value = (uint16_t)any32();
        compare_step();
    }
}

/* Polls that never get ready: 65,535 of them. (R-number-20) */
static void poll_on(uint8_t part, uint8_t word, bool erase) {
    uint64_t polls = 0;
    some_bytes(c_block(part, 1));
    twin_fill(&wanted, 0, wanted.length, erase ? 0xFF : 0x00);
    good_levels(part, word, 1);
    compare_start(below(2));
    while (ref.turn == TB_CYCLE_OUT) {
        bool wait = ref_record.stage == TB_ERASE_WAITING || ref_record.stage == TB_PROGRAM_WAITING;
        polls += wait;
        value = wait ? 0xFF7F : erase ? 0x0000 : 0xFFFF;
        compare_step();
    }
    if (lib.number != TB_NEVER_READY || polls != 65535)
        mismatch("20 after 65,535 polls");
}

/* A start with something bad in it. (R-order-4) */
static void bad_start(void) {
    uint8_t part = some_part(), block = (uint8_t)(chance(80) ? below(7) : ONE_OF(4, 5, 7, 255)), word = some_mode(part);
    tb_span b = c_block(real_part(part), block);
    if (b.length == 0)
        b = c_block(real_part(part), 1);
    uint32_t n = (uint32_t)b.length;
    wanted.length = chance(90) ? n : ONE_OF(0, n / 2, n - 1, n + 1);
    scratch.length = chance(90) ? n : ONE_OF(0, n / 2, n - 1, n + 1);
    before = (tb_loader){.part = part, .word = word, .block = block, .rp = (uint8_t)(chance(80) ? 1 + below(2) : ONE_OF(0, 3, 255))};
    before.wp = some_wp(part, 10);
    before.vpp_mv = some_vpp(part, 20);
    compare_start(below(3));
    value = (uint16_t)any32();
    compare_step();
}

/* Any numbers as a record, mostly near good ones; n is the block's length in units. (R-number-3, R-demand-1) */
static tb_loader forged_record(uint8_t part, uint8_t word, uint8_t block, uint32_t n) {
    tb_loader l = {.part = part, .word = word, .rp = (uint8_t)(chance(95) ? 1 + below(2) : any32()), .block = block};
    l.wp = some_wp(part, 4);
    l.vpp_mv = some_vpp(part, 6);
    l.stage = (uint8_t)(chance(95) ? below(12) : any32());
    l.end = (uint8_t)(l.stage == TB_ENDED ? (chance(70) ? ONE_OF(0, 20, 21, 25, 25, 11) : any32()) : chance(96) ? 0 : any32());
    l.verify = (uint8_t)(chance(96) ? below(2) : any32());
    l.high = (uint8_t)(chance(70) ? 0 : chance(90) ? 1 : any32());
    l.polls = chance(50) ? 0 : chance(90) ? 65530 + below(6) : any32();
    l.place = chance(60) ? below(n) : ONE_OF(0, n - 1, n - 1, n - 2, n - 2, n, n + 1, 2 * n - 1);
    if (chance(3))
        l.place = (size_t)0 - 1 - below(3);
    return l;
}

static uint16_t forged_value(tb_span b) {
    bool verifying = ref_record.stage == TB_VERIFYING && wanted.length == b.length && ref_record.word <= real_mode(ref_record.part, 1) &&
                     ref_record.place < b.length >> ref_record.word;
    if (!verifying || chance(20))
        return some_status();
    return chance(60) ? wanted_here() : near_miss(wanted_here());
}

static void forge(void) {
    uint8_t part = chance(90) ? (uint8_t)(3 + below(6)) : some_part(), word = some_mode(part);
    uint8_t block = (uint8_t)(chance(92) ? below(3) : chance(20) ? some_block(real_part(part)) : any32());
    tb_span b = c_block(real_part(part), block);
    if (b.length == 0)
        b = c_block(real_part(part), block & 3);
    uint32_t n = (uint32_t)b.length;
    some_bytes(b);
    lib_record = ref_record = forged_record(part, word, block, n >> real_mode(part, word));
    if (chance(4))
        wanted.length = ONE_OF(0, n / 2, n - 1, n + 1);
    if (chance(4))
        scratch.length = ONE_OF(0, n / 2, n - 1, n + 1);
    for (uint32_t i = 1 + below(6); i > 0; i--) {
        value = forged_value(b);
        compare_step();
        if (ref.turn == TB_BARRED)
            return;
    }
}

static void begin(void) {
    tell_case = tell;
    twin_new(&wanted, "wanted", TB_BLOCK_MOST + 1);
    twin_new(&scratch, "scratch", TB_BLOCK_MOST + 1);
}

void endless(void) {
    begin();
    for (int erase = 0; erase < 2; erase++) {
        poll_on(TB_BENCH_T, TB_BYTE_MODE, erase);
        poll_on(TB_28F200BR_T, TB_WORD_MODE, erase);
    }
}

/* Loads of the bench parts' short blocks, some of a parameter block of devices 5 to 8, and forged records. */
void steps(uint32_t fed_loads, uint32_t fed_long, uint32_t forged) {
    begin();
    for (uint32_t i = 0; i < fed_loads; i++)
        feed((uint8_t)(3 + below(2)), TB_BYTE_MODE, (uint8_t)ONE_OF(0, 1, 1, 2, 2));
    for (uint32_t i = 0; i < fed_long; i++)
        feed((uint8_t)(TB_28F200BR_T + below(4)), chance(75), (uint8_t)(1 + below(2)));
    for (uint32_t i = 0; i < forged; i++) {
        if (chance(10))
            bad_start();
        else
            forge();
    }
}
