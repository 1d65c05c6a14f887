/* Random loads whose erase is interrupted: run by both, stepped by both against a model or noise, and forged records. */
#include <stdio.h>
#include <string.h>

#include "cases.h"

enum { POLLS_LENT = 8 };

static twin array, wanted, scratch, room, file;
static uint32_t polls[POLLS_LENT], addresses[TB_HELD_MOST + 1];
static size_t polls_length, count;
static tb_device device;
static tb_state state;
static uint8_t rp, wp, block, verify;
static uint32_t vpp;
static uint16_t value;
static tb_ran lib, ref;
static tb_held before, lib_held, ref_held;
static tb_turn lib_turn, ref_turn;

static void tell_held(const char *who, tb_held x) {
    printf("  %s: stage %u, end %u, place %zu, polls %lu; step %u, suspended %u, number %lu, waits %lu, place %zu\n", who, x.loader.stage,
           x.loader.end, x.loader.place, (unsigned long)x.loader.polls, x.hold.step, x.hold.suspended, (unsigned long)x.hold.number,
           (unsigned long)x.hold.waits, x.hold.place);
}

static void tell(void) {
    printf("  file of %zu bytes\n", file.length);
    tell_device(device);
    tell_state("before", state);
    printf("  RP# %u, WP# %u, VPP %lu, block %u, verify %u, array %zu, wanted %zu, scratch %zu, room %zu bytes\n", rp, wp,
           (unsigned long)vpp, block, verify, array.length, wanted.length, scratch.length, room.length);
    for (size_t i = 0; i < polls_length; i++)
        printf("  poll %lu\n", (unsigned long)polls[i]);
    for (size_t i = 0; i < count && i < 8; i++)
        printf("  address %lX of %zu\n", (unsigned long)addresses[i], count);
    printf("  library: count %llu, end %u; expected: count %llu, end %u\n", (unsigned long long)lib.count, lib.end,
           (unsigned long long)ref.count, ref.end);
    printf("  value %04X; library: turn %u, number %u; expected: turn %u, number %u\n", value, lib_turn.turn, lib_turn.number,
           ref_turn.turn, ref_turn.number);
    tell_held("record", before);
    tell_held("library", lib_held);
    tell_held("expected", ref_held);
}

static bool same_ran(void) {
    return lib.count == ref.count && lib.end == ref.end && lib.address == ref.address && same_state(lib.state, ref.state);
}

static bool same_turn(void) {
    return lib_turn.turn == ref_turn.turn && lib_turn.number == ref_turn.number && lib_turn.address == ref_turn.address &&
           same_bus(lib_turn.cycle, ref_turn.cycle);
}

static bool same_held(tb_held a, tb_held b) {
    return a.loader.part == b.loader.part && a.loader.word == b.loader.word && a.loader.rp == b.loader.rp && a.loader.wp == b.loader.wp &&
           a.loader.block == b.loader.block && a.loader.stage == b.loader.stage && a.loader.end == b.loader.end &&
           a.loader.verify == b.loader.verify && a.loader.high == b.loader.high && a.loader.vpp_mv == b.loader.vpp_mv &&
           a.loader.polls == b.loader.polls && a.loader.place == b.loader.place && a.hold.step == b.hold.step &&
           a.hold.suspended == b.hold.suspended && a.hold.number == b.hold.number && a.hold.waits == b.hold.waits &&
           a.hold.place == b.hold.place;
}

/* A unit address outside the block, or now and then anywhere. (R-held-3) */
static uint32_t read_address(tb_span b) {
    uint32_t units = (uint32_t)(c_size(device.number) >> device.word);
    for (int turn = 0; turn < 20; turn++) {
        uint32_t at = chance(70) ? below(units) : ONE_OF(0, units - 1, (uint32_t)(b.first >> device.word) - 1,
                                                         (uint32_t)((b.first + b.length) >> device.word));
        if (at < units && (at << device.word) - b.first >= b.length)
            return at;
    }
    return 0;
}

static void some_lists(tb_span b) {
    polls_length = below(POLLS_LENT + 1);
    for (size_t i = 0; i < polls_length; i++)
        polls[i] = chance(85) ? 1 + below(device.erase + 1u) : ONE_OF(0, 0, 4294967295u, any32());
    count = chance(3) ? ONE_OF(TB_HELD_MOST, TB_HELD_MOST + 1) : below(6);
    for (size_t i = 0; i < count; i++)
        addresses[i] = i < 16 || i + 1 == count ? read_address(b) : addresses[i - 16];
    room.length = (count << device.word) + below(4);
    twin_noise(&room, 0, room.length);
}

/* One of the things for the interruptions is bad. */
static void spoil_lists(tb_span b) {
    switch (below(3)) {
    case 0:
        if (room.length != 0)
            room.length = below((uint32_t)room.length);
        break;
    case 1:
        if (count != 0)
            addresses[below((uint32_t)count)] = (uint32_t)(b.first >> device.word) + below((uint32_t)(b.length >> device.word));
        break;
    default:
        if (count != 0)
            addresses[below((uint32_t)count)] = ONE_OF((uint32_t)(c_size(device.number) >> device.word), 4294967295u, 2147483648u);
    }
}

static void spoil(void) {
    switch (below(9)) {
    case 0:
        if (chance(50))
            device.erase = 0;
        else
            device.number = (uint8_t)ONE_OF(0, 9, 255);
        break;
    case 1: array.length = ONE_OF(0, array.length - 1, array.length + 1); break;
    case 2: block = (uint8_t)ONE_OF(4, 7, 255); break;
    case 3: wanted.length = ONE_OF(0, wanted.length - 1, wanted.length + 1); break;
    case 4: scratch.length = ONE_OF(0, scratch.length - 1, scratch.length + 1); break;
    case 5: device.word = (uint8_t)ONE_OF(1, 2, 255); break;
    default: state = some_state(device);
    }
}

static void some_case(void) {
    uint8_t part = (uint8_t)(chance(50) ? ONE_OF(TB_BENCH_T, TB_BENCH_B) : 1 + below(8));
    device = (tb_device){part, some_mode(part), (uint16_t)(1 + below(3)), (uint16_t)(1 + below(6)), (uint8_t)(1 + below(8))};
    device.word = two_widths(part) && device.word == TB_WORD_MODE;
    block = (uint8_t)(chance(30) ? 0 : 1 + below(2));
    rp = (uint8_t)(chance(3) ? ONE_OF(0, 3) : block == 0 ? ONE_OF(1, 2, 2) : ONE_OF(1, 2));
    wp = some_wp(part, 2);
    vpp = some_vpp(part, 5);
    verify = (uint8_t)ONE_OF(0, 1, 1, 2);
    state = (tb_state){.mode = (uint8_t)below(3), .status = (uint8_t)(0x80 | (chance(30) ? below(8) << 3 : 0)), .wear = some_wear()};
    tb_span b = c_block(part, block);
    array.length = c_size(part);
    wanted.length = scratch.length = b.length;
    twin_fill(&wanted, 0, b.length, 0xFF);
    for (uint32_t i = below(6); i > 0; i--)
        twin_set(&wanted, below((uint32_t)b.length), (uint8_t)any32());
    if (chance(75))
        twin_set(&array, b.first + below((uint32_t)b.length), (uint8_t)(any32() & 0x7F));
    else
        twin_fill(&array, b.first, b.length, 0xFF);
    twin_noise(&scratch, 0, 64);
    some_lists(b);
    if (chance(10))
        spoil_lists(b);
    if (chance(15))
        spoil();
}

/* Whether a bit had to rise, of a call that was let pass. */
static bool rises(void) {
    tb_span b = c_block(device.number, block);
    for (size_t i = 0; i < b.length; i++)
        if (wanted.ref[i] & ~array.ref[b.first + i])
            return true;
    return false;
}

/* What the interruptions add to a good load, by the request's own figures. (R-held-2) */
static uint64_t extras(void) {
    uint64_t sum = 0;
    for (uint32_t n = 1; n <= device.erase; n++)
        for (size_t i = 0; i < polls_length; i++)
            if (polls[i] == n) {
                sum += count + 3 + (n == device.erase ? 0 : device.suspend > 2 ? device.suspend - 1u : 1);
                break;
            }
    return sum;
}

static void account(bool rose) {
    uint64_t more = ref.end == TB_OK && rose ? extras() : 0;
    met_on(IN_HELD_RUN, device.number, device.word, ref.end, ref.count == 0);
    mark_if(more != 0, HELD_MADE);
    mark_if(more != 0 && device.word, HELD_WORDS);
    mark_if(more != 0 && count == 0, HELD_NO_READS);
    mark_if(more != 0 && count == TB_HELD_MOST, HELD_ALL_READS);
    mark_if(ref.end == TB_OK && rose && polls_length != 0 && more == 0, HELD_NEVER);
    mark_if(ref.end == TB_OK && !rose && polls_length != 0, HELD_NO_ERASE);
}

/* The second implementation once more, its erase at once, on copies: both must return and leave the same. */
static uint8_t quick_array[TB_SIZE_MOST + 1], quick_scratch[TB_BLOCK_MOST + 1], quick_room[2 * TB_HELD_MOST + 8];
static tb_ran quick_ran(void) {
    memcpy(quick_array, array.ref, array.length);
    memcpy(quick_scratch, scratch.ref, scratch.length);
    memcpy(quick_room, room.ref, room.length);
    return c_held_quick(device, state, rp, wp, vpp, block, verify, quick_array, array.length, wanted.ref, wanted.length, quick_scratch,
                        scratch.length, polls, polls_length, addresses, count, quick_room, room.length);
}
static void hold_quick(tb_ran quick) {
    lib = quick;
    if (!same_ran() || memcmp(quick_array, array.ref, array.length) != 0 || memcmp(quick_scratch, scratch.ref, scratch.length) != 0 ||
        memcmp(quick_room, room.ref, room.length) != 0)
        mismatch("held run, its erase at once and by cycles, both of the second implementation");
}

static void compare_run(void) {
    twin *lent[] = {&array, &wanted, &scratch, &room};
    bool passes, rose;
    lib = tb_held_run(device, state, rp, wp, vpp, block, verify, lib_of(&array), array.length, lib_of(&wanted), wanted.length,
                      lib_of(&scratch), scratch.length, polls_length == 0 && chance(50) ? NULL : polls, polls_length, addresses, count,
                      lib_of(&room), room.length);
    untouched(lib.count == 0, "held run", lent, 4);
    passes = lib.count != 0;
    rose = passes && rises();
    if (passes && lib.end == TB_OK) {
        /* the same load without interruptions, on a copy: its count and what the request adds */
        static uint8_t copy[TB_SIZE_MOST], other[TB_BLOCK_MOST];
        memcpy(copy, array.ref, array.length);
        memcpy(other, scratch.ref, scratch.length);
        tb_ran old = (verify ? c_run : c_load_run)(device, state, rp, wp, vpp, block, copy, array.length, wanted.ref, wanted.length, other,
                                                   scratch.length);
        if (lib.count != old.count + (rose ? extras() : 0))
            mismatch("held run: the count");
    }
    tb_ran quick = quick_ran();
    ref = c_held_run(device, state, rp, wp, vpp, block, verify, ref_of(&array), array.length, ref_of(&wanted), wanted.length,
                     ref_of(&scratch), scratch.length, polls, polls_length, addresses, count, ref_of(&room), room.length);
    alike(same_ran(), "held run", lent, 4);
    hold_quick(quick);
    account(rose);
    count_held();
}

/* The same from a file, sound or spoilt. */
static void compare_load(void) {
    twin *lent[] = {&array, &wanted, &scratch, &room, &file};
    static uint8_t payload[505], bytes[512];
    uint8_t letter = (uint8_t)"BEJKNRST"[below(8)], asked = chance(95) ? letter : 'Q';
    for (size_t i = 0; i < sizeof payload; i++)
        payload[i] = (uint8_t)any32();
    c_file_write(letter, payload, 1 + below(sizeof payload), bytes, sizeof bytes);
    twin_copy(&file, 0, bytes, sizeof bytes);
    file.length = chance(95) ? sizeof bytes : below(sizeof bytes);
    if (chance(5))
        twin_set(&file, below(sizeof bytes), (uint8_t)any32());
    lib = tb_held_load(device, state, rp, wp, vpp, block, verify, asked, lib_of(&file), file.length, lib_of(&array), array.length,
                       lib_of(&wanted), wanted.length, lib_of(&scratch), scratch.length, polls, polls_length, addresses, count,
                       lib_of(&room), room.length);
    untouched(lib.count == 0, "held load", lent, 5);
    ref = c_held_load(device, state, rp, wp, vpp, block, verify, asked, ref_of(&file), file.length, ref_of(&array), array.length,
                      ref_of(&wanted), wanted.length, ref_of(&scratch), scratch.length, polls, polls_length, addresses, count,
                      ref_of(&room), room.length);
    alike(same_ran(), "held load", lent, 5);
    met_on(IN_HELD_LOAD, device.number, device.word, ref.end, ref.count == 0);
    count_held();
}

static void started(void) {
    twin *lent[] = {&wanted, &scratch, &room};
    tb_held_given a = tb_held_start(device.number, device.word, rp, wp, vpp, block, verify, lib_of(&wanted), wanted.length,
                                    lib_of(&scratch), scratch.length, addresses, count, lib_of(&room), room.length);
    tb_held_given b = c_held_start(device.number, device.word, rp, wp, vpp, block, verify, ref_of(&wanted), wanted.length,
                                   ref_of(&scratch), scratch.length, addresses, count, ref_of(&room), room.length);
    lib_turn = a.turn, lib_held = a.held;
    ref_turn = b.turn, ref_held = b.held;
    alike(same_turn() && same_held(lib_held, ref_held), "held start", lent, 3);
    met_on(IN_HELD_START, device.number, device.word, ref_turn.number, ref_turn.turn == TB_BARRED);
}

static void stepped(void) {
    twin *lent[] = {&wanted, &scratch, &room};
    before = ref_held;
    tb_held_given a = tb_held_step(lib_held, value, lib_of(&wanted), wanted.length, lib_of(&scratch), scratch.length, polls, polls_length,
                                   addresses, count, lib_of(&room), room.length);
    lib_turn = a.turn, lib_held = a.held;
    untouched(lib_turn.turn == TB_BARRED, "held step", lent, 3);
    if (lib_turn.turn == TB_BARRED && !same_held(lib_held, before))
        mismatch("held step: a refusal moved the records");
    tb_held_given b = c_held_step(ref_held, value, ref_of(&wanted), wanted.length, ref_of(&scratch), scratch.length, polls, polls_length,
                                  addresses, count, ref_of(&room), room.length);
    ref_turn = b.turn, ref_held = b.held;
    alike(same_turn() && same_held(lib_held, ref_held), "held step", lent, 3);
    if (ref_turn.turn != TB_CYCLE_OUT)
        met_on(IN_HELD_STEP, before.loader.part, before.loader.word, ref_turn.number, ref_turn.turn == TB_BARRED);
    if (ref_turn.turn != TB_BARRED && before.hold.step <= TB_RESUMING)
        mark_if(true, HELD_USUAL + before.hold.step);
    count_held_step();
}

/* Stepped against a model, or fed with statuses, up to so many steps. */
static void walk(bool model, int most) {
    static uint8_t copy[TB_SIZE_MOST];
    memcpy(copy, array.ref, array.length);
    tb_state s = state;
    started();
    for (int i = 0; i < most && ref_turn.turn == TB_CYCLE_OUT; i++) {
        bool fast = ref_held.loader.stage == TB_READING && !model;
        if (model) {
            tb_answer a = c_cycle(device, s, ref_turn.cycle, copy, array.length, NULL, 0);
            s = a.state;
            value = a.seen == TB_DATA ? a.value : (uint16_t)any32();
        } else
            value = (uint16_t)(fast ? 0 : chance(30) ? 0x80 | below(2) << 6 | (chance(20) ? below(8) << 3 : 0) : below(0x80));
        stepped();
    }
}

static void forged(void) {
    some_case();
    lib_held = (tb_held){.loader = {.part = device.number, .word = device.word, .rp = rp, .wp = wp, .block = block,
                                    .stage = (uint8_t)(chance(80) ? TB_ERASE_WAITING : below(13)), .verify = (uint8_t)below(2),
                                    .vpp_mv = vpp, .polls = chance(90) ? below(3) : ONE_OF(65534, 65535)},
                         .hold = {.step = (uint8_t)(chance(95) ? below(7) : ONE_OF(7, 255)),
                                  .suspended = (uint8_t)(chance(95) ? below(2) : 2),
                                  .number = chance(80) ? below(8) : ONE_OF(4294967294u, 4294967295u),
                                  .waits = chance(85) ? below(3) : ONE_OF(65533, 65534, 65535),
                                  .place = chance(90) ? below(6) : below(5000)}};
    if (lib_held.loader.stage == TB_ENDED)
        lib_held.loader.end = (uint8_t)below(26);
    ref_held = lib_held;
    for (int i = 0; i < 4; i++) {
        value = (uint16_t)(chance(60) ? 0x80 | below(2) << 6 : any32());
        stepped();
    }
}

void helds(uint32_t runs, uint32_t walks, uint32_t forgeries) {
    tell_case = tell;
    twin_new(&array, "array", TB_SIZE_MOST + 1);
    twin_new(&wanted, "wanted", TB_BLOCK_MOST + 1);
    twin_new(&scratch, "scratch", TB_BLOCK_MOST + 1);
    twin_new(&room, "room", 2 * TB_HELD_MOST + 8);
    twin_new(&file, "file", 512);
    for (uint32_t i = 0; i < runs; i++) {
        some_case();
        started();
        if (chance(60))
            compare_run();
        else
            compare_load();
    }
    for (uint32_t i = 0; i < walks; i++) {
        some_case();
        walk(chance(60), 1400);
    }
    for (uint32_t i = 0; i < forgeries; i++)
        forged();
}
