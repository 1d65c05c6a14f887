/* Random loads of a block: from wanted bytes, and from a file. */
#include <stdio.h>
#include <string.h>

#include "cases.h"

static twin array, wanted, scratch, file;
static tb_device device;
static tb_state state;
static uint8_t rp, wp, block, letter;
static uint32_t vpp;
static tb_ran lib, ref;
static bool from_file;
static uint8_t held[TB_BLOCK_MOST]; /* what the block held before the call */

static void tell_ran(const char *who, tb_ran r) {
    printf("  %s: count %llu, end %u, address %lX\n", who, (unsigned long long)r.count, r.end, (unsigned long)r.address);
    tell_state("after", r.state);
}

static void tell(void) {
    tell_device(device);
    tell_state("before", state);
    printf("  RP# %u, WP# %u, VPP %lu, block %u, array %zu, wanted %zu, scratch %zu bytes\n", rp, wp, (unsigned long)vpp, block,
           array.length, wanted.length, scratch.length);
    if (from_file)
        printf("  file of %zu bytes, letter asked %02X\n", file.length, letter);
    tell_ran("the library", lib);
    tell_ran("expected", ref);
}

static bool same_ran(void) {
    return lib.count == ref.count && lib.end == ref.end && lib.address == ref.address && same_state(lib.state, ref.state);
}

typedef tb_ran run_call(tb_device, tb_state, uint8_t, uint8_t, uint32_t, uint8_t, uint8_t *, size_t, const uint8_t *, size_t, uint8_t *,
                        size_t);
typedef tb_ran file_call(tb_device, tb_state, uint8_t, uint8_t, uint32_t, uint8_t, uint8_t, const uint8_t *, size_t, uint8_t *, size_t,
                         uint8_t *, size_t, uint8_t *, size_t);

static void keep_held(void) {
    tb_span b = c_block(device.number, block);
    if (array.length >= b.first + b.length)
        memcpy(held, array.ref + b.first, b.length);
}

/* Whether a bit had to rise, of a call that was let pass. */
static bool rises(void) {
    for (size_t i = 0; i < wanted.length; i++)
        if (wanted.ref[i] & ~held[i])
            return true;
    return false;
}

/* What a run makes of the counts, asked of the library itself: one more at the block where it erased, up to the stop; elsewhere nothing.
 * (R-wear-1) */
static void hold_wear(const char *name, bool verify) {
    tb_wear due = state.wear;
    bool passed = lib.count != 0, rose = passed && !verify && rises(), erased = rose && lib.end == TB_OK;
    bool showed = block < TB_BLOCKS_MOST && state.wear.block[block] != 0 && state.wear.block[block] != TB_WEAR_STOP;
    mark_if(erased && due.block[block] == TB_WEAR_STOP, LOAD_AT_STOP);
    mark_if(showed && passed && !verify && !rose && lib.end == TB_OK, LOAD_NOT_COUNTED);
    mark_if(showed && rose && !erased, LOAD_BARRED);
    mark_if(showed && passed && verify, VERIFY_NOT_COUNTED);
    mark_if(!passed && any_wear(state.wear), RUN_REFUSED_KEPT);
    if (erased && due.block[block] != TB_WEAR_STOP) {
        due.block[block]++;
        met_erase(true, device, block);
    }
    if (!same_wear(lib.state.wear, due))
        mismatch(name);
}

static void account(int group) {
    bool word = real_mode(device.number, device.word);
    bool well = ref.end == TB_OK && ref.count > wanted.length + 3; /* more than the words read twice: something was erased or programmed */
    met_on(group, device.number, device.word, ref.end, ref.count == 0);
    if (!word)
        return;
    mark_if(ref.end == TB_WRONG_LENGTH && wanted.length % 2 == 1, ODD_WANTED);
    mark_if(ref.end == TB_WRONG_LENGTH && scratch.length % 2 == 1, ODD_SCRATCH);
    mark_if(well, vpp > TB_VPP_BR_5V_MOST_MV ? LOADED_AT_12V : LOADED_AT_5V);
    mark_if(well && block == 0 && rp == TB_RP_HIGH && wp == TB_WP_HIGH, BOOT_LOADED_BY_WP);
    mark_if(ref.end == TB_VERIFY_FAILED, ref.address % 2 ? HIGH_DIFFERS : LOW_DIFFERS);
}

/* The second implementation runs by stages. One run in eight it makes once more cycle by cycle, on copies; both must leave the same. */
static uint8_t stepped_array[TB_SIZE_MOST + 1], stepped_scratch[TB_BLOCK_MOST + 1];
static bool steps_too(int group) {
    static unsigned runs;
    if (group != IN_RUN || runs++ % 8 != 0)
        return false;
    memcpy(stepped_array, array.ref, array.length);
    memcpy(stepped_scratch, scratch.ref, scratch.length);
    return true;
}
static void hold_steps(void) {
    lib = c_stepped_run(device, state, rp, wp, vpp, block, stepped_array, array.length, wanted.ref, wanted.length, stepped_scratch,
                        scratch.length);
    if (!same_ran() || memcmp(stepped_array, array.ref, array.length) != 0 || memcmp(stepped_scratch, scratch.ref, scratch.length) != 0)
        mismatch("run by stages and by steps, both of the second implementation");
}

/* A run, a load alone or a verify alone. (R-load-5, R-demand-3) */
static void compare_run(const char *name, int group, run_call *library, run_call *second) {
    twin *lent[] = {&array, &wanted, &scratch};
    lib = library(device, state, rp, wp, vpp, block, lib_of(&array), array.length, lib_of(&wanted), wanted.length, lib_of(&scratch),
                  scratch.length);
    untouched(lib.count == 0, name, lent, 3);
    if (lib.count == 0 && !same_state(lib.state, state))
        mismatch(name);
    bool steps = steps_too(group);
    ref = second(device, state, rp, wp, vpp, block, ref_of(&array), array.length, ref_of(&wanted), wanted.length, ref_of(&scratch),
                 scratch.length);
    alike(same_ran(), name, lent, 3);
    hold_wear(name, group == IN_VERIFY_RUN);
    account(group);
    if (steps)
        hold_steps();
}

/* A run or a verify alone, from a file. (R-order-3) */
static void compare_file(const char *name, int group, file_call *library, file_call *second) {
    twin *lent[] = {&array, &wanted, &scratch, &file};
    lib = library(device, state, rp, wp, vpp, block, letter, lib_of(&file), file.length, lib_of(&array), array.length, lib_of(&wanted),
                  wanted.length, lib_of(&scratch), scratch.length);
    untouched(lib.count == 0, name, lent, 4);
    if (lib.count == 0 && !same_state(lib.state, state))
        mismatch(name);
    ref = second(device, state, rp, wp, vpp, block, letter, ref_of(&file), file.length, ref_of(&array), array.length, ref_of(&wanted),
                 wanted.length, ref_of(&scratch), scratch.length);
    alike(same_ran(), name, lent, 4);
    hold_wear(name, group == IN_VERIFY_FILE);
    account(group);
}

/* The block's bytes: noise, all ones, all zero or as they are. */
static void fill_block(tb_span b) {
    switch (below(5)) {
    case 0: twin_noise(&array, b.first, b.length); break;
    case 1: twin_fill(&array, b.first, b.length, 0xFF); break;
    case 2: twin_fill(&array, b.first, b.length, 0x00); break;
    }
}

/* Wanted: what is held, with some bytes changed (bits only cleared, or any), or ones with some bytes, or noise. */
static void fill_wanted(tb_span b) {
    uint32_t changes = below(40);
    uint32_t how = below(4);
    if (how < 2)
        twin_copy(&wanted, 0, array.ref + b.first, b.length);
    else if (how == 2 || b.length > 4096)
        twin_fill(&wanted, 0, b.length, 0xFF);
    else
        twin_noise(&wanted, 0, b.length);
    for (uint32_t i = 0; i < changes; i++) {
        uint32_t at = chance(80) ? below(b.length) : ONE_OF(0, b.length - 1);
        twin_set(&wanted, at, how == 0 ? wanted.ref[at] & (uint8_t)any32() : (uint8_t)any32());
    }
}

/* Puts the right check into each block of the file. */
static void check_again(void) {
    for (size_t at = 0; at + 512 <= file.length; at += 512) {
        uint16_t sum = c_block_check(file.ref + at, 510);
        twin_set(&file, at + 510, (uint8_t)(sum / 256));
        twin_set(&file, at + 511, (uint8_t)(sum % 256));
    }
}

static void some_file(tb_span b) {
    static uint8_t payload[TB_PAYLOAD_MOST], bytes[TB_FILE_MOST];
    uint32_t room = (uint32_t)b.length / 512 * 505;
    if (room > TB_PAYLOAD_MOST)
        room = TB_PAYLOAD_MOST;
    uint32_t n = chance(5) ? ONE_OF(4040, 4041) : chance(40) ? ONE_OF(1, 504, 505, room - 1, room) : 1 + below(room);
    if (chance(3) && room < TB_PAYLOAD_MOST) /* longer than the block */
        n = room + 1;
    letter = (uint8_t)"BEJKNRST"[below(8)];
    for (uint32_t i = 0; i < n; i++)
        payload[i] = (uint8_t)any32();
    tb_sized made = c_file_write(letter, payload, n, bytes, sizeof bytes);
    file.length = made.length;
    twin_copy(&file, 0, bytes, made.length);
    if (chance(6))
        letter = (uint8_t)any32();
    if (chance(80))
        return;
    for (uint32_t i = 1 + below(2); i > 0; i--)
        twin_set(&file, chance(70) ? below((uint32_t)made.length / 512) * 512 + below(5) : below((uint32_t)made.length),
                 (uint8_t)any32());
    if (chance(75))
        check_again();
    if (chance(10))
        twin_fill(&file, chance(50) ? 0 : file.length - 512, 512, 0xFF);
    if (chance(10))
        file.length = ONE_OF(0, 1, 511, 513, 512);
}

/* The block holds the file and ones, but for a byte sometimes. */
static void lay_file(tb_span b) {
    if (file.length > b.length)
        return;
    twin_fill(&array, b.first, b.length, 0xFF);
    twin_copy(&array, b.first, file.ref, file.length);
    if (chance(30))
        twin_set(&array, b.first + (chance(80) ? below(b.length) : ONE_OF(0, b.length - 1)), (uint8_t)any32());
}

static void compare(void) {
    uint32_t what = below(5);
    from_file = what > 2;
    keep_held();
    switch (what) {
    case 0: compare_run("run", IN_RUN, tb_run, c_run); break;
    case 1: compare_run("load alone", IN_LOAD_RUN, tb_load_run, c_load_run); break;
    case 2: compare_run("verify", IN_VERIFY_RUN, tb_verify_run, c_verify_run); break;
    case 3: compare_file("load", IN_LOAD, tb_load, c_load); break;
    default: compare_file("verify a file", IN_VERIFY_FILE, tb_verify_file, c_verify_file);
    }
}

/* One of the things that a run is handed is bad. */
static void spoil(void) {
    switch (below(8)) {
    case 0: device.number = (uint8_t)ONE_OF(0, 9, 255); break;
    case 1: device.program = 0; break;
    case 2: array.length = ONE_OF(0, array.length / 2, array.length - 1, array.length + 1); break;
    case 3: block = (uint8_t)ONE_OF(4, 5, 6, 7, 8, 255); break;
    case 4: wanted.length = ONE_OF(0, wanted.length / 2, wanted.length - 1, wanted.length + 1); break;
    case 5: scratch.length = ONE_OF(0, scratch.length / 2, scratch.length - 1, scratch.length + 1); break;
    case 6: device.word = (uint8_t)ONE_OF(1, 2, 255); break;
    default: state = some_state(device);
    }
}

/* Mostly the bench parts, whose blocks are short. */
static uint8_t loaded_part(void) {
    return (uint8_t)(chance(50) ? ONE_OF(TB_BENCH_T, TB_BENCH_B) : chance(20) ? 1 + below(2) : TB_28F200BR_T + below(4));
}

/* A device and levels at which a load can go on, or now and then not. */
static void some_order(void) {
    uint8_t part = loaded_part();
    device = (tb_device){part, some_mode(part), (uint16_t)(1 + below(4)), (uint16_t)(1 + below(4)), (uint8_t)(1 + below(100))};
    if (chance(3))
        device.erase = (uint16_t)ONE_OF(300, 65534, 65535);
    block = (uint8_t)(chance(2) ? some_block(part) : chance(80) || !two_widths(part) ? ONE_OF(0, 1, 2) : ONE_OF(1, 2));
    rp = (uint8_t)(chance(5) ? ONE_OF(0, 3, 255) : block == 0 && !two_widths(part) ? ONE_OF(1, 2, 2) : ONE_OF(1, 1, 2));
    wp = some_wp(part, 3);
    vpp = some_vpp(part, 8);
    state = tb_fresh();
    if (chance(30))
        state = (tb_state){.mode = (uint8_t)below(3), .status = (uint8_t)(0x80 | below(8) << 3)};
    if (chance(80))
        state.wear = some_wear();
    if (chance(8))
        state = some_state(device);
}

static void load(void) {
    some_order();
    tb_span b = c_block(device.number, block);
    array.length = c_size(device.number);
    wanted.length = scratch.length = b.length;
    fill_block(b);
    fill_wanted(b);
    twin_noise(&scratch, 0, 64);
    some_file(b);
    if (chance(25))
        lay_file(b);
    if (chance(20))
        spoil();
    compare();
    count_load();
}

void loads(uint32_t n) {
    tell_case = tell;
    twin_new(&array, "array", TB_SIZE_MOST + 1);
    twin_new(&wanted, "wanted", TB_BLOCK_MOST + 1);
    twin_new(&scratch, "scratch", TB_BLOCK_MOST + 1);
    twin_new(&file, "file", TB_FILE_MOST);
    for (uint32_t i = 0; i < n; i++)
        load();
}
