/* Random stores in the main block: files found and read, added and dropped, one change after the other on the same array. */
#include <stdio.h>
#include <string.h>

#include "cases.h"

enum { PLACE = TB_FILE_BLOCK, MAIN = 3 };

static twin array, memory, scratch, file, room;
static tb_device device;
static tb_state state;
static uint8_t rp, wp, letter;
static uint32_t vpp;
static int32_t volts;
static tb_ran lib, ref;
static tb_sized lib_sized, ref_sized;
static tb_reading lib_reading, ref_reading;
static const char *call;

static void tell_ran(const char *who, tb_ran r) {
    printf("  %s: count %llu, end %u, address %lX\n", who, (unsigned long long)r.count, r.end, (unsigned long)r.address);
    tell_state("after", r.state);
}

static void tell(void) {
    tell_device(device);
    tell_state("before", state);
    printf("  %s, letter %02X, RP# %u, WP# %u, VPP %lu, %ld microvolts\n", call, letter, rp, wp, (unsigned long)vpp, (long)volts);
    printf("  array %zu, memory %zu, scratch %zu, file %zu, room %zu bytes\n", array.length, memory.length, scratch.length, file.length,
           room.length);
    tell_ran("the library", lib);
    tell_ran("expected", ref);
    printf("  the library: find %u, %zu bytes; reading %u, %u\n", lib_sized.number, lib_sized.length, lib_reading.answer,
           lib_reading.number);
    printf("  expected: find %u, %zu bytes; reading %u, %u\n", ref_sized.number, ref_sized.length, ref_reading.answer, ref_reading.number);
}

/* The file of a letter with so many blocks: a table of knots, or any bytes. Gives its length. */
static size_t some_file(uint8_t of, size_t blocks, uint8_t *to) {
    static uint8_t payload[TB_PAYLOAD_MOST];
    size_t n = TB_FILE_USED * (blocks - 1) + 1 + below(TB_FILE_USED);
    if (blocks == 1 && n < 12)
        n = 12;
    for (size_t i = 0; i < n; i++)
        payload[i] = (uint8_t)any32();
    if (chance(70)) {
        size_t knots = n / 6;
        int32_t at = -10000 + (int32_t)below(1000), step = (int32_t)(88000 / knots);
        for (size_t i = 0; i < knots; i++, at += 1 + (int32_t)below((uint32_t)step)) {
            payload[6 * i] = (uint8_t)((uint32_t)at >> 24), payload[6 * i + 1] = (uint8_t)((uint32_t)at >> 16);
            payload[6 * i + 2] = (uint8_t)((uint32_t)at >> 8), payload[6 * i + 3] = (uint8_t)at;
        }
        if (TB_FILE_LENGTH(6 * knots) == blocks * PLACE)
            n = 6 * knots;
    }
    return c_file_write(of, payload, n, to, TB_FILE_MOST).length;
}

static uint8_t some_letter(void) { return chance(95) ? (uint8_t)TB_LETTERS[below(8)] : (uint8_t)any32(); }

static size_t some_blocks(size_t places) { return chance(90) ? 1 + below(places > 28 ? 40 : 6) : 1 + below((uint32_t)places); }

/* Blank places, dead ones with anything behind their first byte, and files, mostly one of each letter and whole. (R-store-1) */
static void some_store(tb_span b) {
    static uint8_t bytes[TB_FILE_MOST];
    size_t places = b.length / PLACE;
    uint32_t stood = 0;
    twin_fill(&array, b.first, b.length, 0xFF);
    for (size_t at = 0; at < places;) {
        size_t here = b.first + at * PLACE, blocks = some_blocks(places);
        uint32_t k = below(8);
        if (chance(25)) {
            at += blocks;
        } else if (chance(25)) {
            if (chance(70))
                twin_noise(&array, here, PLACE);
            twin_set(&array, here, 0x00);
            at++;
        } else if ((stood >> k & 1) && !chance(3)) {
            at++;
        } else if (blocks <= places - at || chance(4)) {
            size_t n = some_file((uint8_t)TB_LETTERS[k], blocks, bytes), fits = b.length - at * PLACE;
            twin_copy(&array, here, bytes, n < fits ? n : fits);
            stood |= 1u << k;
            at += blocks;
        } else {
            at++;
        }
    }
}

/* Something in the block that makes it, most often, no store. */
static void spoil_store(tb_span b) {
    size_t place = b.first + below((uint32_t)(b.length / PLACE)) * PLACE;
    switch (below(5)) {
    case 0: twin_set(&array, place, (uint8_t)any32()); break;
    case 1: twin_set(&array, place + 1 + below(4), (uint8_t)any32()); break;
    case 2: twin_set(&array, place + below(PLACE), (uint8_t)any32()); break;
    case 3: twin_fill(&array, place, PLACE, 0xFF); break;
    default: twin_noise(&array, place, PLACE);
    }
}

static void compare_find(void) {
    twin *lent[] = {&array, &room};
    call = "find in the store";
    lib_sized = tb_store_find(device.number, device.word, letter, lib_of(&array), array.length, lib_of(&room), room.length);
    untouched(lib_sized.number != TB_OK, call, lent, 2);
    ref_sized = c_store_find(device.number, device.word, letter, ref_of(&array), array.length, ref_of(&room), room.length);
    alike(lib_sized.number == ref_sized.number && lib_sized.length == ref_sized.length, call, lent, 2);
    met(IN_STORE_FIND, ref_sized.number);
    mark_if(ref_sized.number == TB_NOT_STORED && strchr(TB_LETTERS, letter) == NULL, STORE_NO_LETTER);
    mark_if(ref_sized.number == TB_NO_DEVICE && real_mode(device.number, device.word), STORE_NO_WORDS);
    count_store();
}

static void compare_read(void) {
    twin *lent[] = {&array, &room};
    call = "read in the store";
    lib_reading = tb_store_read(device.number, device.word, letter, lib_of(&array), array.length, lib_of(&room), room.length, volts);
    untouched(lib_reading.answer == TB_NO_READING && lib_reading.number != TB_TABLE_SHAPE && lib_reading.number != TB_TABLE_VOLTS, call,
              lent, 2);
    ref_reading = c_store_read(device.number, device.word, letter, ref_of(&array), array.length, ref_of(&room), room.length, volts);
    alike(lib_reading.answer == ref_reading.answer && lib_reading.number == ref_reading.number &&
              memcmp(&lib_reading.tenths, &ref_reading.tenths, sizeof lib_reading.tenths) == 0,
          call, lent, 2);
    met(IN_STORE_READ, ref_reading.answer == TB_NO_READING ? ref_reading.number : 0);
    count_store();
}

/* What else was met in an add, by what was found of its letter before. */
static void account_add(bool stood) {
    size_t main = c_block(device.number, MAIN).length;
    bool wore = !same_wear(ref.state.wear, state.wear);
    mark_if(ref.end == TB_OK && wore, STORE_SLID);
    mark_if(ref.end == TB_OK && wore && stood, STORE_SLID_REPLACED);
    mark_if(ref.end == TB_OK && !wore && stood, STORE_REPLACED);
    mark_if(ref.end == TB_STORE_FULL && stood, STORE_FULL_REPLACED);
    mark_if(ref.end == TB_STORE_FULL && file.length > main, STORE_FULL_LONG);
    mark_if(ref.end == TB_NO_DEVICE && two_widths(device.number) && device.word < 2 && array.length == c_size(device.number), STORE_ON_BR);
}

static bool stands(void) {
    static uint8_t bytes[TB_FILE_MOST];
    return c_store_find(device.number, device.word, letter, array.ref, array.length, bytes, sizeof bytes).number == TB_OK;
}

/* An add, or a drop. (R-store-2 to R-store-5) */
static void compare_change(bool adds) {
    twin *lent[] = {&array, &memory, &scratch, &file};
    bool stood = stands();
    call = adds ? "add to the store" : "drop from the store";
    lib = adds ? tb_store_add(device, state, rp, wp, vpp, letter, lib_of(&file), file.length, lib_of(&array), array.length, lib_of(&memory),
                              memory.length, lib_of(&scratch), scratch.length)
               : tb_store_drop(device, state, rp, wp, vpp, letter, lib_of(&array), array.length, lib_of(&memory), memory.length,
                               lib_of(&scratch), scratch.length);
    untouched(lib.count == 0, call, lent, 4);
    if (lib.count == 0 && !same_state(lib.state, state))
        mismatch(call);
    ref = adds ? c_store_add(device, state, rp, wp, vpp, letter, ref_of(&file), file.length, ref_of(&array), array.length, ref_of(&memory),
                             memory.length, ref_of(&scratch), scratch.length)
               : c_store_drop(device, state, rp, wp, vpp, letter, ref_of(&array), array.length, ref_of(&memory), memory.length,
                              ref_of(&scratch), scratch.length);
    alike(lib.count == ref.count && lib.end == ref.end && lib.address == ref.address && same_state(lib.state, ref.state), call, lent, 4);
    met(adds ? IN_STORE_ADD : IN_STORE_DROP, ref.end);
    if (adds)
        account_add(stood);
    count_store();
}

/* The file of an add: good, or spoilt somewhere. */
static void file_to_add(size_t places) {
    size_t blocks = chance(3) ? 1 + below(TB_FILE_BLOCKS_MOST) : some_blocks(places);
    letter = some_letter();
    file.length = some_file(strchr(TB_LETTERS, letter) == NULL || letter == 0 ? 'K' : letter, blocks, file.ref);
    memcpy(file.lib, file.ref, file.length);
    if (chance(4))
        letter = some_letter();
    if (chance(85))
        return;
    size_t at = below((uint32_t)blocks) * PLACE;
    if (chance(10)) {
        twin_fill(&file, at, PLACE, 0xFF);
        return;
    }
    twin_set(&file, at + (chance(80) ? below(5) : below(PLACE)), (uint8_t)any32());
    if (chance(85)) {
        uint16_t sum = c_block_check(file.ref + at, PLACE);
        twin_set(&file, at + 510, (uint8_t)(sum / 256));
        twin_set(&file, at + 511, (uint8_t)(sum % 256));
    }
    if (chance(10))
        file.length = ONE_OF(0, 1, 511, 512, 513);
}

/* One of the things that a change is handed is bad; it is put right again behind the call. */
static void spoil_order(void) {
    switch (below(10)) {
    case 0: device.number = (uint8_t)ONE_OF(0, 9, 255); break;
    case 1: device.program = 0; break;
    case 2: array.length = ONE_OF(0, array.length / 2, array.length - 1, array.length + 1); break;
    case 3: memory.length = ONE_OF(0, memory.length / 2, memory.length - 1, memory.length + 1); break;
    case 4: scratch.length = ONE_OF(0, scratch.length / 2, scratch.length - 1, scratch.length + 1); break;
    case 5: device.word = (uint8_t)ONE_OF(1, 2, 255); break;
    case 6: rp = (uint8_t)ONE_OF(0, 3, 255); break;
    default: state = some_state(device);
    }
}

static void one_call(tb_span b) {
    tb_device kept = device;
    size_t lengths[] = {array.length, memory.length, scratch.length};
    letter = some_letter();
    volts = (int32_t)below(90000) - 10500;
    room.length = chance(90) ? room.room : below(5000);
    rp = (uint8_t)ONE_OF(1, 1, 2);
    wp = some_wp(device.number, 3);
    vpp = some_vpp(device.number, 6);
    state = (tb_state){.mode = (uint8_t)below(3), .status = (uint8_t)(TB_SR_READY | (chance(20) ? below(8) << 3 : 0)), .wear = some_wear()};
    if (chance(15))
        spoil_order();
    switch (below(8)) {
    case 0: case 1: compare_find(); break;
    case 2: case 3: compare_read(); break;
    case 4: compare_change(false); break;
    default: file_to_add(b.length / PLACE); compare_change(true);
    }
    device = kept;
    array.length = lengths[0], memory.length = lengths[1], scratch.length = lengths[2];
}

static uint8_t stored_part(void) {
    return (uint8_t)(chance(92) ? ONE_OF(TB_BENCH_T, TB_BENCH_B) : chance(50) ? 1 + below(2) : TB_28F200BR_T + below(4));
}

void stores(uint32_t n) {
    tell_case = tell;
    twin_new(&array, "array", TB_SIZE_MOST + 1);
    twin_new(&memory, "memory", TB_BLOCK_MOST + 1);
    twin_new(&scratch, "scratch", TB_BLOCK_MOST + 1);
    twin_new(&file, "file", TB_FILE_MOST);
    twin_new(&room, "room", TB_FILE_MOST);
    for (uint32_t i = 0; i < n; i++) {
        uint8_t part = stored_part();
        tb_span b = c_block(part, MAIN);
        device = (tb_device){part, two_widths(part) && chance(50), (uint16_t)(1 + below(2)), (uint16_t)(1 + below(4)),
                             (uint8_t)(1 + below(100))};
        array.length = c_size(part);
        memory.length = scratch.length = b.length;
        some_store(b);
        if (chance(12))
            spoil_store(b);
        for (int k = 0; k < 8; k++)
            one_call(b);
    }
}
