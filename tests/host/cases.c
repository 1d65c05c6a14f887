/* Random numbers, buffers kept twice, and the parts that random cases are made of. */
#include <stdio.h>
#include <stdlib.h>
#include <string.h>

#include "cases.h"

static uint64_t word = 1;

void seed_with(uint64_t seed) {
    word = seed * 2 + 1;
    for (int i = 0; i < 16; i++)
        any32();
}

uint32_t any32(void) {
    word ^= word << 13;
    word ^= word >> 7;
    word ^= word << 17;
    return (uint32_t)(word >> 24);
}

uint32_t below(uint32_t n) { return any32() % n; }
bool chance(uint32_t percent) { return below(100) < percent; }
uint32_t one_of(const uint32_t *from, size_t n) { return from[below((uint32_t)n)]; }

enum { GUARD = 64 };

static uint8_t *guarded(size_t room) {
    uint8_t *p = malloc(room + 2 * GUARD);
    if (p == NULL) {
        puts("no memory");
        exit(2);
    }
    memset(p, 0xA5, room + 2 * GUARD);
    return p + GUARD;
}

void twin_new(twin *t, const char *name, size_t room) {
    if (t->lib != NULL)
        return;
    *t = (twin){name, guarded(room), guarded(room), room, room};
    twin_noise(t, 0, room);
}

void third_new(twin *t, const twin *of) {
    if (t->lib != NULL)
        return;
    *t = (twin){of->name, guarded(of->room), of->lib, of->room, of->room};
    memcpy(t->lib, t->ref, t->room);
}

void twin_set(twin *t, size_t at, uint8_t byte) { t->lib[at] = t->ref[at] = byte; }

void twin_noise(twin *t, size_t from, size_t n) {
    for (size_t i = from; i < from + n; i++)
        twin_set(t, i, (uint8_t)any32());
}

void twin_fill(twin *t, size_t from, size_t n, uint8_t byte) {
    memset(t->lib + from, byte, n);
    memset(t->ref + from, byte, n);
}

void twin_copy(twin *t, size_t at, const uint8_t *bytes, size_t n) {
    memcpy(t->lib + at, bytes, n);
    memcpy(t->ref + at, bytes, n);
}

uint8_t *lib_of(twin *t) { return t->length == 0 && chance(50) ? NULL : t->lib; }
uint8_t *ref_of(twin *t) { return t->length == 0 && chance(50) ? NULL : t->ref; }

/* What is looked at: the bytes that are lent and a guard on each side. */
static size_t seen_of(const twin *t) { return t->length + 2 * GUARD; }

/* Where two copies differ; the whole length where they do not. */
static size_t differs(const twin *t) {
    size_t all = seen_of(t);
    if (memcmp(t->lib - GUARD, t->ref - GUARD, all) == 0)
        return all;
    for (size_t i = 0; i < all; i++)
        if (t->lib[i - GUARD] != t->ref[i - GUARD])
            return i;
    return all;
}

static void hold(const char *what, const char *kind, twin **twins, size_t n) {
    for (size_t k = 0; k < n; k++) {
        size_t at = differs(twins[k]);
        if (at == seen_of(twins[k]))
            continue;
        printf("%s at %ld: the library has %02X, expected %02X (%s)\n", twins[k]->name, (long)at - GUARD,
               twins[k]->lib[at - GUARD], twins[k]->ref[at - GUARD], kind);
        mismatch(what);
    }
}

void untouched(bool refused, const char *what, twin **twins, size_t n) {
    if (refused)
        hold(what, "changed by a refusal", twins, n);
}

void alike(bool answers, const char *what, twin **twins, size_t n) {
    hold(what, "after the call", twins, n);
    if (!answers)
        mismatch(what);
}

/* Parts of cases. */

const uint32_t vpp_edges[EDGES] = {1500, 1501, 4499, 4500, 5500, 5501, 6500, 6501, 11399, 11400, 12600, 12601};

uint8_t some_part(void) { return chance(97) ? (uint8_t)(1 + below(8)) : (uint8_t)ONE_OF(0, 9, 10, 255); }

bool two_widths(uint8_t part) { return part >= TB_28F200BR_T && part <= TB_28F400BR_B; }

bool real_mode(uint8_t part, uint8_t word) { return two_widths(part) && word == TB_WORD_MODE; }

/* A mode that the part has, but for a few. */
uint8_t some_mode(uint8_t part) {
    if (chance(2))
        return (uint8_t)ONE_OF(1, 2, 255);
    return two_widths(part) && chance(65);
}

uint8_t real_part(uint8_t part) { return c_size(part) == 0 ? TB_BENCH_T : part; }

static uint16_t some_time(void) {
    if (chance(90))
        return (uint16_t)(1 + below(5));
    return (uint16_t)ONE_OF(0, 1, 7, 300, 65534, 65535);
}

static uint8_t some_suspend(void) {
    if (chance(90))
        return (uint8_t)(1 + below(4));
    return (uint8_t)ONE_OF(0, 1, 99, 100, 100, 101, 255);
}

tb_device some_device(void) {
    uint8_t part = some_part();
    return (tb_device){part, some_mode(part), some_time(), some_time(), some_suspend()};
}

/* High, or now and then low, at an edge of a band, or any. */
uint32_t some_vpp(uint8_t part, uint32_t rough) {
    bool br = two_widths(part);
    if (!chance(rough))
        return br ? ONE_OF(4500, 5000, 5500, 11400, 12000, 12600) : ONE_OF(11400, 12000, 12000, 12600);
    if (chance(60))
        return br ? ONE_OF(0, 1000, 1500) : ONE_OF(0, 3000, 6500);
    return chance(80) ? one_of(vpp_edges, EDGES) : chance(60) ? ONE_OF(3000, 9000, 65536 + 12000, 4294967295u) : any32();
}

/* Devices 1 to 4 do not look at it. */
uint8_t some_wp(uint8_t part, uint32_t rough) {
    if (chance(rough) || !two_widths(part))
        return (uint8_t)ONE_OF(0, 1, 2, 3, 255);
    return (uint8_t)below(2);
}

uint8_t some_block(uint8_t part) {
    uint8_t blocks = 1;
    while (c_block(part, blocks).length != 0)
        blocks++;
    return (uint8_t)below(blocks);
}

/* An address of interest, in units: a block's edge, the array's, or any. */
uint32_t some_address(uint8_t part, uint8_t word) {
    uint8_t p = real_part(part), shift = real_mode(p, word);
    tb_span b = c_block(p, some_block(p));
    uint32_t first = (uint32_t)b.first >> shift, length = (uint32_t)b.length >> shift, size = (uint32_t)c_size(p) >> shift;
    switch (below(8)) {
    case 0: return first;
    case 1: return first + length - 1;
    case 2: return first + length;
    case 3: return first == 0 ? 0 : first - 1;
    case 4: return ONE_OF(0, 1, 2, 3, 4);
    case 5: return chance(80) ? first + below(length) : chance(80) ? size + below(3) : size * 2 - 1;
    case 6: return chance(90) ? below(size) : any32();
    }
    return first + below(length);
}

uint32_t some_count(void) {
    if (chance(75))
        return ONE_OF(0, 1, TB_SHEET_ERASES - 1, TB_SHEET_ERASES, TB_SHEET_ERASES + 1, TB_WEAR_STOP - 1, TB_WEAR_STOP);
    return chance(50) ? below(1000) : any32();
}

tb_wear some_wear(void) {
    tb_wear w;
    for (int k = 0; k < TB_BLOCKS_MOST; k++)
        w.block[k] = some_count();
    return w;
}

static tb_state proper_state(tb_device d) {
    uint8_t part = real_part(d.number);
    tb_state s = {.phase = (uint8_t)below(7), .mode = TB_MODE_STATUS, .status = (uint8_t)(below(8) << 3), .wear = some_wear()};
    if (s.phase == TB_FREE)
        s.mode = (uint8_t)below(3);
    if (s.phase == TB_SUSPENDED)
        s.mode = (uint8_t)below(2);
    if (s.phase < TB_PROGRAMMING || s.phase == TB_SUSPENDED)
        s.status |= TB_SR_READY;
    if (s.phase == TB_SUSPENDED)
        s.status |= TB_SR_SUSPENDED;
    if (s.phase < TB_PROGRAMMING)
        return s;
    uint16_t most = s.phase == TB_PROGRAMMING ? d.program : d.erase;
    s.left = (uint16_t)(most == 0 ? 1 : chance(50) ? 1 + below(most) : ONE_OF(1, most));
    s.address = some_address(part, d.word) % (uint32_t)(c_size(part) >> real_mode(part, d.word));
    s.data = s.phase == TB_PROGRAMMING ? (uint16_t)(chance(50) || real_mode(part, d.word) ? any32() : any32() & 0xFF) : 0;
    s.suspend = s.phase == TB_SUSPENDING ? (uint8_t)(d.suspend == 0 ? 1 : chance(50) ? 1 + below(d.suspend) : ONE_OF(1, d.suspend)) : 0;
    return s;
}

/* A proper state, or one with a field spoilt, or any numbers. */
tb_state some_state(tb_device d) {
    tb_state s = proper_state(d);
    if (chance(75))
        return s;
    switch (below(10)) {
    case 0: s.mode = (uint8_t)(chance(70) ? below(4) : any32()); break;
    case 1: s.status ^= (uint8_t)(1u << below(8)); break;
    case 2: s.phase = (uint8_t)(chance(70) ? below(8) : any32()); break;
    case 3: s.data = (uint16_t)(chance(50) ? any32() : any32() << 8); break;
    case 4: s.left = (uint16_t)ONE_OF(0, 1, d.program, d.erase, (d.program + 1) & 0xFFFF, (d.erase + 1) & 0xFFFF, 65535); break;
    case 5: s.address = some_address(d.number, d.word); break;
    case 6: s.left = 0; break;
    case 7: s.status = (uint8_t)any32(); break;
    case 8: s.suspend = (uint8_t)ONE_OF(0, 1, d.suspend, d.suspend + 1, any32()); break;
    default:
        s = (tb_state){(uint8_t)any32(),  (uint8_t)any32(),  (uint8_t)any32(), (uint8_t)any32(),
                       (uint16_t)any32(), (uint16_t)any32(), any32(),          some_wear()};
    }
    return s;
}

int changed_at(tb_wear before, tb_wear after) {
    for (int k = 0; k < TB_BLOCKS_MOST; k++)
        if (before.block[k] != after.block[k])
            return k;
    return -1;
}

bool any_wear(tb_wear w) { return changed_at((tb_wear){{0}}, w) >= 0; }

void keeps_places(const char *what, uint8_t part, tb_wear before, tb_wear after) {
    for (uint8_t k = 0; k < TB_BLOCKS_MOST; k++) {
        if (c_block(part, k).length != 0 || before.block[k] == after.block[k])
            continue;
        printf("the count at place %u, where part %u has no block, was touched\n", k, part);
        mismatch(what);
    }
}

/* Telling. */

bool same_wear(tb_wear a, tb_wear b) { return changed_at(a, b) < 0; }

bool same_state(tb_state a, tb_state b) {
    return a.mode == b.mode && a.status == b.status && a.phase == b.phase && a.data == b.data && a.left == b.left &&
           a.suspend == b.suspend && a.address == b.address && same_wear(a.wear, b.wear);
}

bool same_bus(tb_bus a, tb_bus b) {
    return a.kind == b.kind && a.rp == b.rp && a.oe == b.oe && a.wp == b.wp && a.data == b.data && a.vpp_mv == b.vpp_mv &&
           a.address == b.address;
}

void tell_device(tb_device d) {
    printf("  device %u, word mode %u, P %u, E %u, S %u\n", d.number, d.word, d.program, d.erase, d.suspend);
}

void tell_state(const char *name, tb_state s) {
    printf("  %s: mode %u, status %02X, phase %u, data %04X, left %u, suspend %u, address %lX, wear", name, s.mode, s.status, s.phase,
           s.data, s.left, s.suspend, (unsigned long)s.address);
    for (int k = 0; k < TB_BLOCKS_MOST; k++)
        printf(" %lu", (unsigned long)s.wear.block[k]);
    printf("\n");
}

void tell_bus(tb_bus c) {
    printf("  cycle: kind %u, RP# %u, OE# %u, WP# %u, VPP %lu, address %lX, data %04X\n", c.kind, c.rp, c.oe, c.wp,
           (unsigned long)c.vpp_mv, (unsigned long)c.address, c.data);
}
