/* The second implementation: the stages of a run against the model. Between them the device is at rest, and what is fixed for the run (VPP,
 * the lock) is asked once. A stage is done at once: what its cycles leave of array, scratch and state, and how many they are.
 * tests/host/loads.c holds it against the same load cycle by cycle. Lengths are in bytes. */
#ifndef SECOND_RUN_H
#define SECOND_RUN_H

#include "second_cycle.h"
#include "second_load.h"

typedef struct {
    second_chip chip;
    bool low, locked; /* VPP low; the boot block, and nothing that unlocks it */
    uint8_t *block;   /* in the array */
    const uint8_t *wanted;
    uint8_t *scratch;
    size_t n;
    tb_state state;
    uint64_t count;
} bench;

/* What a run is handed beside the lent memory. */
typedef struct {
    tb_device device;
    tb_state state;
    uint8_t rp, wp, block;
    uint32_t vpp;
} order;

/* 1 to 4 and 10 to 12: 0 or a refusal. (R-order-2) */
static inline uint8_t run_refused(const order *o, size_t array, size_t wanted, size_t scratch) {
    const part_rules *p = device_part(&o->device);
    if (p == NULL)
        return TB_NO_DEVICE;
    if (array != p->size)
        return TB_WRONG_ARRAY;
    if (!proper(p, &o->device, &o->state))
        return TB_IMPROPER;
    if (pins_bad(p, o->rp, o->wp, o->vpp))
        return TB_BAD_LEVEL;
    uint8_t number = lengths_bad(p, o->block, wanted, scratch);
    return number != TB_OK ? number : o->state.phase != TB_FREE ? TB_UNDER_WAY : TB_OK;
}

/* An order that was not refused. */
static inline bench bench_of(const order *o, uint8_t *array, const uint8_t *wanted, uint8_t *scratch, size_t n) {
    const part_rules *p = second_parts[o->device.number];
    tb_bus levels = {.rp = o->rp, .wp = SLIP(50) ? 0 : o->wp};
    bool locked = o->block == 0 && !unlocked(p, &levels);
    return (bench){{p, &o->device, array}, vpp_low(p, o->vpp), locked, array + p->block[o->block].first, wanted, scratch, n, o->state, 0};
}

/* 50H, FFH, and reads of the whole block. (R-load-1) */
static inline void open_block(bench *b, bool word) {
    b->state.status &= ~(SR5 | SR4 | SR3);
    b->state.mode = TB_MODE_ARRAY;
    memcpy(b->scratch, b->block, b->n);
    b->count += 2 + (b->n >> (SLIP(35) ? 0 : word));
}

/* An operation's two writes find VPP low or the block locked: then the first poll is the last. 0, or the number that ends the load. */
static inline uint8_t not_started(bench *b, bool erase) {
    b->state.mode = TB_MODE_STATUS;
    if (!b->low && !b->locked)
        return TB_OK;
    b->state.status |= (erase ? SR5 : SR4) | (b->low ? SR3 : 0);
    b->count += 3;
    return status_judged(b->state.status, erase);
}

/* 20H, D0H and E polls; then scratch is filled. (R-load-2) */
static inline uint8_t erase_all(bench *b, uint8_t block) {
    uint8_t end = not_started(b, true);
    if (end != TB_OK)
        return end;
    wear(&b->state, block);
    memset(b->block, 0xFF, b->n);
    memset(b->scratch, 0xFF, b->n);
    b->count += 2 + b->chip.device->erase;
    return TB_OK;
}

/* 40H, the unit and P polls for each unit that differs. No bit has to rise, so old AND wanted is wanted. (R-load-3) */
static inline uint8_t program_all(bench *b, bool word) {
    uint64_t units = units_unlike(word, b->wanted, b->scratch, b->n);
    if (units == 0)
        return TB_OK;
    uint8_t end = not_started(b, false);
    if (end != TB_OK) {
        size_t first = unit_differs(0, word, b->wanted, b->scratch, b->n);
        if (SLIP(22))
            put_unit(b->scratch, first, unit_of(b->wanted, first, word), word);
        return end;
    }
    memcpy(b->block, b->wanted, b->n);
    memcpy(b->scratch, b->wanted, b->n);
    b->count += units * (2 + b->chip.device->program);
    return TB_OK;
}

/* FFH, and reads up to the first unit that differs: the end, and for 25 the byte address. (R-load-4) */
static inline uint8_t verify_all(bench *b, bool word, uint32_t *address) {
    size_t units = (b->n >> word) - (SLIP(24) ? 1 : 0), at = unit_differs(0, word, b->wanted, b->block, b->n);
    while (SLIP(49) && at < units && !unlike(unit_of(b->block, at, word), unit_of(b->wanted, at, word)))
        at = unit_differs(at + 1, word, b->wanted, b->block, b->n);
    size_t read = at < units ? at + 1 : units;
    b->state.mode = TB_MODE_ARRAY;
    b->count += 1 + read;
    memcpy(b->scratch, b->block, read << word);
    if (at >= units)
        return TB_OK;
    uint32_t first = (uint32_t)(b->block - b->chip.array) >> word;
    bool high = high_differs(unit_of(b->block, at, word), unit_of(b->wanted, at, word));
    *address = told((SLIP(26) ? 0 : first) + (uint32_t)at, word, high);
    return TB_VERIFY_FAILED;
}

#endif
