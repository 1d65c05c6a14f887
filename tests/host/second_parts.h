/* The second implementation: the eight parts, and the levels. */
#ifndef SECOND_PARTS_H
#define SECOND_PARTS_H

#include "second.h"

/* The compiler is told to lay these into their callers, and to keep what is seldom out of the way: of itself it does neither well. */
#define LAID_IN __attribute__((always_inline)) static inline
#define APART __attribute__((noipa)) static

/* What lies where, in bytes and byte addresses: size, and blocks outward from the boot block. Then the identifier code, the most
 * millivolts of VPP that are low, and whether the part is a 28F200BR or a 28F400BR. (R-part-1 to R-part-4) */
typedef struct {
    uint32_t size, blocks;
    struct {
        uint32_t first, length;
    } block[7];
    uint32_t code, low_most;
    bool br;
} part_rules;

extern const part_rules *const second_parts[9]; /* by number; 0 is no part */

/* The part of that number in that mode, or null: word mode, 1, is for parts 5 to 8. */
static inline const part_rules *part_in(uint8_t part, uint8_t word) {
    if (part - 1u >= 8)
        return NULL;
    const part_rules *p = second_parts[part];
    return word <= (SLIP(46) ? 1 : p->br) ? p : NULL;
}

/* The part of a device, or null where its numbers are refused 1. (R-part-5, R-number-1) */
static inline const part_rules *device_part(const tb_device *d) {
    const part_rules *p = part_in(d->number, d->word);
    return p == NULL || d->program == 0 || d->erase == 0 || d->suspend - 1u >= (SLIP(17) ? 255 : 100) ? NULL : p;
}

static inline bool holds(const part_rules *p, unsigned block, uint32_t byte) {
    return byte - p->block[block].first < p->block[block].length;
}

/* The block of a byte address inside the array. */
static inline unsigned block_at(const part_rules *p, uint32_t byte) {
    unsigned block = 0;
    while (block + 1 < p->blocks && !holds(p, block, byte))
        block++;
    return block;
}

/* The byte address of a unit inside the array: of a word, that of its low byte. (R-part-6) */
static inline uint32_t byte_of(uint32_t unit, bool word) { return unit << word; }

/* The same where its block is looked up. */
static inline uint32_t looked_up(uint32_t unit, bool word) { return SLIP(30) ? unit : byte_of(unit, word); }

static inline bool vpp_low(const part_rules *p, uint32_t vpp) { return vpp <= (SLIP(34) ? TB_VPP_LOW_MOST_MV : p->low_most); }

static inline bool between(uint32_t least, uint32_t vpp, uint32_t most) { return vpp - least <= most - least; }

static inline bool vpp_good(const part_rules *p, uint32_t vpp) {
    return between(TB_VPP_HIGH_LEAST_MV, vpp, TB_VPP_HIGH_MOST_MV) || vpp_low(p, vpp) ||
           (p->br && between(TB_VPP_BR_5V_LEAST_MV, vpp, TB_VPP_BR_5V_MOST_MV));
}

/* Parts 1 to 4 have no WP#. */
static inline bool wp_good(const part_rules *p, uint8_t wp) { return wp <= TB_WP_HIGH || (!p->br && !SLIP(36)); }

/* A unit of lent bytes, the low byte of a word first. (R-part-6) */
static inline uint16_t unit_of(const uint8_t *bytes, size_t i, bool word) {
    return word ? (uint16_t)(bytes[2 * i] | bytes[2 * i + 1] << 8) : bytes[i];
}

static inline void put_unit(uint8_t *bytes, size_t i, uint16_t unit, bool word) {
    if (word)
        bytes[2 * i] = (uint8_t)unit, bytes[2 * i + 1] = (uint8_t)(unit >> 8);
    else
        bytes[i] = (uint8_t)unit;
}

#endif
