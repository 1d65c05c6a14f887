/* The second implementation: what a load judges, whether it is stepped or run. */
#ifndef SECOND_LOAD_H
#define SECOND_LOAD_H

#include <string.h>

#include "second_parts.h"

enum { POLLS_MOST = 65535 };

static inline bool pins_bad(const part_rules *p, uint8_t rp, uint8_t wp, uint32_t vpp) {
    return (rp != TB_RP_HIGH && rp != TB_RP_VHH) || !vpp_good(p, vpp) || !wp_good(p, wp);
}

/* 10 and 11, or 0; lengths are in bytes. (R-number-10, R-number-11) */
static inline uint8_t lengths_bad(const part_rules *p, uint8_t block, size_t wanted, size_t scratch) {
    if (block >= p->blocks)
        return TB_NO_BLOCK;
    return wanted != p->block[block].length || scratch != wanted ? TB_WRONG_LENGTH : TB_OK;
}

/* Eight bytes at a time; a block's length is a multiple of eight. */
static inline uint64_t eight(const uint8_t *at) {
    uint64_t word;
    memcpy(&word, at, 8);
    return word;
}

static inline uint16_t two(const uint8_t *at) {
    uint16_t word;
    memcpy(&word, at, 2);
    return word;
}

/* Whether some wanted byte has a 1 where scratch has a 0. (R-load-2) */
static inline bool must_erase(const uint8_t *wanted, const uint8_t *scratch, size_t n) {
    for (size_t i = 0; i < n; i += 8)
        if (eight(wanted + i) & ~eight(scratch + i))
            return true;
    return false;
}

/* The first byte from `from` on where scratch differs from wanted; n where there is none. */
static inline size_t differs_from(size_t from, const uint8_t *wanted, const uint8_t *scratch, size_t n) {
    while (from + 8 <= n && eight(wanted + from) == eight(scratch + from))
        from += 8;
    while (from < n && wanted[from] == scratch[from])
        from++;
    return from;
}

/* The same in units, of n bytes that are whole units. */
static inline size_t unit_differs(size_t from, bool word, const uint8_t *wanted, const uint8_t *scratch, size_t n) {
    return differs_from(from << word, wanted, scratch, n) >> word;
}

/* How many units differ. */
static inline uint32_t units_unlike(bool word, const uint8_t *wanted, const uint8_t *scratch, size_t n) {
    uint32_t unlike = 0;
    if (word)
        for (size_t i = 0; i < n / 2; i++)
            unlike += two(wanted + 2 * i) != two(scratch + 2 * i);
    else
        for (size_t i = 0; i < n; i++)
            unlike += wanted[i] != scratch[i];
    return unlike;
}

/* The verify read `read` where `want` is wanted: whether that is another unit, and whether only the high bytes differ. */
static inline bool unlike(uint16_t read, uint16_t want) { return SLIP(49) ? (uint8_t)read != (uint8_t)want : read != want; }
static inline bool high_differs(uint16_t read, uint16_t want) { return (uint8_t)read == (uint8_t)want; }

/* The address that 25 gives for the unit there: that of the byte. (R-number-25) */
static inline uint32_t told(uint32_t unit, bool word, bool high) { return SLIP(42) ? unit : byte_of(unit, word) + (word && high); }

/* The number that a ready status ends an operation with; 0 where it went well. (R-number-21 to R-number-24) */
static inline uint8_t status_judged(uint8_t status, bool erase) {
    uint8_t own = erase ? TB_SR_ERASE_ERROR : TB_SR_PROGRAM_ERROR, both = TB_SR_ERASE_ERROR | TB_SR_PROGRAM_ERROR;
    uint8_t failed = erase ? TB_ERASE_FAILED : TB_PROGRAM_FAILED;
    if (SLIP(11))
        return TB_OK;
    if (SLIP(6) && (status & own) != 0 && (status & both) != both)
        return failed;
    if (status & TB_SR_VPP_LOW)
        return TB_VPP_FELL;
    if ((status & both) == both)
        return TB_WRONG_SEQUENCE;
    return status & own ? failed : TB_OK;
}

/* 3 of a record. (R-number-3) */
static inline bool record_bad(const part_rules *p, const tb_loader *l) {
    if (l->stage > TB_ENDED || (l->end != 0 && l->stage != TB_ENDED) || l->verify > 1 || l->high > 1 || l->polls >= POLLS_MOST)
        return true;
    return l->block < p->blocks && l->place >= (p->block[l->block].length >> l->word) + (SLIP(9) ? 1 : 0);
}

/* 4, 10 and 11. */
static inline uint8_t unfit(const part_rules *p, const tb_loader *l, size_t wanted, size_t scratch) {
    return pins_bad(p, l->rp, l->wp, l->vpp_mv) ? TB_BAD_LEVEL : lengths_bad(p, l->block, wanted, scratch);
}

static inline uint32_t first_of(const part_rules *p, const tb_loader *l) { return p->block[l->block].first >> l->word; }

#endif
