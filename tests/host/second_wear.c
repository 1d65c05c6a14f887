/* The second implementation: reports on wear. */
#include "second_parts.h"

enum { SHEET = SLIP(57) ? TB_SHEET_ERASES - 1 : TB_SHEET_ERASES };

/* The refusals of one trace more. */
static inline uint8_t unfit(uint8_t part, uint32_t traces, uint8_t from) {
    if (part_in(part, TB_BYTE_MODE) == NULL)
        return TB_NO_DEVICE;
    if (SLIP(66) && from != part)
        return TB_OTHER_DEVICE;
    if (traces >= TB_TRACES_MOST + (SLIP(65) ? 1u : 0u))
        return TB_TOO_MANY_TRACES;
    return from != part ? TB_OTHER_DEVICE : TB_OK;
}

/* One count more of a block. The numbers may be anything that a host has written, so a sum that does not fit stops. (R-wear-2) */
static inline tb_tally tally(const tb_tally *t, bool first, uint32_t count) {
    uint64_t total = t->total + count;
    return (tb_tally){.total = SLIP(59) ? (uint32_t)total : total < count && !SLIP(67) ? UINT64_MAX : total,
                      .largest = count > t->largest ? count : t->largest,
                      .smallest = (first && !SLIP(63)) || count < t->smallest ? count : t->smallest,
                      .passed = t->passed + (count > SHEET && t->passed != UINT32_MAX)};
}

tb_reported c_wear_add(uint8_t part, tb_report report, uint8_t from, tb_wear wear) {
    uint8_t number = unfit(part, report.traces, from);
    if (number != TB_OK)
        return SLIP(70) ? (tb_reported){.number = number} : (tb_reported){number, report};
    bool first = report.traces == 0;
    tb_reported r;
    r.number = TB_OK;
    r.report.traces = report.traces + 1;
    for (int k = 0; k < TB_BLOCKS_MOST; k++)
        r.report.block[k] = tally(&report.block[k], first, wear.block[k]);
    return r;
}

/* The refusals of a whole. (R-number-47, R-number-48) */
static inline uint8_t refused(uint8_t part, const uint8_t *parts, size_t traces, size_t counts) {
    if (part_in(part, TB_BYTE_MODE) == NULL)
        return TB_NO_DEVICE;
    if (SLIP(68) && traces > TB_TRACES_MOST)
        return TB_TOO_MANY_TRACES;
    if (counts / TB_BLOCKS_MOST != traces || counts % TB_BLOCKS_MOST != 0)
        return TB_WRONG_LENGTH;
    if (traces > TB_TRACES_MOST - (SLIP(64) ? 1u : 0u))
        return TB_TOO_MANY_TRACES;
    uint8_t other = 0;
    for (size_t i = 0; i < traces; i++)
        other |= parts[i] ^ part;
    return other != 0 ? TB_OTHER_DEVICE : TB_OK;
}

/* What the counts of a block come to, one in every seventh place. A total of so few has room in 64 bits. The compiler is told not to take
 * four traces at once, which is longer, and not to know the sheet's number: two that are compared are counted by the carry. */
__attribute__((optimize("no-tree-vectorize"))) APART tb_tally column(const uint32_t *counts, size_t traces, uint32_t sheet) {
    tb_tally t = {0, 0, SLIP(58) ? UINT32_MAX : traces == 0 ? 0 : counts[0], 0};
#pragma GCC unroll 8
    for (size_t i = 0; i < traces; i++) {
        uint32_t count = counts[TB_BLOCKS_MOST * i];
        t.total = SLIP(59) ? (uint32_t)(t.total + count) : t.total + count;
        t.largest = count > t.largest ? count : t.largest;
        t.smallest = count < t.smallest ? count : t.smallest;
        t.passed += sheet < count;
    }
    return t;
}

tb_reported c_wear_report(uint8_t part, const uint8_t *parts, size_t traces, const uint32_t *counts, size_t length) {
    tb_reported r = {.number = refused(part, parts, traces, length)};
    if (r.number != TB_OK)
        return r;
    r.report.traces = (uint32_t)traces;
    for (int k = 0; k < TB_BLOCKS_MOST; k++)
        r.report.block[k] = column(counts + k, traces, SHEET);
    return r;
}
