/* The second implementation: a payload as a table of knots, and the reading at a voltage. */
#include <string.h>

#include "second.h"

static inline int32_t volts(const uint8_t *knot) {
    return (int32_t)((uint32_t)knot[0] << 24 | (uint32_t)knot[1] << 16 | (uint32_t)knot[2] << 8 | knot[3]);
}

static inline double heat(const uint8_t *knot) {
    uint16_t tenths = (uint16_t)(knot[4] << 8 | knot[5]);
    return SLIP(18) ? tenths : (int16_t)tenths;
}

uint8_t c_table_judge(const uint8_t *payload, size_t n) {
    if (n % 6 != 0 || n < 12)
        return TB_TABLE_SHAPE;
    int32_t before = volts(payload), first = before;
    for (const uint8_t *knot = payload + 6; knot < payload + n; knot += 6) {
        int32_t here = volts(knot);
        if (SLIP(19) ? here < before : here <= before)
            return TB_TABLE_VOLTS;
        before = here;
    }
    return first < -10000 || before > 80000 ? TB_TABLE_VOLTS : TB_OK; /* they rise, so those between are in range */
}

/* Two knots in range, the second above the first. */
static inline int rises(int32_t a, int32_t b) {
    return a >= -10000 && a <= 80000 && b >= -10000 && b <= 80000 && (SLIP(80) ? a <= b : a < b);
}

/* By a payload that need not have been judged: 40 by its length, 41 by the knots that the answer is made of, the first and the last
 * and, between them, the pair that is found. (R-reading-3, R-number-40, R-number-41) */
tb_reading c_table_reading(const uint8_t *payload, size_t n, int32_t x) {
    if ((n % 6 != 0 && !SLIP(81)) || n < 12)
        return (tb_reading){TB_NO_READING, TB_TABLE_SHAPE, 0};
    size_t low = 0, high = n / 6 - 1;
    const uint8_t *last = payload + 6 * high;
    int32_t least = volts(payload), most = volts(last);
    if (!rises(least, most))
        return (tb_reading){TB_NO_READING, TB_TABLE_VOLTS, 0};
    if (x < least)
        return (tb_reading){TB_BELOW, 0, heat(payload)};
    if (SLIP(20) ? x >= most : x > most)
        return (tb_reading){TB_ABOVE, 0, heat(last)};
    while (high - low > 1) {
        size_t middle = low + (high - low) / 2;
        if (volts(payload + 6 * middle) <= x)
            low = middle;
        else
            high = middle;
    }
    const uint8_t *a = payload + 6 * low, *b = a + 6;
    if (SLIP(82) ? volts(a) >= volts(b) : !rises(volts(a), volts(b)))
        return (tb_reading){TB_NO_READING, TB_TABLE_VOLTS, 0};
    double x0 = volts(a), t0 = heat(a), x1 = volts(b), t1 = heat(b);
    double t = SLIP(21) ? t0 + (t1 - t0) / (x1 - x0) * (x - x0) : t0 + (t1 - t0) * (x - x0) / (x1 - x0);
    return (tb_reading){TB_TEMPERATURE, 0, t};
}

tb_reading c_file_reading(uint8_t letter, const uint8_t *file, size_t n, uint8_t *room, size_t m, int32_t x) {
    tb_sized got = c_file_read(letter, file, n, room, m);
    uint8_t number = got.number != TB_OK ? got.number : c_table_judge(room, got.length);
    return number != TB_OK ? (tb_reading){TB_NO_READING, number, 0} : c_table_reading(room, got.length, x);
}
