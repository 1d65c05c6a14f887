/* Size and blocks of every part, by the tables of the rules and of the sheets: the library and the second implementation, on all
 * numbers. */
#include <stdio.h>

#include "cases.h"

/* First and last byte address of each block, as the tables have them; of parts 5 to 8 by the sheet's maps of word mode, where a word
 * address stands for two bytes. (R-part-1 to R-part-4) */
#define WORDS(first, last) {2 * (first), 2 * (last) + 1}
static const struct {
    size_t size;
    unsigned blocks;
    size_t block[7][2];
} table[9] = {
    {0, 0, {{0, 0}}},
    {131072, 4, {{0x1E000, 0x1FFFF}, {0x1D000, 0x1DFFF}, {0x1C000, 0x1CFFF}, {0x00000, 0x1BFFF}}},
    {131072, 4, {{0x00000, 0x01FFF}, {0x02000, 0x02FFF}, {0x03000, 0x03FFF}, {0x04000, 0x1FFFF}}},
    {16384, 4, {{0x3C00, 0x3FFF}, {0x3A00, 0x3BFF}, {0x3800, 0x39FF}, {0x0000, 0x37FF}}},
    {16384, 4, {{0x0000, 0x03FF}, {0x0400, 0x05FF}, {0x0600, 0x07FF}, {0x0800, 0x3FFF}}},
    {262144,
     5,
     {WORDS(0x1E000, 0x1FFFF), WORDS(0x1D000, 0x1DFFF), WORDS(0x1C000, 0x1CFFF), WORDS(0x10000, 0x1BFFF), WORDS(0x00000, 0x0FFFF)}},
    {262144,
     5,
     {WORDS(0x00000, 0x01FFF), WORDS(0x02000, 0x02FFF), WORDS(0x03000, 0x03FFF), WORDS(0x04000, 0x0FFFF), WORDS(0x10000, 0x1FFFF)}},
    {524288,
     7,
     {WORDS(0x3E000, 0x3FFFF), WORDS(0x3D000, 0x3DFFF), WORDS(0x3C000, 0x3CFFF), WORDS(0x30000, 0x3BFFF), WORDS(0x20000, 0x2FFFF),
      WORDS(0x10000, 0x1FFFF), WORDS(0x00000, 0x0FFFF)}},
    {524288,
     7,
     {WORDS(0x00000, 0x01FFF), WORDS(0x02000, 0x02FFF), WORDS(0x03000, 0x03FFF), WORDS(0x04000, 0x0FFFF), WORDS(0x10000, 0x1FFFF),
      WORDS(0x20000, 0x2FFFF), WORDS(0x30000, 0x3FFFF)}},
};

static unsigned part, block;

static void tell(void) {
    tb_span lib = tb_block((uint8_t)part, (uint8_t)block), second = c_block((uint8_t)part, (uint8_t)block);
    printf("  part %u, block %u\n", part, block);
    printf("  the library: size %zu, first %zX, length %zX\n", tb_size((uint8_t)part), lib.first, lib.length);
    printf("  second implementation: size %zu, first %zX, length %zX\n", c_size((uint8_t)part), second.first, second.length);
}

static bool as_told(tb_span is) {
    if (part < 1 || part > 8 || block >= table[part].blocks)
        return is.first == 0 && is.length == 0;
    const size_t *told = table[part].block[block];
    return is.first == told[0] && is.length == told[1] - told[0] + 1;
}

void parts(void) {
    tell_case = tell;
    for (part = 0; part < 256; part++) {
        size_t size = part < 9 ? table[part].size : 0;
        if (tb_size((uint8_t)part) != size || c_size((uint8_t)part) != size)
            mismatch("size");
        for (block = 0; block < 256; block++, count_block())
            if (!as_told(tb_block((uint8_t)part, (uint8_t)block)) || !as_told(c_block((uint8_t)part, (uint8_t)block)))
                mismatch("block");
    }
}
