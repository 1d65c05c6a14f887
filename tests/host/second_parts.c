/* The second implementation: the parts' table, size and block. */
#include "second_parts.h"

enum { LOW = TB_VPP_LOW_MOST_MV, BR_LOW = TB_VPP_BR_LOW_MOST_MV };

static const part_rules rules[9] = {
    {0},
    {131072, 4, {{0x1E000, 0x2000}, {0x1D000, 0x1000}, {0x1C000, 0x1000}, {0x00000, 0x1C000}}, 0x94, LOW, false},
    {131072, 4, {{0x00000, 0x2000}, {0x02000, 0x1000}, {0x03000, 0x1000}, {0x04000, 0x1C000}}, 0x95, LOW, false},
    {16384, 4, {{0x3C00, 0x400}, {0x3A00, 0x200}, {0x3800, 0x200}, {0x0000, 0x3800}}, 0x94, LOW, false},
    {16384, 4, {{0x0000, 0x400}, {0x0400, 0x200}, {0x0600, 0x200}, {0x0800, 0x3800}}, 0x95, LOW, false},
    {262144, 5, {{0x3C000, 0x4000}, {0x3A000, 0x2000}, {0x38000, 0x2000}, {0x20000, 0x18000}, {0x00000, 0x20000}}, 0x2274, BR_LOW, true},
    {262144, 5, {{0x00000, 0x4000}, {0x04000, 0x2000}, {0x06000, 0x2000}, {0x08000, 0x18000}, {0x20000, 0x20000}}, 0x2275, BR_LOW, true},
    {524288,
     7,
     {{0x7C000, 0x4000}, {0x7A000, 0x2000}, {0x78000, 0x2000}, {0x60000, 0x18000}, {0x40000, 0x20000}, {0x20000, 0x20000},
      {0x00000, 0x20000}},
     0x4470,
     BR_LOW,
     true},
    {524288,
     7,
     {{0x00000, 0x4000}, {0x04000, 0x2000}, {0x06000, 0x2000}, {0x08000, 0x18000}, {0x20000, 0x20000}, {0x40000, 0x20000},
      {0x60000, 0x20000}},
     0x4471,
     BR_LOW,
     true},
};

const part_rules *const second_parts[9] = {NULL,      &rules[1], &rules[2], &rules[3], &rules[4],
                                           &rules[5], &rules[6], &rules[7], &rules[8]};

size_t c_size(uint8_t part) { return part - 1u < 8 ? rules[part].size : 0; }

tb_span c_block(uint8_t part, uint8_t block) {
    if (part - 1u >= 8 || block >= rules[part].blocks)
        return (tb_span){0, 0};
    return (tb_span){rules[part].block[block].first, rules[part].block[block].length};
}
