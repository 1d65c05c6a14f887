/* tb_store_add, tb_store_find, tb_store_read, tb_store_drop: several tables in the main block of a part. */
#include <stdio.h>
#include <string.h>
#include <torfbarke.h>

enum { PART = TB_BENCH_T, MAIN = 14336 };
static const tb_device device = {.number = PART, .program = 2, .erase = 3, .suspend = 1};
static uint8_t array[16384], memory[MAIN], scratch[MAIN], file[512], room[512];

static tb_ran add(uint8_t letter, tb_state state) {
    uint8_t payload[12];
    tb_knot_pack(0, 0, 0, payload, sizeof payload);
    tb_knot_pack(1, 4096, letter == 'K' ? 1000 : 3000, payload, sizeof payload);
    tb_file_write(letter, payload, sizeof payload, file, sizeof file);
    return tb_store_add(device, state, TB_RP_HIGH, TB_WP_LOW, 12000, letter, file, sizeof file, array, sizeof array, memory, sizeof memory,
                        scratch, sizeof scratch);
}

int main(void) {
    memset(array, 0xFF, sizeof array); /* an erased main block is the empty store; on bench T it begins at address 0 */
    tb_ran one = add('K', tb_fresh()), two = add('S', one.state);
    if (one.end != TB_OK || two.end != TB_OK || array[0] != 'K' || array[512] != 'S' || two.state.wear.block[3] != 0)
        return puts("wrong: two files added"), 1;
    tb_sized found = tb_store_find(PART, TB_BYTE_MODE, 'S', array, sizeof array, room, sizeof room);
    if (found.number != TB_OK || found.length != 512 || memcmp(room, file, 512) != 0)
        return puts("wrong: a file found"), 1;
    tb_reading k = tb_store_read(PART, TB_BYTE_MODE, 'K', array, sizeof array, room, sizeof room, 4096);
    tb_reading s = tb_store_read(PART, TB_BYTE_MODE, 'S', array, sizeof array, room, sizeof room, 4096);
    if (k.answer != TB_TEMPERATURE || k.tenths != 1000 || s.answer != TB_TEMPERATURE || s.tenths != 3000)
        return puts("wrong: a reading"), 1;

    /* a dropped file's place is dead, its first byte is 00H; nothing is erased */
    tb_ran less = tb_store_drop(device, two.state, TB_RP_HIGH, TB_WP_LOW, 12000, 'K', array, sizeof array, memory, sizeof memory, scratch,
                                sizeof scratch);
    if (less.end != TB_OK || array[0] != 0 || less.state.wear.block[3] != 0)
        return puts("wrong: a file dropped"), 1;
    if (tb_store_find(PART, TB_BYTE_MODE, 'K', array, sizeof array, room, sizeof room).number != TB_NOT_STORED)
        return puts("wrong: a file that is gone"), 1;
    printf("%.1f degrees by S, K is dropped\n", s.tenths / 10);
    return 0;
}
