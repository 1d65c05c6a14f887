/* tb_held_start, tb_held_step, tb_held_run, tb_held_load: a block is erased and loaded, and meanwhile another block is read. */
#include <stdio.h>
#include <string.h>
#include <torfbarke.h>

enum { PART = TB_BENCH_T, BLOCK = 1, LETTER = 'K' };
static const tb_device device = {.number = PART, .program = 2, .erase = 3, .suspend = 1};
static const uint32_t polls[] = {1}, addresses[] = {0x10, 0x20}; /* at the erase's first poll, two bytes of the main block */
static uint8_t array[16384], wanted[512], scratch[512], room[2], file[512];

/* The block holds 00H, the two bytes of the main block 12H and 34H. */
static void before(void) {
    memset(array, 0, sizeof array);
    array[0x10] = 0x12, array[0x20] = 0x34;
    memset(room, 0, sizeof room);
}

static int seen(void) { return room[0] == 0x12 && room[1] == 0x34; }

/* The same by hand: the host makes each cycle. */
static unsigned long by_hand(uint8_t *end) {
    tb_state state = tb_fresh();
    tb_held_given now = tb_held_start(PART, TB_BYTE_MODE, TB_RP_HIGH, TB_WP_LOW, 12000, BLOCK, 1, wanted, sizeof wanted, scratch,
                                      sizeof scratch, addresses, 2, room, sizeof room);
    unsigned long cycles = 0;
    for (; now.turn.turn == TB_CYCLE_OUT; cycles++) {
        tb_answer answer = tb_cycle(device, state, now.turn.cycle, array, sizeof array, NULL, 0);
        state = answer.state;
        now = tb_held_step(now.held, answer.value, wanted, sizeof wanted, scratch, sizeof scratch, polls, 1, addresses, 2, room,
                           sizeof room);
    }
    *end = now.turn.number;
    return cycles;
}

int main(void) {
    uint8_t end, payload[12];
    memset(wanted, 0xFF, sizeof wanted);

    /* without the interruption it takes 1,032 cycles (card 11). It adds B0H, 70H, a poll, FFH, two reads and D0H, and B0H is a cycle of the
     * erase in the place of one poll */
    before();
    tb_ran ran = tb_held_run(device, tb_fresh(), TB_RP_HIGH, TB_WP_LOW, 12000, BLOCK, 1, array, sizeof array, wanted, sizeof wanted,
                             scratch, sizeof scratch, polls, 1, addresses, 2, room, sizeof room);
    if (ran.end != TB_OK || ran.count != 1032 + 7 - 1 || !seen() || array[tb_block(PART, BLOCK).first] != 0xFF)
        return puts("wrong: an interrupted run"), 1;
    before();
    if (by_hand(&end) != 1032 + 7 - 1 || end != TB_OK || !seen())
        return puts("wrong: an interrupted load by hand"), 1;

    /* from a load file; wanted is filled with it */
    tb_knot_pack(0, 0, 0, payload, sizeof payload);
    tb_knot_pack(1, 4096, 1000, payload, sizeof payload);
    tb_file_write(LETTER, payload, sizeof payload, file, sizeof file);
    before();
    ran = tb_held_load(device, tb_fresh(), TB_RP_HIGH, TB_WP_LOW, 12000, BLOCK, 1, LETTER, file, sizeof file, array, sizeof array, wanted,
                       sizeof wanted, scratch, sizeof scratch, polls, 1, addresses, 2, room, sizeof room);
    if (ran.end != TB_OK || !seen() || memcmp(array + tb_block(PART, BLOCK).first, file, sizeof file) != 0)
        return puts("wrong: an interrupted load from a file"), 1;
    printf("read while the block was erased: %02X %02X\n", room[0], room[1]);
    return 0;
}
