/* tb_start, tb_load_start, tb_verify_start, tb_step: a load by hand. The host makes each cycle; here the model stands for the part. */
#include <stdio.h>
#include <string.h>
#include <torfbarke.h>

enum { PART = TB_BENCH_T, BLOCK = 1 };
static const tb_device device = {.number = PART, .program = 2, .erase = 3, .suspend = 1};
static uint8_t array[16384], wanted[512], scratch[512];

typedef tb_given (*starter)(uint8_t, uint8_t, uint8_t, uint8_t, uint32_t, uint8_t, const uint8_t *, size_t, const uint8_t *, size_t);

/* Makes every cycle that the loader gives, until its end; tells how many. */
static unsigned long drive(starter start, uint8_t *end) {
    tb_state state = tb_fresh();
    tb_given given = start(PART, TB_BYTE_MODE, TB_RP_HIGH, TB_WP_LOW, 12000, BLOCK, wanted, sizeof wanted, scratch, sizeof scratch);
    tb_turn turn = given.turn;
    unsigned long cycles = 0;
    for (; turn.turn == TB_CYCLE_OUT; cycles++) {
        tb_answer answer = tb_cycle(device, state, turn.cycle, array, sizeof array, NULL, 0);
        state = answer.state;
        turn = tb_step(&given.loader, answer.value, wanted, sizeof wanted, scratch, sizeof scratch);
    }
    *end = turn.number;
    return cycles;
}

int main(void) {
    uint8_t end;
    memset(array, 0xFF, sizeof array);
    memset(wanted, 0xFF, sizeof wanted);
    wanted[0] = 0x5A;
    /* card 10 of the page: 5AH, then FFH, into a blank block takes 1,031 cycles, the verify's 513 among them */
    if (drive(tb_start, &end) != 1031 || end != TB_OK || array[tb_block(PART, BLOCK).first] != 0x5A)
        return puts("wrong: the load with its verify"), 1;
    if (drive(tb_verify_start, &end) != 513 || end != TB_OK)
        return puts("wrong: the verify alone"), 1;
    memset(array, 0xFF, sizeof array);
    if (drive(tb_load_start, &end) != 1031 - 513 || end != TB_OK)
        return puts("wrong: the load alone"), 1;
    puts("1031 cycles, 518 of them the load");
    return 0;
}
