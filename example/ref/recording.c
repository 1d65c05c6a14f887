/* tb_recording: a programmer's cycles, with the answers that he saw, against the rules. */
#include <stdio.h>
#include <string.h>
#include <torfbarke.h>

static const tb_device device = {.number = TB_BENCH_T, .program = 65535, .erase = 65535, .suspend = 1};
static uint8_t array[16384], promised[16384];

#define CYCLE(k, a, d) {.kind = (k), .rp = TB_RP_HIGH, .vpp_mv = 12000, .address = (a), .data = (d)}

int main(void) {
    /* a program of 5AH at 0010 that stayed busy for two cycles */
    tb_record list[] = {
        {.bus = CYCLE(TB_CYCLE_WRITE, 0x10, 0x40), .seen = TB_NO_DATA},
        {.bus = CYCLE(TB_CYCLE_WRITE, 0x10, 0x5A), .seen = TB_NO_DATA, .busy = 2},
        {.bus = CYCLE(TB_CYCLE_READ, 0x10, 0), .seen = TB_DATA, .value = 0x00},
        {.bus = CYCLE(TB_CYCLE_READ, 0x10, 0), .seen = TB_DATA, .value = 0x80},
        {.bus = CYCLE(TB_CYCLE_WRITE, 0x00, 0xFF), .seen = TB_NO_DATA},
    };
    const size_t records = sizeof list / sizeof list[0];
    memset(array, 0xFF, sizeof array);
    memset(promised, 0xFF, sizeof promised);
    promised[0x10] = 0x5A;
    tb_checked good = tb_recording(device, tb_fresh(), list, records, promised, sizeof promised, array, sizeof array);
    if (good.refusal != TB_OK || good.accepted != 1 || good.at != records)
        return puts("wrong: a good recording"), 1;

    /* busy for three cycles, the part would not have been ready in record 3 */
    list[1].busy = 3;
    memset(array, 0xFF, sizeof array);
    tb_checked bad = tb_recording(device, tb_fresh(), list, records, promised, sizeof promised, array, sizeof array);
    if (bad.refusal != TB_OK || bad.accepted != 0 || bad.at != 3 || array[0x10] != 0xFF)
        return puts("wrong: a bad recording"), 1;
    printf("accepted; then at fault in record %zu\n", bad.at);
    return 0;
}
