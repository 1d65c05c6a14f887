/* tb_run, tb_load_run, tb_verify_run: a block is loaded against the model in one call. */
#include <stdio.h>
#include <string.h>
#include <torfbarke.h>

enum { BLOCK = 1 };
static const tb_device device = {.number = TB_BENCH_T, .program = 2, .erase = 3, .suspend = 1};
static uint8_t array[16384], wanted[512], scratch[512];

/* a macro and no pointer to a function: so the header's test of the slices stands */
#define RUN(how) \
    how(device, tb_fresh(), TB_RP_HIGH, TB_WP_LOW, 12000, BLOCK, array, sizeof array, wanted, sizeof wanted, scratch, sizeof scratch)

int main(void) {
    size_t first = tb_block(TB_BENCH_T, BLOCK).first;
    tb_ran ran;

    /* card 11 of the page: a block of 00H becomes FFH in 1,032 cycles, one erase; as it is wanted already, 1,027 */
    memset(wanted, 0xFF, sizeof wanted);
    ran = RUN(tb_run);
    if (ran.end != TB_OK || ran.count != 1032 || ran.state.wear.block[BLOCK] != 1 || array[first] != 0xFF)
        return puts("wrong: a run that erases"), 1;
    ran = RUN(tb_run);
    if (ran.end != TB_OK || ran.count != 1027)
        return puts("wrong: a run with nothing to do"), 1;

    /* the two halves of a run: all reads, then all reads once more */
    if (RUN(tb_load_run).count != 2 + 512 || RUN(tb_verify_run).count != 1 + 512)
        return puts("wrong: the halves of a run"), 1;

    /* a byte that differs ends a verify there: FFH was written, six bytes were read */
    array[first + 5] = 0x7F;
    ran = RUN(tb_verify_run);
    if (ran.end != TB_VERIFY_FAILED || ran.address != first + 5 || ran.count != 7)
        return puts("wrong: a verify that fails"), 1;
    printf("verify: another byte at %lX\n", (unsigned long)ran.address);
    return 0;
}
