/* tb_load, tb_verify_file: a load file goes into a block, and is compared with what the block holds. */
#include <stdio.h>
#include <string.h>
#include <torfbarke.h>

enum { PART = TB_BENCH_T, BLOCK = 1, LETTER = 'K' };
static const tb_device device = {.number = PART, .program = 2, .erase = 3, .suspend = 1};
static uint8_t array[16384], wanted[512], scratch[512], file[512];

/* a macro and no pointer to a function: so the header's test of the slices stands */
#define WITH(how, letter) \
    how(device, tb_fresh(), TB_RP_HIGH, TB_WP_LOW, 12000, BLOCK, letter, file, sizeof file, array, sizeof array, wanted, sizeof wanted, \
        scratch, sizeof scratch)

int main(void) {
    uint8_t payload[12];
    tb_knot_pack(0, 0, 0, payload, sizeof payload);
    tb_knot_pack(1, 4096, 1000, payload, sizeof payload);
    tb_file_write(LETTER, payload, sizeof payload, file, sizeof file);

    size_t first = tb_block(PART, BLOCK).first, programs = 0;
    memset(array, 0xFF, sizeof array);
    tb_ran ran = WITH(tb_load, LETTER);
    for (size_t i = 0; i < sizeof file; i++)
        programs += file[i] != 0xFF;
    /* all is read, what is not FFH is programmed, all is read back */
    if (ran.end != TB_OK || ran.count != 1027 + 4 * programs || memcmp(array + first, file, sizeof file) != 0)
        return puts("wrong: the load"), 1;
    if (WITH(tb_verify_file, LETTER).end != TB_OK)
        return puts("wrong: the verify"), 1;

    /* another probe's letter is refused before anything is done */
    ran = WITH(tb_load, 'S');
    if (ran.end != TB_OTHER_LETTER || ran.count != 0)
        return puts("wrong: the letter"), 1;
    array[first + 100] = 0x00;
    ran = WITH(tb_verify_file, LETTER);
    if (ran.end != TB_VERIFY_FAILED || ran.address != first + 100)
        return puts("wrong: a verify that fails"), 1;
    printf("loaded with %zu bytes programmed\n", programs);
    return 0;
}
