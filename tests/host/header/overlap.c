/* A run whose wanted and scratch are one memory. The header's test stops it: status 6. With TB_UNCHECKED it ends well,
 * with the count of a good load, and has loaded nothing: status 0. */
#include <signal.h>
#include <stdlib.h>
#include <string.h>

#include "torfbarke.h"

static void stopped(int number) {
    (void)number;
    _Exit(6);
}

int main(void) {
    static uint8_t array[16384], both[512];
    tb_device device = {.number = TB_BENCH_T, .program = 2, .erase = 3, .suspend = 1};
    memset(both, 0x5A, sizeof both);
    signal(SIGABRT, stopped);
    tb_ran ran = tb_run(device, tb_fresh(), TB_RP_HIGH, TB_WP_LOW, 12000, 1, array, sizeof array, both, sizeof both, both, sizeof both);
    return ran.end == TB_OK && ran.count == 2 * sizeof both + 3 && array[tb_block(TB_BENCH_T, 1).first] == 0 ? 0 : 1;
}
