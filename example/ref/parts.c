/* tb_size, tb_block: what a part has. */
#include <stdio.h>
#include <torfbarke.h>

int main(void) {
    tb_span boot = tb_block(TB_28F001BX_T, 0), none = tb_block(TB_BENCH_T, 4);
    if (tb_size(TB_28F001BX_T) != 131072 || tb_size(TB_BENCH_T) != 16384 || tb_size(9) != 0)
        return puts("wrong: a size"), 1;
    if (boot.first != 0x1E000 || boot.length != 0x2000 || none.first != 0 || none.length != 0)
        return puts("wrong: a block"), 1;
    printf("boot block of 28F001BX-T: %zX to %zX\n", boot.first, boot.first + boot.length - 1);
    return 0;
}
