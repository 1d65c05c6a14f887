/* tb_fresh, tb_cycle, tb_table_cycle: a byte is programmed and read back, by both engines, each on an array of its own. */
#include <stdio.h>
#include <string.h>
#include <torfbarke.h>

static const tb_device device = {.number = TB_BENCH_T, .program = 2, .erase = 3, .suspend = 1};
static uint8_t array[16384], other[16384];

/* the cycles of the trace program's page, and what each answers: seen, value, status */
static const struct {
    tb_bus bus;
    uint8_t seen, value, status;
} page[] = {
    {{.kind = TB_CYCLE_WRITE, .rp = 1, .vpp_mv = 12000, .address = 0x10, .data = 0x40}, TB_NO_DATA, 0, 0x80},
    {{.kind = TB_CYCLE_WRITE, .rp = 1, .vpp_mv = 12000, .address = 0x10, .data = 0x5A}, TB_NO_DATA, 0, 0x00},
    {{.kind = TB_CYCLE_READ, .rp = 1, .vpp_mv = 12000, .address = 0x10}, TB_DATA, 0x00, 0x00},
    {{.kind = TB_CYCLE_READ, .rp = 1, .vpp_mv = 12000, .address = 0x10}, TB_DATA, 0x80, 0x80},
    {{.kind = TB_CYCLE_WRITE, .rp = 1, .vpp_mv = 12000, .address = 0x00, .data = 0xFF}, TB_NO_DATA, 0, 0x80},
    {{.kind = TB_CYCLE_READ, .rp = 1, .vpp_mv = 12000, .address = 0x10}, TB_DATA, 0x5A, 0x80},
    {{.kind = TB_CYCLE_WRITE, .rp = 1, .vpp_mv = 12000, .address = 0x00, .data = 0x00}, TB_REFUSED, TB_NO_COMMAND, 0x80},
    {{.kind = TB_CYCLE_READ, .rp = 1, .vpp_mv = 5000, .address = 0x4000}, TB_REFUSED, TB_PAST_ARRAY, 0x80},
};

int main(void) {
    tb_state state = tb_fresh(), twin = tb_fresh();
    memset(array, 0xFF, sizeof array);
    memset(other, 0xFF, sizeof other);
    for (size_t i = 0; i < sizeof page / sizeof page[0]; i++) {
        /* no operation is cut here, so the residue may be empty */
        tb_answer a = tb_cycle(device, state, page[i].bus, array, sizeof array, NULL, 0);
        tb_answer b = tb_table_cycle(device, twin, page[i].bus, other, sizeof other, NULL, 0);
        if (a.seen != page[i].seen || a.value != page[i].value || a.state.status != page[i].status)
            return puts("wrong: an answer"), 1;
        if (b.seen != a.seen || b.value != a.value || b.state.status != a.state.status)
            return puts("wrong: the engines differ"), 1;
        state = a.state, twin = b.state;
    }
    if (array[0x10] != 0x5A || memcmp(array, other, sizeof array) != 0)
        return puts("wrong: the array"), 1;
    puts("5AH at 0010, by both engines");
    return 0;
}
