/* The second implementation: a run once more, cycle by cycle, by c_start, c_step and c_cycle. The run by stages is held against it. */
#include "second_run.h"

tb_ran c_stepped_run(tb_device d, tb_state s, uint8_t rp, uint8_t wp, uint32_t vpp, uint8_t block, uint8_t *array, size_t size,
                     const uint8_t *wanted, size_t n, uint8_t *scratch, size_t m) {
    order o = {d, s, rp, wp, block, vpp};
    tb_ran r = {0, run_refused(&o, size, n, m), 0, s};
    if (r.end != TB_OK)
        return r;
    tb_given g = c_start(d.number, d.word, rp, wp, vpp, block, wanted, n, scratch, m);
    while (g.turn.turn == TB_CYCLE_OUT) {
        tb_answer a = c_cycle(d, r.state, g.turn.cycle, array, size, NULL, 0);
        r.state = a.state;
        r.count++;
        g.turn = c_step(&g.loader, a.value, wanted, n, scratch, m);
    }
    r.end = g.turn.number;
    r.address = g.turn.address;
    return r;
}
