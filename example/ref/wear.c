/* tb_wear_add, tb_wear_report: how worn parts are, by the counts of their last states. */
#include <stdio.h>
#include <torfbarke.h>

int main(void) {
    /* two parts of number 3: block 1 was erased 100,001 times and 7 times */
    static const uint8_t parts[] = {TB_BENCH_T, TB_BENCH_T};
    static const uint32_t counts[2 * TB_BLOCKS_MOST] = {[1] = 100001, [TB_BLOCKS_MOST + 1] = 7};
    tb_reported all = tb_wear_report(TB_BENCH_T, parts, 2, counts, 2 * TB_BLOCKS_MOST);
    tb_tally one = all.report.block[1];
    if (all.number != TB_OK || all.report.traces != 2)
        return puts("wrong: the report"), 1;
    if (one.total != 100008 || one.largest != 100001 || one.smallest != 7 || one.passed != 1)
        return puts("wrong: the tally of block 1"), 1;

    /* one part more; one of another number is refused, and the report stays */
    tb_reported more = tb_wear_add(TB_BENCH_T, all.report, TB_BENCH_T, tb_fresh().wear);
    tb_reported other = tb_wear_add(TB_BENCH_T, more.report, TB_BENCH_B, tb_fresh().wear);
    if (more.number != TB_OK || more.report.traces != 3 || more.report.block[1].smallest != 0)
        return puts("wrong: a part more"), 1;
    if (other.number != TB_OTHER_DEVICE || other.report.traces != 3)
        return puts("wrong: another part"), 1;
    printf("block 1: %llu erases, at most %lu\n", (unsigned long long)one.total, (unsigned long)one.largest);
    return 0;
}
