/* Packs a small table of a type K thermocouple into a load file, loads the file into block 1 of a simulated bench T part at 12 V,
 * prints how many bus cycles it took and how the part was left, and reads a temperature out of the part. Then the block is used
 * otherwise and loaded once more, and a report tells how worn the part is, beside a new one. */
#include "probe.h"

enum { PART = TB_BENCH_T, BLOCK = 1 };

static const tb_device device = {.number = PART, .program = 2, .erase = 3, .suspend = 1};
static uint8_t file[FILE_BYTES], *array, *wanted, *scratch;
static size_t size;
static tb_span block;

/* Loads the file over a block that was used before, and says how the part was left. */
static tb_state load(tb_state state) {
    memset(array + block.first, 0, block.length);
    tb_ran ran = tb_load(device, state, TB_RP_HIGH, TB_WP_LOW, 12000, BLOCK, LETTER, file, sizeof file, array, size, wanted,
                         block.length, scratch, block.length);
    printf("load: %llu cycles, end %u\n", (unsigned long long)ran.count, ran.end);
    must(ran.end == TB_OK && ran.count == cycles_due(device, wanted, block.length), "the end of the load, or its cycles");
    printf("part: mode %u, status %02X, phase %u\n", ran.state.mode, ran.state.status, ran.state.phase);
    must(ran.state.mode == TB_MODE_ARRAY && ran.state.status == TB_SR_READY && ran.state.phase == TB_FREE, "how the part was left");
    print_wear(PART, ran.state.wear);
    return ran.state;
}

/* A report on two parts: this one, by its last state, and a new one. */
static void report_wear(tb_wear wear) {
    const tb_report none = {0};
    tb_reported one = tb_wear_add(PART, none, PART, wear), both = tb_wear_add(PART, one.report, PART, tb_fresh().wear);
    tb_tally t = both.report.block[BLOCK];
    must(one.number == TB_OK && both.number == TB_OK && both.report.traces == 2, "the report is refused");
    must(t.total == 2 && t.largest == 2 && t.smallest == 0 && t.passed == 0, "the report on the block");
    printf("report: %lu parts, block %u: %llu erases, at most %lu, at least %lu, over %u: %lu parts\n", (unsigned long)both.report.traces,
           BLOCK, (unsigned long long)t.total, (unsigned long)t.largest, (unsigned long)t.smallest, TB_SHEET_ERASES,
           (unsigned long)t.passed);
}

int main(void) {
    pack(file);

    /* room for the part, for what the block is to hold and for the load's own notes: three memories that must lie apart */
    size = tb_size(PART);
    block = tb_block(PART, BLOCK);
    array = calloc(size, 1), wanted = malloc(block.length), scratch = malloc(block.length);
    must(array && wanted && scratch, "no room");

    tb_state state = load(tb_fresh());
    read_probe(array + block.first);
    report_wear(load(state).wear);
    free(array);
    free(wanted);
    free(scratch);
    return 0;
}
