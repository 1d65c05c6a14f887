/* A card that keeps measuring while a table of it is replaced. Block 2 of a simulated bench T part holds the table of the probe in use;
 * another table goes into block 1, which has to be erased first. The card makes the load's cycles itself, one by one, and has the erase
 * interrupted at three of its polls: there the file in block 2 is read, a byte an address, and the probe's voltage of that moment is
 * turned into a temperature. */
#include "probe.h"

enum { PART = TB_BENCH_T, BLOCK = 1, IN_USE = 2, READS = FILE_BYTES };

static const tb_device device = {.number = PART, .program = 2, .erase = 10, .suspend = 3};
static const uint32_t polls[] = {8, 2, 5}; /* in any order */
enum { MOMENTS = sizeof polls / sizeof polls[0] };

/* What the probe gives at those moments, and what that is in tenths of a degree. */
static const struct {
    int32_t microvolts;
    double tenths;
} moments[MOMENTS] = {{4096, 1000}, {(4096 + 8138) / 2, 1500}, {8138, 2000}};

static uint8_t file[FILE_BYTES], *array, wanted[512], scratch[512], room[READS], payload[PAYLOAD];
static uint32_t addresses[READS];
static size_t size;
static int measured;

/* The room holds the file of the table in use. */
static void measure(void) {
    must(measured < MOMENTS, "an interruption too many");
    must(memcmp(room, file, sizeof file) == 0, "what was read in the interruption");
    tb_reading r = tb_file_reading(LETTER, room, sizeof room, payload, sizeof payload, moments[measured].microvolts);
    must(r.answer == TB_TEMPERATURE && r.tenths == moments[measured].tenths, "the reading in the interruption");
    printf("interruption %d: %.1f degrees at %ld microvolts\n", measured + 1, r.tenths / 10, (long)moments[measured].microvolts);
    memset(room, 0, sizeof room);
    measured++;
}

/* The load, cycle by cycle: its cycles. */
static uint64_t load(tb_state *state) {
    uint64_t count = 0;
    tb_held_given g = tb_held_start(PART, TB_BYTE_MODE, TB_RP_HIGH, TB_WP_LOW, 12000, BLOCK, 1, wanted, sizeof wanted, scratch,
                                    sizeof scratch, addresses, READS, room, sizeof room);
    while (g.turn.turn == TB_CYCLE_OUT) {
        tb_answer a = tb_cycle(device, *state, g.turn.cycle, array, size, NULL, 0);
        must(a.seen != TB_REFUSED, "a cycle is refused");
        *state = a.state;
        count++;
        int fetching = g.held.hold.step == TB_FETCHING;
        g = tb_held_step(g.held, a.value, wanted, sizeof wanted, scratch, sizeof scratch, polls, MOMENTS, addresses, READS, room,
                         sizeof room);
        if (fetching && g.held.hold.step != TB_FETCHING)
            measure();
    }
    must(g.turn.turn == TB_OVER && g.turn.number == TB_OK, "the end of the load");
    return count;
}

int main(void) {
    tb_span in_use = tb_block(PART, IN_USE), block = tb_block(PART, BLOCK);
    size = tb_size(PART);
    array = calloc(size, 1);
    must(array != NULL && block.length == sizeof wanted, "no room");
    pack(file);
    memset(array + in_use.first, 0xFF, in_use.length);
    memcpy(array + in_use.first, file, sizeof file);
    for (uint32_t i = 0; i < READS; i++)
        addresses[i] = (uint32_t)in_use.first + i;
    memset(wanted, 0xFF, sizeof wanted); /* the table that comes in: here the same file, over zeros */
    memcpy(wanted, file, sizeof file);

    tb_state state = tb_fresh();
    uint64_t count = load(&state);
    /* B0H, 70H, S - 1 polls, FFH, the reads and D0H in the place of a poll */
    uint64_t due = cycles_due(device, wanted, sizeof wanted) + MOMENTS * (READS + 3 + device.suspend - 1);
    printf("load with %d interruptions: %llu cycles\n", measured, (unsigned long long)count);
    must(measured == MOMENTS && count == due, "the cycles of the load");
    must(memcmp(array + block.first, wanted, sizeof wanted) == 0, "what the block holds");
    read_probe(array + block.first);
    print_wear(PART, state.wear);
    must(state.wear.block[BLOCK] == 1 && state.wear.block[IN_USE] == 0, "the count of erases");
    free(array);
    return 0;
}
