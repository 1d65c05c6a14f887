/* The bench cards, and cards of devices 5 to 8, run on the library alone: what they ask stands in the rules as numbers.
 * Cards 1 to 12 are R-card-1 to R-card-12, card 13 is of R-card-14. */
#include <stdio.h>
#include <stdlib.h>
#include <string.h>

#include "cases.h"

static uint8_t array[16384], residue[16384], wanted[1024], scratch[1024];
static tb_device device = {.number = 3, .program = 2, .erase = 3, .suspend = 1};
static tb_state state;
static tb_answer last;

static void card(int number, bool held) {
    if (held)
        return;
    printf("card %d does not hold\n", number);
    exit(1);
}

static void fresh(uint8_t byte) {
    memset(array, byte, sizeof array);
    state = tb_fresh();
}

static void cycle(uint8_t kind, uint8_t rp, uint32_t vpp, uint32_t address, uint8_t byte) {
    tb_bus bus = {.kind = kind, .rp = rp, .data = byte, .vpp_mv = vpp, .address = address};
    last = tb_cycle(device, state, bus, array, sizeof array, residue, sizeof residue);
    state = last.state;
}

/* Two writes at 12,000 mV, or the second at another level, and then polls until the operation must have ended. */
static void operate(uint8_t first, uint8_t second, uint32_t address, uint8_t rp, uint32_t vpp, int polls) {
    cycle(TB_CYCLE_WRITE, rp, 12000, address, first);
    cycle(TB_CYCLE_WRITE, rp, vpp, address, second);
    while (polls-- > 0)
        cycle(TB_CYCLE_READ, rp, 12000, address, 0);
}

static bool all(uint32_t first, uint32_t n, uint8_t byte) {
    for (uint32_t i = first; i < first + n; i++)
        if (array[i] != byte)
            return false;
    return true;
}

/* The counts of a state: so many erases of one block, none of any other. */
static bool worn(tb_state s, int block, uint32_t times) {
    for (int k = 0; k < TB_BLOCKS_MOST; k++)
        if (s.wear.block[k] != (k == block ? times : 0))
            return false;
    return true;
}
static bool unworn(tb_state s) { return worn(s, 0, 0); }

static void operations(void) {
    fresh(0xA5);
    card(1, unworn(state));
    operate(0x40, 0x5A, 0x10, 1, 12000, 2);
    card(1, array[0x10] == 0x00 && state.status == 0x80 && unworn(state));
    fresh(0x3C);
    operate(0x40, 0xFF, 0x10, 1, 12000, 1);
    card(2, state.phase == TB_PROGRAMMING);
    cycle(TB_CYCLE_READ, 1, 12000, 0x10, 0);
    card(2, array[0x10] == 0x3C && last.value == 0x80);
    fresh(0x00);
    operate(0x20, 0xFF, 0x10, 1, 12000, 5);
    card(3, state.status == 0xB0 && all(0, sizeof array, 0x00) && unworn(state));
    operate(0x50, 0x40, 0x10, 1, 12000, 0);
    cycle(TB_CYCLE_WRITE, 1, 6500, 0x10, 0x12);
    card(4, state.status == 0x98);
    fresh(0x00);
    operate(0x20, 0xD0, 0x10, 1, 6500, 0);
    card(4, state.status == 0xA8 && unworn(state));
}

static void levels(void) {
    static const struct {
        uint32_t vpp;
        bool good;
    } list[] = {{6500, true}, {6501, false}, {11399, false}, {11400, true}, {12600, true}, {12601, false}};
    for (size_t i = 0; i < sizeof list / sizeof list[0]; i++) {
        fresh(0x00);
        cycle(TB_CYCLE_READ, 1, list[i].vpp, 0, 0);
        card(5, list[i].good ? last.seen == 1 : last.seen == 2 && last.value == 4);
    }
    fresh(0x00);
    operate(0x40, 0x00, 0x10, 1, 11400, 0);
    card(5, state.phase == TB_PROGRAMMING);
}

static void erases(void) {
    fresh(0x00);
    operate(0x20, 0xD0, 0x3C00, 1, 12000, 5);
    card(6, state.status == 0xA0 && all(0, sizeof array, 0x00) && unworn(state));
    fresh(0x00);
    operate(0x20, 0xD0, 0x3C00, 2, 12000, 3);
    card(6, state.status == 0x80 && all(0x3C00, 0x400, 0xFF) && all(0, 0x3C00, 0x00) && worn(state, 0, 1));
    for (device.suspend = 1; device.suspend <= 100; device.suspend++) {
        fresh(0x00);
        operate(0x20, 0xD0, 0x3A00, 1, 12000, 0);
        cycle(TB_CYCLE_WRITE, 1, 12000, 0, 0xB0);
        for (int i = 1; i < device.suspend; i++) {
            cycle(TB_CYCLE_READ, 1, 12000, 0, 0);
            card(7, last.value == 0x00 && state.status == 0x00);
        }
        cycle(TB_CYCLE_READ, 1, 12000, 0, 0);
        card(7, last.value == 0xC0 && state.status == 0xC0 && worn(state, 1, 1));
    }
    device.suspend = 1;
    fresh(0x00);
    cycle(TB_CYCLE_WRITE, 1, 12000, 0x3A00, 0x20);
    cycle(TB_CYCLE_WRITE, 1, 12000, 0x3800, 0xD0);
    for (int i = 0; i < 3; i++)
        cycle(TB_CYCLE_READ, 1, 12000, 0, 0);
    card(8, all(0x3800, 0x200, 0xFF) && all(0x3A00, 0x200, 0x00) && worn(state, 2, 1));
    fresh(0xF0);
    memset(residue, 0x33, sizeof residue);
    operate(0x40, 0x0F, 0x10, 1, 12000, 0);
    cycle(TB_CYCLE_READ, 1, 0, 0x10, 0);
    card(9, array[0x10] == 0x30 && state.status == 0x98);
}

/* The cycles of a run; its state stays in `state`. */
static uint64_t count_of(uint8_t held, bool as_wanted, uint8_t first) {
    fresh(held);
    memset(wanted, 0xFF, 512);
    wanted[0] = first;
    if (as_wanted)
        memcpy(array + 0x3A00, wanted, 512);
    tb_ran r = tb_run(device, state, 1, 0, 12000, 1, array, sizeof array, wanted, 512, scratch, 512);
    state = r.state;
    return r.count;
}

static void loads_and_files(void) {
    static uint8_t payload[113121], file[115200], ones[510];
    card(10, count_of(0xFF, false, 0x5A) == 1031 && unworn(state));
    card(11, count_of(0x00, false, 0xFF) == 1032 && worn(state, 1, 1));
    card(11, count_of(0x00, true, 0xFF) == 1027 && unworn(state));
    memset(ones, 0xFF, sizeof ones);
    card(12, tb_block_check(ones, sizeof ones) == 8629);
    card(13, tb_file_write('K', payload, 505, file, sizeof file).length == 512);
    card(13, tb_file_write('K', payload, 506, file, sizeof file).length == 1024);
    card(13, tb_file_write('K', payload, 4040, file, sizeof file).length == 4096);
    card(13, tb_file_write('K', payload, 4041, file, sizeof file).length == 4608);
    card(13, tb_file_write('K', payload, 113120, file, sizeof file).length == 114688);
    card(13, tb_file_write('K', payload, 113121, file, sizeof file).number == 36);
}

/* Devices 5 to 8, which have an array and levels of their own. Numbers from 101 on, since the cards end at 13; wear has 112 to 117. */
static uint8_t large[TB_SIZE_MOST], left_by_cut[16384], large_wanted[8192], large_scratch[8192];
static tb_device br;
static uint8_t wp;

static void large_fresh(uint8_t number, uint8_t word, uint8_t byte) {
    br = (tb_device){.number = number, .word = word, .program = 2, .erase = 3, .suspend = 1};
    memset(large, byte, sizeof large);
    state = tb_fresh();
    wp = TB_WP_LOW;
}

static void large_cycle(uint8_t kind, uint8_t rp, uint32_t vpp, uint32_t address, uint16_t data) {
    tb_bus bus = {.kind = kind, .rp = rp, .wp = wp, .data = data, .vpp_mv = vpp, .address = address};
    last = tb_cycle(br, state, bus, large, tb_size(br.number), left_by_cut, sizeof left_by_cut);
    state = last.state;
}

static void large_operate(uint16_t first, uint16_t second, uint32_t address, uint8_t rp, uint32_t vpp, int polls) {
    large_cycle(TB_CYCLE_WRITE, rp, vpp, address, first);
    large_cycle(TB_CYCLE_WRITE, rp, vpp, address, second);
    while (polls-- > 0)
        large_cycle(TB_CYCLE_READ, rp, vpp, address, 0);
}

static bool large_all(size_t first, size_t n, uint8_t byte) {
    for (size_t i = first; i < first + n; i++)
        if (large[i] != byte)
            return false;
    return true;
}

/* A read gives this data, or is refused 9. */
static bool gives(bool code, uint16_t data) {
    return code ? last.seen == TB_DATA && last.value == data : last.seen == TB_REFUSED && last.value == 9;
}

/* Identifiers of the sheet's table 5: by word, and by byte with A-1 ignored. (R-read-2, R-number-9) */
static void identifiers(void) {
    static const uint16_t code[] = {0x2274, 0x2275, 0x4470, 0x4471};
    for (uint8_t k = 0; k < 4; k++) {
        large_fresh((uint8_t)(5 + k), 1, 0x00);
        large_cycle(TB_CYCLE_WRITE, 1, 5000, 0, 0xA590);
        for (uint32_t a = 0; a < 3; a++) {
            large_cycle(TB_CYCLE_READ, 1, 5000, a, 0);
            card(101, gives(a < 2, a == 0 ? 0x0089 : code[k]));
        }
        large_fresh((uint8_t)(5 + k), 0, 0x00);
        large_cycle(TB_CYCLE_WRITE, 1, 5000, 0, 0x90);
        for (uint32_t a = 0; a < 5; a++) {
            large_cycle(TB_CYCLE_READ, 1, 5000, a, 0);
            card(102, gives(a < 4, a < 2 ? 0x89 : code[k] % 256));
        }
    }
}

/* VPP and WP#: what is refused, what starts, and what the status says of what does not. (R-cycle-1, R-cycle-2, R-lock-1) */
static void large_levels(void) {
    static const struct {
        uint32_t vpp;
        uint16_t status; /* after a program at it; 0 starts, 4 is the refusal */
    } list[] = {{0, 0x98},  {1500, 0x98}, {1501, 4},  {4499, 4},  {4500, 0},  {5500, 0},  {5501, 4},
                {6500, 4},  {6501, 4},    {11399, 4}, {11400, 0}, {12600, 0}, {12601, 4}};
    for (size_t i = 0; i < sizeof list / sizeof list[0]; i++) {
        large_fresh(7, 1, 0xFF);
        large_operate(0x40, 0x1234, 0x10, 1, list[i].vpp, 0);
        card(103, list[i].status == 4 ? last.seen == TB_REFUSED && last.value == 4 : state.status == list[i].status);
    }
    for (uint8_t level = 0; level < 2; level++)
        for (uint8_t rp = 1; rp < 3; rp++) {
            large_fresh(6, 1, 0x00);
            wp = level;
            large_operate(0x20, 0xD0, 0x1FFF, rp, 5000, 3);
            bool open = level == 1 || rp == 2;
            card(104, state.status == (open ? 0x80 : 0xA0) && large_all(0, 16384, open ? 0xFF : 0x00) && large_all(16384, 245760, 0x00));
            card(104, worn(state, 0, open));
        }
    large_fresh(6, 1, 0x00);
    wp = 2;
    large_cycle(TB_CYCLE_IDLE, 0, 5000, 0, 0);
    card(105, last.seen == TB_REFUSED && last.value == 4);
}

/* A word is one operation; cut, the residue's first two bytes are r, low byte first. The bands may change meanwhile.
 * (R-part-6, R-cycle-7) */
static void words(void) {
    large_fresh(5, 1, 0xFF);
    large_operate(0xFF10, 0x5AC3, 0x1D001, 1, 5000, 1);
    large_cycle(TB_CYCLE_READ, 1, 12000, 0x1D001, 0);
    card(106, last.value == 0x0080 && large[0x3A002] == 0xC3 && large[0x3A003] == 0x5A);
    card(106, large_all(0, 0x3A002, 0xFF) && large_all(0x3A004, 0x5FFC, 0xFF));
    large_cycle(TB_CYCLE_WRITE, 1, 0, 0, 0x77FF);
    large_cycle(TB_CYCLE_READ, 1, 0, 0x1D001, 0);
    card(106, last.value == 0x5AC3);
    large_fresh(5, 1, 0xF0);
    left_by_cut[0] = 0x33;
    left_by_cut[1] = 0xCC;
    large_operate(0x40, 0x0F00, 0, 1, 12000, 0);
    large_cycle(TB_CYCLE_READ, 1, 1500, 0, 0);
    card(107, last.value == 0x0098 && large[0] == (0xF0 & (0x00 | 0x33)) && large[1] == (0xF0 & (0x0F | 0xCC)));
    large_fresh(8, 1, 0x00);
    large_operate(0x20, 0xD0, 0x3FFFF, 1, 5000, 3);
    card(108, state.status == 0x80 && large_all(0x60000, 0x20000, 0xFF) && large_all(0, 0x60000, 0x00) && worn(state, 6, 1));
    large_cycle(TB_CYCLE_READ, 1, 5000, 0x40000, 0);
    card(109, last.seen == TB_REFUSED && last.value == 5);
}

/* A load of 4,096 words, of which one is programmed: 2n + 3 + (2 + P); and what a verify says of a byte that differs.
 * (R-load-5, R-number-25) */
static void word_loads(void) {
    for (uint8_t high = 0; high < 2; high++) {
        large_fresh(5, 1, 0xFF);
        memset(large_wanted, 0xFF, sizeof large_wanted);
        large_wanted[100] = 0x12;
        large_wanted[101] = 0x34;
        tb_ran r = tb_run(br, state, 1, 0, 5000, 1, large, 262144, large_wanted, 8192, large_scratch, 8192);
        card(110, r.end == 0 && r.count == 2 * 4096 + 3 + 2 + 2 && memcmp(large + 0x3A000, large_wanted, 8192) == 0);
        large[0x3A000 + 100 + high] ^= 0x40;
        r = tb_verify_run(br, r.state, 1, 0, 0, 1, large, 262144, large_wanted, 8192, large_scratch, 8192);
        card(111, r.end == 25 && r.address == 0x3A000 + 100u + high && r.count == 1 + 51);
    }
}

/* The count of an erase: in the state of D0H's own cycle, once, however it goes on, up to the stop; over resets. (R-wear-1) */
static void wear_of_an_erase(void) {
    fresh(0x00);
    cycle(TB_CYCLE_WRITE, 1, 12000, 0x3A00, 0x20);
    card(112, unworn(state));
    cycle(TB_CYCLE_WRITE, 1, 12000, 0x3A00, 0xD0);
    card(112, worn(state, 1, 1));
    cycle(TB_CYCLE_WRITE, 1, 12000, 0, 0xB0);
    cycle(TB_CYCLE_IDLE, 1, 12000, 0, 0);
    card(112, state.phase == TB_SUSPENDED && worn(state, 1, 1));
    cycle(TB_CYCLE_WRITE, 1, 12000, 0, 0xD0);
    card(112, state.phase == TB_ERASING && worn(state, 1, 1));
    cycle(TB_CYCLE_READ, 1, 0, 0, 0);
    card(112, state.phase == TB_FREE && state.status == 0xA8 && worn(state, 1, 1));
    cycle(TB_CYCLE_IDLE, 0, 12000, 0, 0);
    card(113, state.status == 0x80 && worn(state, 1, 1));
    state.wear.block[1] = TB_WEAR_STOP - 1;
    for (int i = 0; i < 3; i++) {
        operate(0x20, 0xD0, 0x3A00, 1, 12000, 3);
        card(114, state.status == 0x80 && worn(state, 1, TB_WEAR_STOP));
    }
}

static bool reads(tb_tally t, uint64_t total, uint32_t largest, uint32_t smallest, uint32_t passed) {
    return t.total == total && t.largest == largest && t.smallest == smallest && t.passed == passed;
}

/* Reports on no traces, and on three: 100,000 erases have not passed the sheet's 100,000. (R-wear-2) */
static void wear_reports(void) {
    static const uint8_t three[] = {3, 3, 3};
    static const uint32_t counts[21] = {100000, 0, 0, 0, 0, 0, 9, 100001, 7, 0, 0, 0, 0, 9, 4294967295, 8, 0, 0, 0, 0, 9};
    tb_reported none = tb_wear_report(3, NULL, 0, NULL, 0), all = tb_wear_report(3, three, 3, counts, 21);
    card(115, none.number == 0 && none.report.traces == 0);
    for (int k = 0; k < TB_BLOCKS_MOST; k++)
        card(115, reads(none.report.block[k], 0, 0, 0, 0));
    card(116, all.number == 0 && all.report.traces == 3 && reads(all.report.block[0], 4295167296, 4294967295, 100000, 2));
    card(116, reads(all.report.block[1], 15, 8, 0, 0) && reads(all.report.block[6], 27, 9, 9, 0));
    card(117, tb_wear_report(3, three, 3, counts, 20).number == 11 && tb_wear_report(4, three, 3, counts, 21).number == 48);
    card(117, tb_wear_add(9, all.report, 9, state.wear).number == 1 && tb_wear_add(3, all.report, 4, state.wear).number == 48);
    all.report.traces = 65535;
    card(117, tb_wear_add(3, all.report, 4, state.wear).number == 47);
}

void cards(void) {
    operations();
    levels();
    erases();
    loads_and_files();
    identifiers();
    large_levels();
    words();
    word_loads();
    wear_of_an_erase();
    wear_reports();
}
