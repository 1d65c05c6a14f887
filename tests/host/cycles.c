/* Random bus cycles: walks from a fresh device with plausible commands, and single cycles on any numbers. Each is made by both engines of
 * the library, and by the second implementation. */
#include <stdio.h>

#include "cases.h"

static twin array, residue;
static twin table_array, table_residue; /* what the second engine is lent, beside what the first one was */
static tb_device device;
static tb_state before;
static tb_bus bus;
static tb_answer lib, table, ref;
static uint32_t walked_at; /* VPP of the last cycle of a walk that was let pass; 0 before it */
static int asked_block;    /* where 20H was last written in a walk; -1 before it */

static void tell(void) {
    tell_device(device);
    tell_state("before", before);
    tell_bus(bus);
    printf("  array %zu, residue %zu bytes\n", array.length, residue.length);
    printf("  the library: seen %u, value %u\n", lib.seen, lib.value);
    tell_state("after", lib.state);
    printf("  by its table: seen %u, value %u\n", table.seen, table.value);
    tell_state("after", table.state);
    printf("  expected: seen %u, value %u\n", ref.seen, ref.value);
    tell_state("after", ref.state);
}

static bool running(uint8_t phase) { return phase >= TB_PROGRAMMING; }

/* What a cycle that was let pass showed of devices 5 to 8. */
static void mark_cycle(void) {
    bool word = device.word == TB_WORD_MODE, write = bus.kind == TB_CYCLE_WRITE && bus.rp != TB_RP_LOW;
    bool data = before.phase == TB_DATA_AWAITED, second = data || (before.phase == TB_ERASE_AWAITED && (bus.data & 0xFF) == 0xD0);
    tb_span boot = c_block(device.number, 0);
    bool in_boot = ((size_t)bus.address << word) - boot.first < boot.length;
    bool lock = write && second && in_boot && bus.rp == TB_RP_HIGH && bus.vpp_mv > 4000 && (before.status & TB_SR_VPP_LOW) == 0;
    bool code = bus.kind == TB_CYCLE_READ && before.mode == TB_MODE_IDENTIFIER && ref.seen == TB_DATA && bus.address > 0;
    mark_if(write && before.phase == TB_FREE && (bus.data & 0xFF) == 0x10, TEN);
    mark_if(write && before.phase == TB_FREE && bus.data > 0xFF && word, HIGH_COMMAND);
    mark_if(running(ref.state.phase) && data && bus.data > 0xFF, word ? HIGH_DATA : BYTE_HIGH_DATA);
    mark_if(lock, bus.wp ? UNLOCKED_BY_WP : LOCKED_BY_WP);
    mark_if(code, word ? CODE_BY_WORD : CODE_BY_BYTE);
}

/* What it showed of an operation in word mode: cut, by RP# or by VPP, or carried over from one high band to the other. */
static void mark_operation(void) {
    bool cut = bus.rp == TB_RP_LOW || bus.vpp_mv <= TB_VPP_BR_LOW_MOST_MV;
    bool other_band = walked_at > TB_VPP_BR_LOW_MOST_MV && (walked_at > TB_VPP_BR_5V_MOST_MV) != (bus.vpp_mv > TB_VPP_BR_5V_MOST_MV);
    if (!running(before.phase))
        return;
    mark_if(cut && residue.length % 2 == 1, ODD_RESIDUE);
    mark_if(cut, before.phase == TB_PROGRAMMING ? CUT_WORD : CUT_ERASE);
    mark_if(!cut && other_band, BAND_CHANGE);
}

/* The block of a unit; -1 where it is past the array. */
static int block_of(uint32_t unit) {
    for (uint8_t k = 0; k < TB_BLOCKS_MOST; k++) {
        tb_span b = c_block(device.number, k);
        if (((size_t)unit << device.word) - b.first < b.length)
            return k;
    }
    return -1;
}

/* Whether the count of a block would show it, were it counted up or cleared. */
static bool shows(int block) { return block >= 0 && before.wear.block[block] != 0 && before.wear.block[block] != TB_WEAR_STOP; }

/* What a write showed of the counts: which erases are counted, and what is none. (R-wear-1) */
static void mark_wear_of_write(int here) {
    uint8_t byte = (uint8_t)bus.data, phase = before.phase, after = ref.state.phase;
    bool confirm = phase == TB_ERASE_AWAITED && byte == 0xD0, started = confirm && after == TB_ERASING;
    bool low = (ref.state.status & TB_SR_VPP_LOW) != 0, low_before = (before.status & TB_SR_VPP_LOW) != 0;
    int counted = changed_at(before.wear, ref.state.wear);
    if (counted >= 0)
        met_erase(false, device, counted);
    mark_if(counted >= 0 && ref.state.wear.block[counted] == TB_WEAR_STOP, COUNT_TO_STOP);
    mark_if(counted >= 0 && asked_block >= 0 && asked_block != counted, COUNT_ELSEWHERE);
    mark_if(started && counted < 0, COUNT_AT_STOP);
    mark_if(started && c_block(device.number, TB_BLOCKS_MOST - 1).length == 0 && before.wear.block[TB_BLOCKS_MOST - 1] != 0, KEPT_PLACES);
    mark_if(confirm && !started && low && !low_before && shows(here), KEPT_BARRED);
    mark_if(confirm && !started && low_before && bus.vpp_mv > TB_VPP_LOW_MOST_MV && shows(here), KEPT_BY_SR3);
    mark_if(confirm && !started && !low && shows(here), KEPT_LOCKED);
    mark_if(phase == TB_ERASE_AWAITED && byte != 0xD0 && shows(here), KEPT_OTHER_SECOND);
    mark_if(phase == TB_FREE && after == TB_ERASE_AWAITED && shows(here), KEPT_ASKED);
    mark_if(phase == TB_DATA_AWAITED && after == TB_PROGRAMMING && shows(here), KEPT_PROGRAM);
    if (phase == TB_FREE && after == TB_ERASE_AWAITED)
        asked_block = here;
}

/* What a cycle that was let pass showed of the counts. An erase under way keeps its block's, however it goes on. */
static void mark_wear(void) {
    bool write = bus.kind == TB_CYCLE_WRITE && bus.rp != TB_RP_LOW, down = bus.rp == TB_RP_LOW;
    uint8_t phase = before.phase, after = ref.state.phase;
    bool cut = down || bus.vpp_mv <= (two_widths(device.number) ? TB_VPP_BR_LOW_MOST_MV : TB_VPP_LOW_MOST_MV);
    bool erase = phase >= TB_ERASING, held = phase >= TB_SUSPENDED, of_erase = erase && shows(block_of(before.address));
    if (write)
        mark_wear_of_write(block_of(bus.address));
    mark_if(of_erase && !held && cut && !down, KEPT_CUT);
    mark_if(of_erase && !held && cut && down, KEPT_RESET_CUT);
    mark_if(of_erase && held && cut, KEPT_HELD_CUT);
    mark_if(of_erase && !held && !cut && before.left == 1, KEPT_ENDED);
    mark_if(of_erase && phase == TB_ERASING && after == TB_SUSPENDING, KEPT_SUSPENDED);
    mark_if(of_erase && phase == TB_SUSPENDED && after == TB_ERASING, KEPT_RESUMED);
    mark_if(down && !running(phase) && any_wear(before.wear), KEPT_RESET);
}

static void account(void) {
    bool refused = ref.seen == TB_REFUSED, br = two_widths(device.number), word = real_mode(device.number, device.word);
    met_on(IN_CYCLE, device.number, device.word, (uint8_t)(refused ? ref.value : 0), refused);
    mark_if(refused && ref.value == TB_WRONG_ARRAY && word && array.length % 2 == 1, ODD_ARRAY);
    mark_if(refused && ref.value == TB_BAD_LEVEL && br && bus.wp > TB_WP_HIGH, WP_REFUSED);
    mark_if(!refused && !br && bus.wp > TB_WP_HIGH, WP_IGNORED);
    mark_if(refused && any_wear(before.wear), KEPT_REFUSED);
    if (br)
        met_vpp(bus.vpp_mv);
    if (refused)
        return;
    met_phase(before.phase, word);
    mark_wear();
    if (br)
        mark_cycle();
    if (word)
        mark_operation();
}

static bool same_answer(tb_answer a, tb_answer b) { return a.seen == b.seen && a.value == b.value && same_state(a.state, b.state); }

static uint8_t *third_of(twin *t) { return t->length == 0 ? NULL : t->lib; }

/* The cycle that the first engine has just made, by the second: the same answer, and the same bytes left. (R-table-2) */
static void compare_engines(void) {
    twin *lent[] = {&table_array, &table_residue};
    table_array.length = array.length;
    table_residue.length = residue.length;
    table = tb_table_cycle(device, before, bus, third_of(&table_array), array.length, third_of(&table_residue), residue.length);
    alike(same_answer(table, lib), "cycle by the table", lent, 2);
    count_table_cycle();
    bool refused = table.seen == TB_REFUSED;
    met_on(IN_TABLE_CYCLE, device.number, device.word, (uint8_t)(refused ? table.value : 0), refused);
}

static void compare(void) {
    twin *lent[] = {&array, &residue};
    lib = tb_cycle(device, before, bus, lib_of(&array), array.length, lib_of(&residue), residue.length);
    untouched(lib.seen == TB_REFUSED, "cycle", lent, 2);
    if (lib.seen == TB_REFUSED && !same_state(lib.state, before))
        mismatch("cycle: a refusal moved the state");
    keeps_places("cycle", device.number, before.wear, lib.state.wear);
    compare_engines();
    ref = c_cycle(device, before, bus, ref_of(&array), array.length, ref_of(&residue), residue.length);
    alike(same_answer(lib, ref), "cycle", lent, 2);
    count_cycle();
    account();
}

static uint8_t some_byte(void) {
    if (chance(20))
        return (uint8_t)any32();
    return (uint8_t)ONE_OF(0xFF, 0x90, 0x70, 0x50, 0x20, 0x40, 0x10, 0xD0, 0xB0, 0x00, 0xFF);
}

/* What a plausible host would write next: mostly it goes on with what it began. */
static uint8_t next_byte(uint8_t phase, uint32_t rough) {
    if (chance(rough))
        return some_byte();
    switch (phase) {
    case TB_ERASE_AWAITED: return chance(85) ? 0xD0 : some_byte();
    case TB_DATA_AWAITED: return (uint8_t)(chance(20) ? 0xFF : any32());
    case TB_ERASING: return chance(60) ? 0xB0 : some_byte();
    case TB_SUSPENDING: return (uint8_t)ONE_OF(0xD0, 0xFF, 0x70, 0xB0, some_byte());
    case TB_SUSPENDED: return (uint8_t)ONE_OF(0xD0, 0xD0, 0xFF, 0x70, some_byte());
    }
    if (chance(10) && (rough > 0 || two_widths(device.number)))
        return 0x10;
    return (uint8_t)ONE_OF(0x20, 0x20, 0x40, 0x40, 0x50, 0xFF, 0x70, 0x90, 0xB0);
}

/* The high byte is data after 40H, and elsewhere nothing; it is there in half of the cycles. */
static uint16_t with_high(uint8_t low) { return (uint16_t)(chance(50) ? low : low | any32() << 8); }

static void next_bus(uint32_t rough, uint32_t home) {
    static const uint32_t kinds[8] = {TB_CYCLE_READ,  TB_CYCLE_READ,  TB_CYCLE_READ,  TB_CYCLE_WRITE,
                                      TB_CYCLE_WRITE, TB_CYCLE_WRITE, TB_CYCLE_WRITE, TB_CYCLE_IDLE};
    bus.kind = (uint8_t)(chance(rough / 8) ? any32() : one_of(kinds, 8));
    bus.rp = (uint8_t)(chance(rough / 2) ? ONE_OF(0, 0, 2, 3, 255) : ONE_OF(1, 1, 1, 2));
    bus.oe = (uint8_t)(chance(rough / 4) ? ONE_OF(1, 2, 255) : bus.kind == TB_CYCLE_WRITE && chance(two_widths(device.number) ? 1 : 15));
    bus.wp = some_wp(device.number, rough / 4);
    bus.vpp_mv = some_vpp(device.number, rough);
    bus.address = chance(60) ? home : some_address(device.number, device.word);
    bus.data = with_high(next_byte(before.phase, rough));
}

static size_t some_residue(void) {
    if (chance(60))
        return residue.room;
    uint8_t p = real_part(device.number);
    uint32_t n = (uint32_t)c_block(p, some_block(p)).length;
    return ONE_OF(0, 0, 1, 1, 2, 3, n - 1, n, n + 1);
}

static void lend(uint32_t bad_length) {
    uint32_t size = (uint32_t)c_size(real_part(device.number));
    array.length = chance(bad_length) ? ONE_OF(0, 1, size - 2, size - 1, size + 1, size / 2, 16384, 131072, 262144, 524288) : size;
    residue.length = some_residue();
}

static void walk(void) {
    uint32_t rough = ONE_OF(0, 0, 4, 20);
    device = some_device();
    if (c_size(device.number) == 0)
        device.number = 4;
    uint32_t home = some_address(device.number, device.word);
    before = tb_fresh();
    if (!same_state(before, c_fresh()) || any_wear(before.wear))
        mismatch("fresh");
    if (chance(75))
        before.wear = some_wear();
    asked_block = -1;
    if (chance(10)) {
        size_t at = below((uint32_t)c_size(device.number));
        twin_noise(&array, at, 1);
        table_array.lib[at] = array.lib[at];
    }
    walked_at = 0;
    for (uint32_t i = 0; i < 32; i++) {
        next_bus(rough, home);
        lend(0);
        compare();
        before = ref.state;
        if (ref.seen != TB_REFUSED)
            walked_at = bus.vpp_mv;
        if (chance(5))
            home = some_address(device.number, device.word);
    }
}

static void scatter(void) {
    device = some_device();
    before = some_state(device);
    next_bus(ONE_OF(0, 10, 30), some_address(device.number, device.word));
    if (chance(30))
        bus.data = with_high(some_byte());
    if (chance(15))
        bus.vpp_mv = two_widths(device.number) ? ONE_OF(0, 1500) : ONE_OF(0, 6500);
    if (chance(3))
        bus = (tb_bus){(uint8_t)any32(), (uint8_t)any32(), (uint8_t)any32(), (uint8_t)any32(), (uint16_t)any32(), any32(), any32()};
    walked_at = 0;
    asked_block = -1;
    lend(4);
    compare();
}

void cycles(uint32_t walks, uint32_t scattered) {
    tell_case = tell;
    twin_new(&array, "array", TB_SIZE_MOST + 1);
    twin_new(&residue, "residue", TB_BLOCK_MOST + 1);
    third_new(&table_array, &array);
    third_new(&table_residue, &residue);
    for (uint32_t i = 0; i < walks; i++)
        walk();
    for (uint32_t i = 0; i < scattered; i++)
        scatter();
}
