/* Random recordings: made by the second implementation, then spoilt or not, and checked by both. (R-recording-1 to R-recording-3) */
#include <stdio.h>
#include <string.h>

#include "cases.h"

enum { RECORDS_MOST = 60, GUARDS = 2 };

static twin array, promised;
static tb_record lib_list[RECORDS_MOST + 2 * GUARDS], ref_list[RECORDS_MOST + 2 * GUARDS]; /* guards on both sides, as of a twin */
static tb_record *const list = ref_list + GUARDS;
static size_t count;
static tb_device device;
static tb_state start, states[RECORDS_MOST + 1]; /* before each record, as they were made */
static tb_checked lib, ref;
static uint8_t made[TB_SIZE_MOST];

static void tell_checked(const char *who, tb_checked c) {
    printf("  %s: refusal %u, accepted %u, at %zu\n", who, c.refusal, c.accepted, c.at);
    tell_state(who, c.state);
}

static void tell(void) {
    tell_device(device);
    tell_state("before", start);
    printf("  %zu records, array %zu, promised %zu\n", count, array.length, promised.length);
    for (size_t i = 0; i < count; i++) {
        printf("  record %zu: seen %u, value %04X, busy %lu\n", i, list[i].seen, list[i].value, (unsigned long)list[i].busy);
        tell_bus(list[i].bus);
    }
    tell_checked("the library", lib);
    tell_checked("expected", ref);
}

static bool running(uint8_t phase) { return phase >= TB_PROGRAMMING; }
static bool awaiting(uint8_t phase) { return phase == TB_ERASE_AWAITED || phase == TB_DATA_AWAITED; }

/* What a programmer would write next. */
static uint16_t next_write(uint8_t phase, bool closing) {
    switch (phase) {
    case TB_ERASE_AWAITED: return chance(90) ? 0xD0 : 0xFF;
    case TB_DATA_AWAITED: return (uint16_t)any32();
    case TB_ERASING: return 0xB0;
    case TB_SUSPENDED: return (uint16_t)(closing || chance(60) ? 0xD0 : ONE_OF(0xFF, 0x70));
    }
    return (uint16_t)ONE_OF(0x20, 0x20, 0x40, 0x40, 0x40, 0xFF, 0x70, 0x90, 0x50, 0xB0);
}

static bool reads(uint8_t phase, bool closing) {
    if (!running(phase))
        return !closing && chance(15);
    return phase == TB_SUSPENDED ? !closing && chance(40) : closing || chance(70);
}

static tb_bus next_bus(const tb_state *s, uint32_t home, bool closing) {
    tb_bus b = {.kind = TB_CYCLE_WRITE, .rp = chance(85) ? TB_RP_HIGH : TB_RP_VHH, .address = home, .data = next_write(s->phase, closing)};
    b.wp = some_wp(device.number, 0);
    b.vpp_mv = some_vpp(device.number, 0);
    if (reads(s->phase, closing))
        b.kind = chance(80) ? TB_CYCLE_READ : TB_CYCLE_IDLE;
    if (awaiting(s->phase) && chance(12))
        b.vpp_mv = 0;
    if (!running(s->phase) && chance(2))
        b.rp = TB_RP_LOW;
    return b;
}

static uint32_t some_busy(uint8_t phase) {
    if (!awaiting(phase))
        return ONE_OF(0, 0, 1, 65536, any32());
    return chance(96) ? 1 + below(4) : ONE_OF(0, 65535, 65535, 65536, 65537, 131072 + 3);
}

/* One cycle more, recorded with its answer, unless the rules refuse it. */
static void record(tb_state *s, uint32_t home, bool closing) {
    tb_device longest = {device.number, device.word, TB_BUSY_MOST, TB_BUSY_MOST, device.suspend};
    tb_bus b = next_bus(s, home, closing);
    tb_answer a = c_cycle(longest, *s, b, made, c_size(device.number), NULL, 0);
    if (a.seen == TB_REFUSED)
        return;
    uint32_t busy = some_busy(s->phase);
    bool starts = !running(s->phase) && running(a.state.phase);
    if (awaiting(s->phase) && !starts && chance(50))
        busy = 0;
    if (starts)
        a.state.left = (uint16_t)(busy - 1 < TB_BUSY_MOST ? busy : 1);
    list[count] = (tb_record){b, a.seen, (uint16_t)(a.seen == TB_DATA ? a.value : chance(50) ? 0 : any32()), busy};
    states[count++] = *s;
    *s = a.state;
}

static void make(void) {
    size_t size = c_size(device.number), many = chance(3) ? 0 : 1 + below(RECORDS_MOST - 20);
    uint32_t home = some_address(device.number, device.word) % (uint32_t)(size >> device.word);
    tb_state s = start;
    memcpy(made, array.lib, size);
    count = 0;
    for (int turn = 0; turn < 2 * RECORDS_MOST && count < RECORDS_MOST && (count < many || s.phase != TB_FREE); turn++) {
        if (chance(4) && s.phase == TB_FREE)
            home = some_address(device.number, device.word) % (uint32_t)(size >> device.word);
        record(&s, home, count >= many);
    }
    states[count] = s;
    twin_copy(&promised, 0, made, size);
    array.length = promised.length = size;
}

static void spoil_record(tb_record *r) {
    switch (below(8)) {
    case 0: r->value ^= (uint16_t)(1u << below(chance(70) ? 8 : 16)); break;
    case 1: r->seen = (uint8_t)ONE_OF(0, 1, 2, 2, 3, 255); break;
    case 2: r->busy = ONE_OF(0, 65536, 65537, 65536 + 3, 131071, any32()); break;
    case 3: r->bus.vpp_mv = 0; break;
    case 4: r->bus.rp = TB_RP_LOW; break;
    case 5: r->bus.kind = (uint8_t)ONE_OF(0, 1, 2, 2, 3); break;
    case 6: r->bus.address = some_address(device.number, device.word); break;
    default: r->bus.data = (uint16_t)any32();
    }
}

/* A record at which something is under way, more often than another. */
static tb_record *some_record(void) {
    size_t i = below((uint32_t)count);
    for (int turn = 0; turn < 3 && states[i].phase == TB_FREE; turn++)
        i = below((uint32_t)count);
    return &list[i];
}

/* A record that cuts what is held, where there is one. (R-recording-2) */
static void cut(void) {
    for (size_t i = 0; i < count; i++)
        if (states[i].phase == TB_SUSPENDED && chance(50)) {
            list[i].bus.vpp_mv = 0;
            return;
        }
}

static void spoil(void) {
    uint32_t size = (uint32_t)array.length;
    switch (below(16)) {
    case 0: twin_set(&promised, below(size), (uint8_t)any32()); break;
    case 1: promised.length = ONE_OF(0, 1, size - 1, size + 1); break;
    case 2: array.length = ONE_OF(0, 1, size - 1, size + 1, 16384); break;
    case 3: device.program = (uint16_t)ONE_OF(0, 1, 65535); break;
    case 4: device = some_device(); break;
    case 5: start = some_state(device); break;
    case 6: count = below((uint32_t)count + 1); break;
    case 7: cut(); break;
    default:
        if (count != 0)
            spoil_record(some_record());
    }
}

static void account_end(void) {
    mark_if(awaiting(ref.state.phase), FAULT_AWAITING);
    if (ref.state.phase != TB_FREE)
        return;
    mark_if(promised.length == array.length, FAULT_PROMISED);
    mark_if(promised.length != array.length, FAULT_PROMISED_LENGTH);
}

static void account_fault(const tb_record *r) {
    const tb_state *s = &ref.state;
    bool low = r->bus.rp == TB_RP_LOW || r->bus.vpp_mv == 0, asks = awaiting(s->phase) && r->bus.kind == TB_CYCLE_WRITE && !low;
    mark_if(ref.at == 0, FAULT_FIRST);
    mark_if(ref.at != 0 && ref.at == count - 1, FAULT_LAST);
    mark_if(s->left == 1 && !low && (s->phase == TB_PROGRAMMING || s->phase == TB_ERASING), FAULT_IN_END);
    mark_if(running(s->phase) && low, FAULT_CUT);
    mark_if(s->phase == TB_SUSPENDED && low, FAULT_HELD_CUT);
    mark_if(asks && r->busy - 1 >= TB_BUSY_MOST, FAULT_COUNT);
    mark_if(asks && r->busy > TB_BUSY_MOST && (uint16_t)r->busy != 0, FAULT_COUNT_WRAPS);
    mark_if(r->seen > TB_DATA, FAULT_SEEN);
}

static void account_accepted(void) {
    mark_if(true, ACCEPTED);
    mark_if(count == 0, ACCEPTED_EMPTY);
    for (size_t i = 0; i < count; i++) {
        mark_if(states[i].phase == TB_ERASING, ACCEPTED_ERASE);
        mark_if(states[i].phase == TB_SUSPENDED, ACCEPTED_SUSPENDED);
        bool second = awaiting(states[i].phase) && list[i].bus.kind == TB_CYCLE_WRITE;
        mark_if(second && !running(states[i + 1].phase) && list[i].busy == 0, COUNT_UNREAD);
    }
}

static void account(void) {
    met_on(IN_RECORDING, device.number, device.word, ref.refusal, ref.refusal != TB_OK);
    if (ref.refusal != TB_OK)
        return;
    if (ref.accepted)
        account_accepted();
    else if (ref.at == count)
        account_end();
    else
        account_fault(&list[ref.at]);
}

static bool same_checked(void) {
    return lib.refusal == ref.refusal && lib.accepted == ref.accepted && lib.at == ref.at && same_state(lib.state, ref.state);
}

static void compare(void) {
    twin *lent[] = {&array, &promised};
    tb_record *records = lib_list + GUARDS;
    memcpy(lib_list, ref_list, sizeof lib_list);
    lib = tb_recording(device, start, count == 0 && chance(50) ? NULL : records, count, lib_of(&promised), promised.length, lib_of(&array),
                       array.length);
    untouched(lib.refusal != TB_OK, "recording", lent, 2);
    if (lib.refusal != TB_OK && !same_state(lib.state, start))
        mismatch("recording: a refusal moved the state");
    ref = c_recording(device, start, list, count, ref_of(&promised), promised.length, ref_of(&array), array.length);
    alike(same_checked(), "recording", lent, 2);
    if (memcmp(lib_list, ref_list, sizeof lib_list) != 0)
        mismatch("recording: the list was touched");
    count_recording();
    account();
}

static void one(void) {
    device = some_device();
    if (c_size(device.number) == 0)
        device.number = TB_BENCH_B;
    device.word = two_widths(device.number) && device.word == TB_WORD_MODE;
    start = (tb_state){.mode = (uint8_t)below(3), .status = (uint8_t)(TB_SR_READY | (chance(20) ? below(8) << 3 : 0)), .wear = some_wear()};
    if (chance(10))
        twin_noise(&array, below((uint32_t)c_size(device.number)), 1);
    make();
    if (chance(65))
        spoil();
    compare();
}

void recordings(uint32_t n) {
    tell_case = tell;
    twin_new(&array, "array", TB_SIZE_MOST + 1);
    twin_new(&promised, "promised", TB_SIZE_MOST + 1);
    for (uint32_t i = 0; i < n; i++)
        one();
}
