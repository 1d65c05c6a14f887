/* Random reports on wear: the whole over slices, trace after trace, in another order, and forged reports. */
#include <stdio.h>
#include <string.h>

#include "cases.h"

static twin devices, counts; /* a device number a trace; seven counts of four bytes a trace */
static uint8_t part, from;
static tb_report before;
static tb_wear wear;
static tb_reported lib, ref;
static bool whole;

static void tell_tally(const char *who, int k, tb_tally t) {
    printf("  %s: block %d, total %llu, largest %lu, smallest %lu, passed %lu\n", who, k, (unsigned long long)t.total,
           (unsigned long)t.largest, (unsigned long)t.smallest, (unsigned long)t.passed);
}

static void tell_report(const char *who, uint8_t number, tb_report r) {
    printf("  %s: number %u, %lu traces\n", who, number, (unsigned long)r.traces);
    for (int k = 0; k < TB_BLOCKS_MOST; k++)
        tell_tally(who, k, r.block[k]);
}

static void tell(void) {
    if (whole) {
        printf("  device %u, %zu traces, %zu counts\n", part, devices.length, counts.length / 4);
    } else {
        printf("  device %u, a trace from device %u with the counts", part, from);
        for (int k = 0; k < TB_BLOCKS_MOST; k++)
            printf(" %lu", (unsigned long)wear.block[k]);
        printf("\n");
        tell_report("before", 0, before);
    }
    tell_report("the library", lib.number, lib.report);
    tell_report("expected", ref.number, ref.report);
}

static bool same_tally(tb_tally a, tb_tally b) {
    return a.total == b.total && a.largest == b.largest && a.smallest == b.smallest && a.passed == b.passed;
}

static bool same_report(tb_report a, tb_report b) {
    for (int k = 0; k < TB_BLOCKS_MOST; k++)
        if (!same_tally(a.block[k], b.block[k]))
            return false;
    return a.traces == b.traces;
}

static bool same_reported(void) { return lib.number == ref.number && same_report(lib.report, ref.report); }

static const tb_report nothing;

static void account_add(void) {
    met(IN_WEAR_ADD, ref.number);
    mark_if(ref.number == TB_OTHER_DEVICE && c_size(from) == 0, FROM_UNKNOWN);
    if (ref.number != TB_OK)
        return;
    for (int k = 0; k < TB_BLOCKS_MOST; k++) {
        mark_if(wear.block[k] == TB_SHEET_ERASES, ONE_HUNDRED_THOUSAND);
        mark_if(before.block[k].total > UINT64_MAX - wear.block[k], TOTAL_STOPPED);
        mark_if(before.block[k].passed == UINT32_MAX && wear.block[k] > TB_SHEET_ERASES, PASSED_STOPPED);
    }
}

/* One trace more, by `before`, `from` and `wear`. */
static void compare_add(void) {
    whole = false;
    lib = tb_wear_add(part, before, from, wear);
    ref = c_wear_add(part, before, from, wear);
    if (lib.number != TB_OK && !same_report(lib.report, before))
        mismatch("a trace more: a refusal changed the report");
    if (!same_reported())
        mismatch("a trace more");
    count_report();
    account_add();
}

static void account_whole(void) {
    size_t n = devices.length;
    bool other = ref.number == TB_OTHER_DEVICE;
    met(IN_WEAR_REPORT, ref.number);
    mark_if(ref.number == TB_TOO_MANY_TRACES && n == TB_TRACES_MOST + 1, TRACES_OVER);
    mark_if(other && n > 1 && devices.ref[0] != part, OTHER_FIRST);
    mark_if(other && n > 1 && devices.ref[0] == part && devices.ref[n - 1] != part, OTHER_LAST);
    if (ref.number != TB_OK)
        return;
    mark_if(n == 0, TRACES_NONE);
    mark_if(n == TB_TRACES_MOST, TRACES_MOST);
    for (int k = 0; k < TB_BLOCKS_MOST; k++)
        mark_if(ref.report.block[k].total > UINT32_MAX, TOTAL_OVER_32_BITS);
}

static const uint32_t *numbers(const uint8_t *bytes) { return (const uint32_t *)(const void *)bytes; }

/* The whole, by `devices` and `counts`. */
static void compare_whole(void) {
    twin *lent[] = {&devices, &counts};
    whole = true;
    lib = tb_wear_report(part, lib_of(&devices), devices.length, numbers(lib_of(&counts)), counts.length / 4);
    ref = c_wear_report(part, ref_of(&devices), devices.length, numbers(ref_of(&counts)), counts.length / 4);
    alike(same_reported(), "report", lent, 2);
    if (lib.number != TB_OK && !same_report(lib.report, nothing))
        mismatch("report: a refusal that is not the report on no traces");
    count_report();
    account_whole();
}

static tb_wear trace_at(size_t i) {
    tb_wear w;
    memcpy(&w, counts.ref + i * sizeof w, sizeof w);
    return w;
}

static void put_trace(size_t i, uint8_t device, tb_wear w) {
    twin_set(&devices, i, device);
    twin_copy(&counts, i * sizeof w, (const uint8_t *)&w, sizeof w);
}

static void lend(size_t traces) {
    devices.length = traces;
    counts.length = traces * sizeof(tb_wear);
}

/* The report that came over slices must come trace after trace too. (R-wear-2) */
static void add_each(void) {
    tb_report due = lib.report;
    before = nothing;
    for (size_t i = 0; i < devices.length; i++) {
        from = devices.ref[i];
        wear = trace_at(i);
        compare_add();
        before = lib.report;
    }
    if (!same_report(before, due))
        mismatch("a report trace after trace is another than the whole");
}

/* And in any other order of the traces. */
static void turn_over(void) {
    tb_report due = lib.report;
    for (size_t i = devices.length; i > 1; i--) {
        size_t k = below((uint32_t)i);
        tb_wear a = trace_at(i - 1), b = trace_at(k);
        put_trace(i - 1, part, b);
        put_trace(k, part, a);
    }
    compare_whole();
    if (!same_report(lib.report, due))
        mismatch("a report is another in another order of the traces");
    mark_if(devices.length > 1, TRACES_TURNED);
}

static uint8_t other_device(void) { return (uint8_t)ONE_OF(0, 1, 2, 3, 4, 5, 6, 7, 8, 9, 255); }

/* A few traces, mostly all of one device, and seven counts for each. */
static void some_traces(void) {
    uint32_t n = below(9), less = n == 0 ? 0 : 7 * n - 1, trace_less = n == 0 ? 0 : 7 * n - 7;
    for (size_t i = 0; i < n; i++)
        put_trace(i, part, some_wear());
    lend(n);
    if (n > 0 && chance(15))
        twin_set(&devices, ONE_OF(0, n - 1, below(n)), other_device());
    if (chance(15))
        counts.length = 4 * ONE_OF(0, 1, 6, 7, n, less, trace_less, 7 * n + 1, 7 * n + 6, 7 * n + 7, 8 * n, 14 * n);
}

static void over_slices(void) {
    part = some_part();
    some_traces();
    compare_whole();
    if (lib.number != TB_OK)
        return;
    add_each();
    lib.report = before;
    turn_over();
}

/* Numbers as a host might have written them, at the stops and beside them. */
static tb_tally forged_tally(uint32_t count) {
    tb_tally t = {(uint64_t)any32() << 32 | any32(), some_count(), some_count(), some_count()};
    switch (below(5)) {
    case 0: t.total = UINT64_MAX - below(2); break;
    case 1: t.total = UINT64_MAX - count - below(2); break;
    case 2: t.total = UINT64_MAX - count + (count != 0); break;
    case 3: t.total = below(1000); break;
    }
    return t;
}

static void forged(void) {
    part = some_part();
    from = chance(80) ? part : other_device();
    wear = some_wear();
    before.traces = ONE_OF(0, 0, 1, below(TB_TRACES_MOST), TB_TRACES_MOST - 1, TB_TRACES_MOST, TB_TRACES_MOST + 1, UINT32_MAX, any32());
    for (int k = 0; k < TB_BLOCKS_MOST; k++)
        before.block[k] = forged_tally(wear.block[k]);
    compare_add();
}

static void begin(void) {
    tell_case = tell;
    twin_new(&devices, "device numbers", TB_TRACES_MOST + 2);
    twin_new(&counts, "counts", (TB_TRACES_MOST + 2) * sizeof(tb_wear));
}

void wears(uint32_t n) {
    begin();
    for (uint32_t i = 0; i < n; i++) {
        if (chance(50))
            over_slices();
        else
            forged();
    }
}

static void must_give(uint8_t number) {
    compare_whole();
    if (lib.number != number)
        mismatch("a long report");
}

/* 65,535 traces are a report, whole and one by one; one more is refused, by 1 and 11 first and before 48. (R-number-47) */
void wears_long(void) {
    begin();
    part = TB_28F400BR_B;
    for (size_t i = 0; i <= TB_TRACES_MOST; i++)
        put_trace(i, part, some_wear());
    lend(TB_TRACES_MOST);
    must_give(TB_OK);
    add_each();
    from = part;
    compare_add();
    if (lib.number != TB_TOO_MANY_TRACES)
        mismatch("a 65,536th trace");
    lend(TB_TRACES_MOST + 1);
    must_give(TB_TOO_MANY_TRACES);
    twin_set(&devices, TB_TRACES_MOST, TB_28F400BR_T);
    must_give(TB_TOO_MANY_TRACES);
    counts.length -= 4;
    must_give(TB_WRONG_LENGTH);
    part = 9;
    must_give(TB_NO_DEVICE);
    part = TB_28F400BR_B;
    lend(TB_TRACES_MOST);
    twin_set(&devices, TB_TRACES_MOST - 1, TB_28F400BR_T);
    must_give(TB_OTHER_DEVICE);
    twin_set(&devices, TB_TRACES_MOST - 1, part);
    twin_fill(&counts, 0, counts.length, 0xFF);
    must_give(TB_OK);
    if (lib.report.block[6].total != 281470681677825u || lib.report.block[6].passed != 65535)
        mismatch("65,535 traces at the stop");
}
