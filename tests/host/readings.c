/* Readings: by payloads that are no tables, and at random by tables of knots, by any bytes, and straight from a file. */
#include <stdio.h>
#include <string.h>

#include "cases.h"

static twin payload, file, room;
static uint8_t letter;
static int32_t volts;
static tb_reading lib, ref;

static void tell(void) {
    printf("  letter %02X, %ld microvolts, payload %zu, file %zu, room %zu bytes\n", letter, (long)volts, payload.length, file.length,
           room.length);
    printf("  the library: answer %u, number %u, %.17g tenths\n", lib.answer, lib.number, lib.tenths);
    printf("  expected: answer %u, number %u, %.17g tenths\n", ref.answer, ref.number, ref.tenths);
}

/* Temperatures are compared bit by bit. (R-reading-2) */
static bool same_reading(void) {
    return lib.answer == ref.answer && lib.number == ref.number && memcmp(&lib.tenths, &ref.tenths, sizeof lib.tenths) == 0;
}

static void compare_judge(void) {
    twin *lent[] = {&payload};
    uint8_t a = tb_table_judge(lib_of(&payload), payload.length), b = c_table_judge(ref_of(&payload), payload.length);
    alike(a == b, "table judged", lent, 1);
    met(IN_TABLE, b);
}

static void compare_reading(void) {
    twin *lent[] = {&payload};
    lib = tb_table_reading(lib_of(&payload), payload.length, volts);
    ref = c_table_reading(ref_of(&payload), payload.length, volts);
    alike(same_reading(), "reading", lent, 1);
    count_reading();
}

static void compare_file(void) {
    twin *lent[] = {&file, &room};
    lib = tb_file_reading(letter, lib_of(&file), file.length, lib_of(&room), room.length, volts);
    untouched(lib.answer == TB_NO_READING && lib.number < TB_TABLE_SHAPE, "reading from a file", lent, 2);
    ref = c_file_reading(letter, ref_of(&file), file.length, ref_of(&room), room.length, volts);
    alike(same_reading(), "reading from a file", lent, 2);
    met(IN_READING, ref.answer == TB_NO_READING ? ref.number : 0);
}

static void put_knot(size_t i, int32_t microvolts, int32_t tenths) {
    const uint8_t six[] = {(uint8_t)((uint32_t)microvolts >> 24), (uint8_t)((uint32_t)microvolts >> 16),
                           (uint8_t)((uint32_t)microvolts >> 8),
                           (uint8_t)microvolts, (uint8_t)((uint32_t)tenths >> 8), (uint8_t)tenths};
    twin_copy(&payload, 6 * i, six, 6);
}

/* A table of rising microvolts, sometimes with a step of 0 or one out of range. */
static void some_table(void) {
    uint32_t knots = chance(80) ? 2 + below(40) : chance(98) ? 2 + below(671) : 2 + below(18852);
    int32_t at = -10000 + (int32_t)below(5000), step = (int32_t)(85000 / knots);
    for (uint32_t i = 0; i < knots; i++) {
        put_knot(i, at, (int32_t)below(65536) - 32768);
        at += 1 + (int32_t)below((uint32_t)step);
    }
    payload.length = 6 * knots;
    if (chance(10))
        put_knot(below(knots), (int32_t)ONE_OF(-10001, -10000, 80000, 80001, at), 0);
    if (chance(5))
        twin_copy(&payload, 6, payload.ref, 4); /* the first two knots have the same microvolts */
    if (chance(5))
        payload.length = ONE_OF(0, 1, 5, 6, 11, payload.length - 1);
}

/* Once: payloads that the judgement refuses, by their length, by an end, by a pair; a reading is asked of them all the same.
 * (R-number-40, R-number-41) */
static void refused_tables(void) {
    static const struct {
        size_t length;
        int32_t microvolts[5];
    } wrong[] = {{5, {0}}, {6, {5}}, {7, {5, 6}}, {12, {5, 5}}, {12, {5, 4}}, {13, {5, 9}}, {18, {5, 9, 4}}, {12, {-10001, 4}},
                 {12, {80000, 80001}}, {18, {0, 80001, 9}}, {24, {0, 5, 5, 9}}, {24, {0, 5, 4, 9}}, {24, {0, -10001, 5, 9}},
                 {24, {0, 5, 80001, 9}}, {30, {0, 9, 5, 1, 20}}, {30, {0, 3, 3, 3, 20}}, {24, {0, INT32_MIN, INT32_MAX, 9}}};
    static bool done;
    if (done)
        return;
    done = true;
    for (size_t i = 0; i < sizeof wrong / sizeof *wrong; i++) {
        for (size_t k = 0; k < 5; k++)
            put_knot(k, wrong[i].microvolts[k], (int32_t)(100 * k) - 150);
        payload.length = wrong[i].length;
        compare_judge();
        for (volts = -2; volts <= 12; volts++)
            compare_reading();
        for (size_t k = 0; k < 5; k++) {
            volts = wrong[i].microvolts[k];
            compare_reading();
        }
    }
}

/* At a knot, beside one, or anywhere. */
static int32_t some_volts(void) {
    size_t knots = payload.length / 6;
    if (knots == 0 || chance(5))
        return (int32_t)any32();
    const uint8_t *k = payload.ref + 6 * below((uint32_t)knots);
    int32_t near = (int32_t)((uint32_t)k[0] << 24 | (uint32_t)k[1] << 16 | (uint32_t)k[2] << 8 | k[3]);
    if (near < -1000000 || near > 1000000)
        return near;
    return chance(50) ? near + (int32_t)below(3) - 1 : near + (int32_t)below(2000) - 1000;
}

static void from_file(void) {
    static uint8_t bytes[TB_FILE_MOST];
    letter = (uint8_t)"BEJKNRST"[below(8)];
    tb_sized made = c_file_write(letter, payload.ref, payload.length, bytes, sizeof bytes);
    if (made.number != 0)
        return;
    file.length = made.length;
    twin_copy(&file, 0, bytes, made.length);
    if (chance(10))
        letter = (uint8_t)"BEJKNRST"[below(8)];
    if (chance(10))
        twin_set(&file, below((uint32_t)file.length), (uint8_t)any32());
    if (chance(5))
        twin_fill(&file, file.length - 512, 512, 0xFF);
    room.length = chance(90) ? room.room : below((uint32_t)payload.length + 1);
    compare_file();
}

void readings(uint32_t n) {
    tell_case = tell;
    twin_new(&payload, "payload", TB_PAYLOAD_MOST);
    twin_new(&file, "file", TB_FILE_MOST);
    twin_new(&room, "room", TB_PAYLOAD_MOST);
    refused_tables();
    for (uint32_t i = 0; i < n; i++) {
        if (chance(90)) {
            some_table();
        } else {
            payload.length = below(60);
            twin_noise(&payload, 0, payload.length);
        }
        compare_judge();
        for (int k = 0; k < 8; k++) {
            volts = some_volts();
            compare_reading();
        }
        from_file();
    }
}
