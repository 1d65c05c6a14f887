/* What the examples share: the table of a probe, its load file, and a test of every answer. */
#ifndef PROBE_H
#define PROBE_H

#include <stdio.h>
#include <stdlib.h>
#include <string.h>

#include "torfbarke.h"

/* A type K thermocouple at 0, 100, 200 and 300 degrees Celsius. */
static const struct {
    int32_t microvolts;
    int16_t tenths;
} knots[] = {{0, 0}, {4096, 1000}, {8138, 2000}, {12209, 3000}};
enum { KNOTS = sizeof knots / sizeof knots[0], PAYLOAD = TB_KNOT_BYTES * KNOTS, FILE_BYTES = TB_FILE_LENGTH(PAYLOAD), LETTER = 'K' };

/* Ends the example where an answer is not the one that must come. */
static void must(int holds, const char *what) {
    if (holds)
        return;
    printf("wrong: %s\n", what);
    exit(1);
}

/* The load file of the table. */
static void pack(uint8_t *file) {
    uint8_t payload[PAYLOAD];
    for (size_t i = 0; i < KNOTS; i++)
        must(tb_knot_pack(i, knots[i].microvolts, knots[i].tenths, payload, PAYLOAD) == TB_OK, "a knot is refused");
    must(tb_table_judge(payload, PAYLOAD) == TB_OK, "the table is refused");
    tb_sized made = tb_file_write(LETTER, payload, PAYLOAD, file, FILE_BYTES);
    must(made.number == TB_OK && made.length == FILE_BYTES, "the file is not written");
    printf("file: %zu bytes, check %u\n", made.length, tb_block_check(file, made.length));
}

/* The cycles of a load and its verify: 2n + 3 + e(2 + E) + p(2 + P), n the block's units and p those to program, here all that are
 * not blank, since the block is erased first. */
static uint64_t cycles_due(tb_device device, const uint8_t *wanted, size_t length) {
    size_t unit = device.word == TB_WORD_MODE ? 2 : 1;
    uint64_t programs = 0;
    for (size_t i = 0; i < length; i += unit)
        programs += wanted[i] != 0xFF || wanted[i + unit - 1] != 0xFF;
    return 2 * (length / unit) + 3 + (2 + device.erase) + programs * (2 + device.program);
}

/* How worn a part is: the erases begun of each of its blocks. They are part of its state, which the host keeps. */
static void print_wear(uint8_t part, tb_wear wear) {
    printf("wear: erases begun, by block:");
    for (uint8_t k = 0; tb_block(part, k).length != 0; k++)
        printf(" %lu", (unsigned long)wear.block[k]);
    printf("\n");
}

/* Readings by the file as the part holds it: at each knot, half way between two, and above the table. */
static void read_probe(const uint8_t *held) {
    uint8_t room[PAYLOAD];
    for (int i = 0; i < KNOTS; i++) {
        tb_reading r = tb_file_reading(LETTER, held, FILE_BYTES, room, sizeof room, knots[i].microvolts);
        must(r.answer == TB_TEMPERATURE && r.tenths == knots[i].tenths, "the reading at a knot");
    }
    tb_reading half = tb_file_reading(LETTER, held, FILE_BYTES, room, sizeof room, (4096 + 8138) / 2);
    must(half.answer == TB_TEMPERATURE && half.tenths == 1500, "the reading between two knots");
    tb_reading above = tb_file_reading(LETTER, held, FILE_BYTES, room, sizeof room, 20000);
    must(above.answer == TB_ABOVE && above.tenths == 3000, "the reading above the table");
    printf("reading: %.1f degrees at 6117 microvolts\n", half.tenths / 10);
}

#endif
