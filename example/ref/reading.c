/* tb_table_judge, tb_table_reading, tb_file_reading: a table is judged once, then read from where it lies. */
#include <stdio.h>
#include <torfbarke.h>

enum { KNOTS = 3 };
static uint8_t payload[KNOTS * TB_KNOT_BYTES], file[TB_FILE_LENGTH(sizeof payload)], room[sizeof payload];

int main(void) {
    tb_knot_pack(0, 0, 0, payload, sizeof payload);
    tb_knot_pack(1, 4096, 1000, payload, sizeof payload);
    tb_knot_pack(2, 8138, 2000, payload, sizeof payload);
    if (tb_table_judge(payload, sizeof payload) != TB_OK || tb_table_judge(payload, 13) != TB_TABLE_SHAPE)
        return puts("wrong: the judgement"), 1;

    /* exact at a knot, between the knots' temperatures elsewhere, and the end's own temperature outside */
    tb_reading at = tb_table_reading(payload, sizeof payload, 4096), half = tb_table_reading(payload, sizeof payload, 2048);
    tb_reading below = tb_table_reading(payload, sizeof payload, -1), above = tb_table_reading(payload, sizeof payload, 8139);
    if (at.answer != TB_TEMPERATURE || at.tenths != 1000 || half.answer != TB_TEMPERATURE || half.tenths != 500)
        return puts("wrong: a temperature"), 1;
    if (below.answer != TB_BELOW || below.tenths != 0 || above.answer != TB_ABOVE || above.tenths != 2000)
        return puts("wrong: outside the table"), 1;

    /* the same straight from a file, which is judged and copied at every call */
    tb_file_write('K', payload, sizeof payload, file, sizeof file);
    tb_reading from = tb_file_reading('K', file, sizeof file, room, sizeof room, 2048);
    tb_reading other = tb_file_reading('S', file, sizeof file, room, sizeof room, 2048);
    if (from.answer != TB_TEMPERATURE || from.tenths != 500 || other.answer != TB_NO_READING || other.number != TB_OTHER_LETTER)
        return puts("wrong: a reading from a file"), 1;
    printf("%.1f degrees at 2048 microvolts\n", half.tenths / 10);
    return 0;
}
