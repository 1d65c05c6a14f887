/* tb_knot_pack, tb_knot_unpack: knots of a table as numbers, and as the six bytes that a payload has of each. */
#include <stdio.h>
#include <string.h>
#include <torfbarke.h>

int main(void) {
    static const uint8_t told[] = {0xFF, 0xFF, 0xFF, 0xFF, 0xFF, 0xFE, 0x00, 0x00, 0x10, 0x00, 0x03, 0xE8}; /* -1 and -2; 4,096 and 1,000 */
    uint8_t payload[2 * TB_KNOT_BYTES];
    if (tb_knot_pack(0, -1, -2, payload, sizeof payload) != TB_OK || tb_knot_pack(1, 4096, 1000, payload, sizeof payload) != TB_OK)
        return puts("wrong: a knot is refused"), 1;
    if (memcmp(payload, told, sizeof told) != 0)
        return puts("wrong: the bytes"), 1;
    tb_knot knot = tb_knot_unpack(1, payload, sizeof payload), none = tb_knot_unpack(2, payload, sizeof payload);
    if (knot.there != 1 || knot.microvolts != 4096 || knot.tenths != 1000 || none.there != 0)
        return puts("wrong: a knot"), 1;

    /* what does not fit leaves the payload as it was */
    if (tb_knot_pack(0, 80001, 0, payload, sizeof payload) != TB_TABLE_VOLTS ||
        tb_knot_pack(0, 0, 32768, payload, sizeof payload) != TB_TENTHS_TOO_WIDE ||
        tb_knot_pack(2, 0, 0, payload, sizeof payload) != TB_NO_ROOM || memcmp(payload, told, sizeof told) != 0)
        return puts("wrong: a refusal"), 1;
    printf("%ld microvolts, %d tenths\n", (long)knot.microvolts, knot.tenths);
    return 0;
}
