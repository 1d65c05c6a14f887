/* The words of every number in every room; knots packed and unpacked, at the edges of what they may be and at random; the version. */
#include <stdio.h>
#include <string.h>

#include "cases.h"

static twin out, payload;
static unsigned number;
static size_t place, lib_said, ref_said;
static int32_t volts, tenths;
static uint8_t lib_number, ref_number;
static tb_knot lib_knot, ref_knot;

static void tell_words(void) {
    printf("  number %u, room %zu: the library gives %zu, expected %zu\n", number, out.length, lib_said, ref_said);
}

static void tell_knot(void) {
    printf("  place %zu, %ld microvolts, %ld tenths, payload %zu bytes\n", place, (long)volts, (long)tenths, payload.length);
    printf("  packed: the library gives %u, expected %u\n", lib_number, ref_number);
    printf("  unpacked: the library gives %ld, %d, %u, expected %ld, %d, %u\n", (long)lib_knot.microvolts, lib_knot.tenths, lib_knot.there,
           (long)ref_knot.microvolts, ref_knot.tenths, ref_knot.there);
}

static void compare_words(void) {
    twin *lent[] = {&out};
    lib_said = tb_words((uint8_t)number, lib_of(&out), out.length);
    untouched(out.length <= lib_said, "words that have no room", lent, 1);
    ref_said = c_words((uint8_t)number, ref_of(&out), out.length);
    alike(lib_said == ref_said, "words", lent, 1);
    if (lib_said + 1 > TB_WORDS_ROOM || (out.length > lib_said && strlen((char *)out.lib) != lib_said))
        mismatch("words that end with their 0");
    met(IN_WORDS, (uint8_t)number);
}

void every_word(void) {
    tell_case = tell_words;
    twin_new(&out, "out", 2 * TB_WORDS_ROOM);
    for (number = 0; number < 256; number++)
        for (out.length = 0; out.length <= TB_WORDS_ROOM + 1; out.length++) {
            twin_noise(&out, 0, out.room);
            compare_words();
        }
    if (tb_version() != TB_VERSION || c_version() != TB_VERSION)
        mismatch("version");
}

static bool same_knot(tb_knot a, tb_knot b) { return a.microvolts == b.microvolts && a.tenths == b.tenths && a.there == b.there; }

static void compare_unpack(void) {
    twin *lent[] = {&payload};
    lib_knot = tb_knot_unpack(place, lib_of(&payload), payload.length);
    ref_knot = c_knot_unpack(place, ref_of(&payload), payload.length);
    alike(same_knot(lib_knot, ref_knot), "knot unpacked", lent, 1);
}

/* What was packed is unpacked as it was. */
static void compare_knot(void) {
    twin *lent[] = {&payload};
    lib_number = tb_knot_pack(place, volts, tenths, lib_of(&payload), payload.length);
    untouched(lib_number != TB_OK, "knot packed", lent, 1);
    ref_number = c_knot_pack(place, volts, tenths, ref_of(&payload), payload.length);
    alike(lib_number == ref_number, "knot packed", lent, 1);
    met(IN_KNOT, ref_number);
    compare_unpack();
    if (lib_number == TB_OK && (lib_knot.there != 1 || lib_knot.microvolts != volts || lib_knot.tenths != tenths))
        mismatch("knot packed and unpacked");
}

void knots(uint32_t n) {
    tell_case = tell_knot;
    twin_new(&payload, "payload", 64);
    for (uint32_t i = 0; i < n; i++) {
        twin_noise(&payload, 0, payload.room);
        payload.length = below(50);
        place = chance(90) ? below(9) : chance(50) ? SIZE_MAX : SIZE_MAX / 6 + below(3);
        volts = chance(50) ? (int32_t)ONE_OF(-10001, -10000, -1, 0, 1, 79999, 80000, 80001, INT32_MIN, INT32_MAX) : (int32_t)below(90001) - 10000;
        tenths = chance(50) ? (int32_t)ONE_OF(-32769, -32768, -1, 0, 1, 255, 256, 32767, 32768, 65535, 65536, INT32_MIN, INT32_MAX)
                            : (int32_t)below(65536) - 32768;
        compare_knot();
        place = below(9);
        compare_unpack();
        count_knot();
    }
}
