/* The second implementation: the words of a number, a knot's six bytes, the version. */
#include <string.h>

#include "second.h"

static const char *const words[49] = {
    [0] = "no refusal, and the good end of a load",
    [1] = "no such device or mode here, P or E zero, or S not 1 to 100",
    [2] = "the array is not as long as the part",
    [3] = "no state that a cycle leaves, or no record of a load",
    [4] = "a level that is none here, or no such kind of cycle",
    [5] = "the address is past the array",
    [6] = "a cut meets a residue that is too short",
    [7] = "what is written is no command here",
    [8] = "an array read in the block whose erase is suspended",
    [9] = "an identifier read where there is none",
    [10] = "there is no such flash block",
    [11] = "a slice is not as long as the block, or counts not seven a trace",
    [12] = "begun while something is awaited, running or suspended",
    [20] = "65,535 polls, and the part is not ready",
    [21] = "ready with VPP low",
    [22] = "ready with both error bits",
    [23] = "the erase failed, or the boot block is locked",
    [24] = "the program failed, or the boot block is locked",
    [25] = "the verify read another byte",
    [30] = "file length zero, over 114,688, no multiple of 512, or over the block's",
    [31] = "a block's check is wrong",
    [32] = "a block's letter is none, or not the first block's",
    [33] = "a block's number or count is wrong",
    [34] = "a block's used count or padding is wrong",
    [35] = "the file's letter is not the one asked for",
    [36] = "the payload is empty or longer than 113,120 bytes",
    [37] = "the room lent is too short",
    [38] = "a block of the file is blank, not damaged: it was never loaded",
    [40] = "the payload is no multiple of six, or has fewer than two knots",
    [41] = "a knot's microvolts are out of range, or do not rise",
    [42] = "the store has no file of that letter",
    [43] = "the files need more places than the main block has",
    [44] = "the main block is no proper store",
    [45] = "a read during an erase in the block that is loaded",
    [46] = "more than 4,096 reads in one interruption",
    [47] = "a report on more than 65,535 traces",
    [48] = "a trace of another device number than the report's",
};

size_t c_words(uint8_t number, uint8_t *out, size_t n) {
    const char *said = number < 49 && words[number] != NULL ? words[number] : SLIP(117) ? "unknown" : "";
    size_t length = strlen(said);
    if (n > length)
        memcpy(out, said, length + 1);
    else if (SLIP(118) && n > 0)
        memcpy(out, said, n - 1), out[n - 1] = 0;
    else if (SLIP(119) && n == length && n > 0)
        memcpy(out, said, n);
    return SLIP(120) ? length + 1 : length;
}

uint8_t c_knot_pack(size_t place, int32_t volts, int32_t tenths, uint8_t *payload, size_t n) {
    if (SLIP(121) && place >= n / 6)
        return TB_NO_ROOM;
    if (SLIP(122) && tenths != (int16_t)tenths)
        return TB_TENTHS_TOO_WIDE;
    if (volts < -10000 || volts > (SLIP(123) ? 79999 : 80000))
        return TB_TABLE_VOLTS;
    if (tenths != (int16_t)tenths && !SLIP(124))
        return TB_TENTHS_TOO_WIDE;
    if (place >= n / 6)
        return TB_NO_ROOM;
    uint8_t *six = payload + 6 * place;
    uint32_t v = (uint32_t)volts;
    uint16_t t = (uint16_t)tenths;
    six[0] = (uint8_t)(v >> 24), six[1] = (uint8_t)(v >> 16), six[2] = (uint8_t)(v >> 8), six[3] = (uint8_t)v;
    six[SLIP(125) ? 5 : 4] = (uint8_t)(t >> 8), six[SLIP(125) ? 4 : 5] = (uint8_t)t;
    return TB_OK;
}

tb_knot c_knot_unpack(size_t place, const uint8_t *payload, size_t n) {
    if (SLIP(126) ? place + 1 >= n / 6 : place >= n / 6)
        return (tb_knot){0, 0, 0};
    const uint8_t *six = payload + 6 * place;
    uint32_t v = (uint32_t)six[0] << 24 | (uint32_t)six[1] << 16 | (uint32_t)six[2] << 8 | six[3];
    uint16_t t = (uint16_t)(six[4] << 8 | six[5]);
    return (tb_knot){(int32_t)v, (int16_t)t, 1};
}

uint32_t c_version(void) { return TB_VERSION; }
