/* The second implementation: the load file. */
#include "second_file.h"

#include <string.h>

enum { HEAD = 5, CHECKED = 510, BLOCK = TB_FILE_BLOCK, ROOM = TB_FILE_USED };

/* The weight is counted in 16 bits beside the index, so that the compiler multiplies eight bytes at a time. */
uint16_t c_block_check(const uint8_t *block, size_t n) {
    int32_t sum = SLIP(5) ? 0 : 1;
    int16_t weight = 1;
    if (n > CHECKED)
        n = CHECKED;
    for (size_t i = 0; i < n; i++, weight++)
        sum += weight * (int16_t)block[i];
    return (uint16_t)((uint32_t)sum % 65521);
}

/* The check without a product, as fast as this compiler makes it: running sums in 32 columns of 16 bits, from the last byte on, which
 * it does eight at a time; the columns' own weights by running sums again; and two folds in the place of a division. */
uint16_t c_block_sums(const uint8_t *block, size_t n) {
    enum { COLUMNS = 32 };
    uint16_t column[COLUMNS] = {0}, sums[COLUMNS] = {0};
    uint32_t sum = 0, within = 0, total = 0;
    size_t i = n < CHECKED ? n : CHECKED;
    for (; i >= COLUMNS; i -= COLUMNS)
        for (int k = 0; k < COLUMNS; k++) {
            column[k] = (uint16_t)(column[k] + block[i - COLUMNS + k]);
            sums[k] = (uint16_t)(sums[k] + column[k]);
        }
    for (int k = COLUMNS; k-- > 0;) {
        sum += column[k];
        within += sum;
        total += sums[k];
    }
    total = 1 + ((total - sum) << 5) + within;
    while (i > 0) {
        sum += block[--i];
        total += sum;
    }
    for (int fold = 0; fold < 2; fold++)
        total = (total & 65535) + (total >> 16 << 4) - (total >> 16);
    return (uint16_t)(total >= 65521 ? total - 65521 : total);
}

/* Writer and reader are told once for both checks. */
typedef uint16_t check_of(const uint8_t *, size_t);

static bool is_letter(uint8_t letter) {
    switch (letter) {
    case 'B': case 'E': case 'J': case 'K': case 'N': case 'R': case 'S': case 'T': return true;
    }
    return false;
}

static size_t pair(const uint8_t *at) { return (size_t)at[0] << 8 | at[1]; }

static void put_pair(uint8_t *at, size_t value) {
    at[0] = (uint8_t)(value >> 8);
    at[1] = (uint8_t)value;
}

static inline __attribute__((always_inline)) tb_sized written(check_of *check, uint8_t letter, const uint8_t *payload, size_t n,
                                                              uint8_t *file, size_t m) {
    size_t blocks = (n + ROOM - 1) / ROOM;
    if (!is_letter(letter))
        return (tb_sized){TB_FILE_LETTER, 0};
    if (n == 0 || n > TB_PAYLOAD_MOST)
        return (tb_sized){TB_PAYLOAD_LENGTH, 0};
    if (m < blocks * BLOCK)
        return (tb_sized){TB_NO_ROOM, 0};
    for (size_t i = 0; i < blocks; i++, file += BLOCK, payload += ROOM, n -= ROOM) {
        size_t used = n < ROOM ? n : ROOM;
        file[0] = letter;
        file[1] = (uint8_t)i;
        file[2] = (uint8_t)blocks;
        put_pair(file + 3, used);
        memcpy(file + HEAD, payload, used);
        if (used < ROOM)
            memset(file + HEAD + used, 0xFF, ROOM - used);
        put_pair(file + CHECKED, check(file, CHECKED));
    }
    return (tb_sized){TB_OK, blocks * BLOCK};
}

tb_sized c_file_write(uint8_t letter, const uint8_t *payload, size_t n, uint8_t *file, size_t m) {
    return written(c_block_check, letter, payload, n, file, m);
}

tb_sized c_file_write_sums(uint8_t letter, const uint8_t *payload, size_t n, uint8_t *file, size_t m) {
    return written(c_block_sums, letter, payload, n, file, m);
}

static bool used_wrong(const uint8_t *block, bool last) {
    size_t used = pair(block + 3);
    if (!last)
        return used != ROOM;
    if (used < 1 || used > ROOM)
        return true;
    for (size_t i = used; i < ROOM && !SLIP(10); i++)
        if (block[HEAD + i] != 0xFF)
            return true;
    return false;
}

/* Every byte is FFH, those of the check too. (R-number-38) */
static bool blank(const uint8_t *block, size_t number) {
    size_t n = SLIP(27) ? 1 : SLIP(28) ? CHECKED : BLOCK;
    for (size_t i = 0; i < n; i++)
        if (block[i] != 0xFF)
            return false;
    return !SLIP(29) || number == 0;
}

static inline __attribute__((always_inline)) uint8_t judged(check_of *check, uint8_t letter, const uint8_t *file, size_t n) {
    size_t blocks = n / BLOCK;
    if (n == 0 || n > TB_FILE_MOST || n % BLOCK != 0)
        return TB_FILE_SIZE;
    for (size_t i = 0; i < blocks; i++) {
        const uint8_t *block = file + i * BLOCK;
        if (check(block, CHECKED) != pair(block + CHECKED))
            return blank(block, i) ? TB_FILE_BLANK : TB_FILE_CHECK;
        if (block[0] != file[0] || !is_letter(block[0]))
            return TB_FILE_LETTER;
        if (block[1] != i || block[2] != blocks)
            return TB_FILE_PLACE;
        if (used_wrong(block, i + 1 == blocks))
            return TB_FILE_PADDING;
    }
    return file[0] == letter ? TB_OK : TB_OTHER_LETTER;
}

uint8_t second_judge(uint8_t letter, const uint8_t *file, size_t n) { return judged(c_block_check, letter, file, n); }

static inline tb_sized read_back(uint8_t number, const uint8_t *file, size_t n, uint8_t *payload, size_t m) {
    if (number != TB_OK)
        return (tb_sized){number, 0};
    const uint8_t *last = file + n - BLOCK;
    size_t used = pair(last + 3), length = (n / BLOCK - 1) * ROOM + used;
    if (m < length)
        return (tb_sized){TB_NO_ROOM, 0};
    for (; file < last; file += BLOCK, payload += ROOM)
        memcpy(payload, file + HEAD, ROOM);
    memcpy(payload, last + HEAD, used);
    return (tb_sized){TB_OK, length};
}

tb_sized c_file_read(uint8_t letter, const uint8_t *file, size_t n, uint8_t *payload, size_t m) {
    return read_back(second_judge(letter, file, n), file, n, payload, m);
}

tb_sized c_file_read_sums(uint8_t letter, const uint8_t *file, size_t n, uint8_t *payload, size_t m) {
    return read_back(judged(c_block_sums, letter, file, n), file, n, payload, m);
}
