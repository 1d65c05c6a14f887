/* Random load files: written, damaged, blank and random ones. */
#include <stdio.h>
#include <string.h>

#include "cases.h"

static twin payload, file, back;
static uint8_t letter;
static tb_sized lib, ref;

static void tell(void) {
    printf("  letter %02X, payload %zu, file %zu, room for the payload %zu bytes\n", letter, payload.length, file.length,
           back.length);
    for (size_t at = 0; at + 512 <= file.length; at += 512)
        printf("  block %02X %02X %02X %02X%02X, check %02X%02X\n", file.ref[at], file.ref[at + 1], file.ref[at + 2],
               file.ref[at + 3], file.ref[at + 4], file.ref[at + 510], file.ref[at + 511]);
    printf("  the library: number %u, length %zu\n  expected: number %u, length %zu\n", lib.number, lib.length, ref.number,
           ref.length);
}

static bool same_sized(void) { return lib.number == ref.number && lib.length == ref.length; }

static void compare_write(void) {
    twin *lent[] = {&payload, &file};
    lib = tb_file_write(letter, lib_of(&payload), payload.length, lib_of(&file), file.length);
    untouched(lib.number != 0, "write", lent, 2);
    ref = c_file_write(letter, ref_of(&payload), payload.length, ref_of(&file), file.length);
    alike(same_sized(), "write", lent, 2);
    met(IN_WRITE, ref.number);
}

static void compare_read(void) {
    twin *lent[] = {&file, &back};
    lib = tb_file_read(letter, lib_of(&file), file.length, lib_of(&back), back.length);
    untouched(lib.number != 0, "read", lent, 2);
    ref = c_file_read(letter, ref_of(&file), file.length, ref_of(&back), back.length);
    alike(same_sized(), "read", lent, 2);
    met(IN_READ, ref.number);
}

static void compare_check(void) {
    size_t n = chance(50) ? ONE_OF(0, 1, 509, 510, 511, 512) : below(600);
    size_t kept = file.length;
    twin *lent[] = {&file};
    file.length = n;
    uint16_t sum = tb_block_check(lib_of(&file), n);
    alike(sum == c_block_check(ref_of(&file), n), "check", lent, 1);
    file.length = kept;
}

static uint8_t some_letter(void) {
    return chance(97) ? (uint8_t)"BEJKNRST"[below(8)] : (uint8_t)ONE_OF(0, 'A', 'b', 'C', 'U', 255, any32());
}

/* Writes a file and reads it back; where nothing is refused the payload must come back whatever the second opinion says. (R-file-3) */
static void written(void) {
    letter = some_letter();
    payload.length = chance(60) ? 1 + below(4040) : ONE_OF(0, 1, 504, 505, 506, 1010, 1011, 4039, 4040, 4041, 4096);
    if (chance(1))
        payload.length = ONE_OF(1 + below(TB_PAYLOAD_MOST), TB_PAYLOAD_MOST, TB_PAYLOAD_MOST + 1);
    uint32_t need = (uint32_t)((payload.length + 504) / 505 * 512);
    file.length = chance(85) ? need + ONE_OF(0, 1, 511, 512) : below(need + 2);
    twin_noise(&payload, 0, 32);
    twin_noise(&file, 0, 32);
    compare_write();
    if (ref.number != 0)
        return;
    file.length = ref.length;
    back.length = chance(85) ? payload.length + below(3) : below((uint32_t)payload.length);
    twin_noise(&back, 0, 32);
    if (chance(10))
        letter = some_letter();
    compare_read();
    if (lib.number == 0 && (lib.length != payload.length || memcmp(back.lib, payload.lib, lib.length) != 0))
        mismatch("read after write");
}

static void check_at(size_t at) {
    uint16_t sum = c_block_check(file.ref + at, 510);
    twin_set(&file, at + 510, (uint8_t)(sum / 256));
    twin_set(&file, at + 511, (uint8_t)(sum % 256));
}

/* A good file with a few bytes changed, mostly with the check put right again. */
static void damaged(void) {
    letter = some_letter();
    payload.length = 1 + below(chance(50) ? 505 : chance(98) ? 4040 : TB_PAYLOAD_MOST);
    file.length = file.room;
    compare_write();
    if (ref.number != 0)
        return;
    file.length = ref.length;
    for (uint32_t i = 1 + below(2); i > 0; i--) {
        size_t block = below((uint32_t)(file.length / 512)) * 512;
        size_t at = block + (chance(60) ? below(5) : chance(30) ? 509 : below(512));
        uint8_t near = (uint8_t)(file.ref[at] + ONE_OF(1, 255));
        twin_set(&file, at, chance(50) ? near : (uint8_t)(chance(30) ? some_letter() : any32()));
        if (chance(75))
            check_at(block);
    }
    if (chance(5))
        file.length = ONE_OF(file.length - 1, file.length - 512, 0);
    back.length = chance(90) ? back.room : below((uint32_t)payload.length);
    compare_read();
}

/* Blocks put together from random fields around the right ones; or noise of any length. */
static void made_up(void) {
    uint32_t blocks = 1 + below(10);
    uint8_t first = some_letter();
    letter = chance(90) ? first : some_letter();
    file.length = blocks * 512;
    back.length = chance(80) ? 5050 : below(5060);
    for (uint32_t i = 0; i < blocks; i++) {
        size_t at = i * 512, used = chance(96) ? (i + 1 < blocks ? 505 : 1 + below(505)) : ONE_OF(0, 504, 506, 65535);
        twin_noise(&file, at, 16);
        twin_set(&file, at, chance(98) ? first : some_letter());
        twin_set(&file, at + 1, (uint8_t)(chance(98) ? i : any32()));
        twin_set(&file, at + 2, (uint8_t)(chance(98) ? blocks : any32()));
        twin_set(&file, at + 3, (uint8_t)(used / 256));
        twin_set(&file, at + 4, (uint8_t)(used % 256));
        if (used < 505)
            twin_fill(&file, at + 5 + used, 505 - used, 0xFF);
        if (chance(98))
            check_at(at);
    }
    if (chance(10))
        twin_noise(&file, 0, file.length);
    if (chance(20))
        file.length = chance(50) ? below(5121) : ONE_OF(0, 511, 513, 4095, 4608);
    if (chance(1))
        file.length = ONE_OF(114687, 114689, 115200);
    compare_read();
}

/* A good file that is blank from some block on, sometimes but for a byte or two, or with a blank block behind its end. (R-number-38) */
static void erased(void) {
    uint32_t blocks = 1 + below(5), from = below(blocks + 1);
    letter = (uint8_t)"BEJKNRST"[below(8)];
    payload.length = blocks * 505 - below(505);
    file.length = file.room;
    compare_write();
    file.length = (from == blocks ? blocks + 1 : blocks) * 512;
    twin_fill(&file, from * 512, file.length - from * 512, 0xFF);
    if (chance(40))
        twin_set(&file, from * 512 + (chance(50) ? ONE_OF(0, 1, 509, 510, 511) : below(512)), (uint8_t)any32());
    if (chance(10))
        twin_set(&file, from * 512 + 511, (uint8_t)any32());
    if (chance(5))
        check_at(from * 512);
    back.length = back.room;
    compare_read();
}

void files(uint32_t n) {
    tell_case = tell;
    twin_new(&payload, "payload", TB_PAYLOAD_MOST + 1);
    twin_new(&file, "file", TB_FILE_MOST + 1024);
    twin_new(&back, "payload read", TB_PAYLOAD_MOST + 60);
    for (uint32_t i = 0; i < n; i++) {
        switch (below(4)) {
        case 0: written(); break;
        case 1: damaged(); break;
        case 2: erased(); break;
        default: made_up();
        }
        compare_check();
        count_file();
    }
}
