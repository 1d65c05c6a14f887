/* tb_file_write, tb_file_read, tb_block_check: a payload goes into a load file and comes out of it. */
#include <stdio.h>
#include <string.h>
#include <torfbarke.h>

static uint8_t payload[506], back[506], file[1024], block[TB_FILE_BLOCK];

int main(void) {
    for (size_t i = 0; i < sizeof payload; i++)
        payload[i] = (uint8_t)i;
    /* 505 bytes fit into one block, 506 need two */
    tb_sized one = tb_file_write('K', payload, 505, file, sizeof file);
    tb_sized two = tb_file_write('K', payload, 506, file, sizeof file);
    if (one.number != TB_OK || one.length != 512 || two.number != TB_OK || two.length != TB_FILE_LENGTH(506) || two.length != 1024)
        return puts("wrong: a file's length"), 1;
    tb_sized read = tb_file_read('K', file, two.length, back, sizeof back);
    if (read.number != TB_OK || read.length != 506 || memcmp(back, payload, 506) != 0)
        return puts("wrong: what was read"), 1;

    /* the check of a block stands in its last two bytes, high byte first; over 510 bytes FFH it is 8,629 (card 12) */
    if (tb_block_check(file, TB_FILE_BLOCK) != file[510] * 256 + file[511])
        return puts("wrong: the check"), 1;
    memset(block, 0xFF, sizeof block);
    if (tb_block_check(block, sizeof block) != 8629)
        return puts("wrong: the check of FFH"), 1;

    /* what is refused, and leaves `back` as it was */
    if (tb_file_read('S', file, two.length, back, sizeof back).number != TB_OTHER_LETTER ||
        tb_file_read('K', block, sizeof block, back, sizeof back).number != TB_FILE_BLANK ||
        tb_file_read('K', file, two.length, back, 505).number != TB_NO_ROOM ||
        tb_file_write('K', payload, 0, file, sizeof file).number != TB_PAYLOAD_LENGTH)
        return puts("wrong: a refusal"), 1;
    printf("506 bytes in a file of %zu\n", two.length);
    return 0;
}
