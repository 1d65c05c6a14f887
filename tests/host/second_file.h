/* The second implementation: the reader's tests of a load file. */
#ifndef SECOND_FILE_H
#define SECOND_FILE_H

#include "second.h"

/* 30 to 35 and 38, but for room: 0 or a refusal. (R-order-6) */
uint8_t second_judge(uint8_t letter, const uint8_t *file, size_t);

/* The check, the writer and the reader once more, without a product: what the bench measures by beside those with one. */
uint16_t c_block_sums(const uint8_t *block, size_t);
tb_sized c_file_write_sums(uint8_t letter, const uint8_t *payload, size_t, uint8_t *file, size_t);
tb_sized c_file_read_sums(uint8_t letter, const uint8_t *file, size_t, uint8_t *payload, size_t);

#endif
