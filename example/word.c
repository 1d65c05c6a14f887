/* Loads the table of a probe into a parameter block of a simulated 28F200BR-T in word mode, with 5 V at VPP and WP# low, which locks
 * the boot block alone; verifies it from the file without VPP; and reads a temperature straight out of the block's bytes. */
#include "probe.h"

enum { PART = TB_28F200BR_T, BLOCK = 1 };

static tb_device device = {.number = PART, .word = TB_WORD_MODE, .program = 2, .erase = 3, .suspend = 1};
static uint8_t file[FILE_BYTES], array[262144], wanted[8192], scratch[8192];

static tb_state load(void) {
    tb_ran ran = tb_load(device, tb_fresh(), TB_RP_HIGH, TB_WP_LOW, 5000, BLOCK, LETTER, file, sizeof file, array, sizeof array, wanted,
                         sizeof wanted, scratch, sizeof scratch);
    printf("load in words: %llu cycles, end %u\n", (unsigned long long)ran.count, ran.end);
    must(ran.end == TB_OK && ran.count == cycles_due(device, wanted, sizeof wanted), "the end of the load, or its cycles");
    print_wear(PART, ran.state.wear);
    must(ran.state.wear.block[BLOCK] == 1 && ran.state.wear.block[0] == 0, "the count of erases");
    return ran.state;
}

static void verify(tb_state state) {
    tb_ran ran = tb_verify_file(device, state, TB_RP_HIGH, TB_WP_LOW, 0, BLOCK, LETTER, file, sizeof file, array, sizeof array, wanted,
                                sizeof wanted, scratch, sizeof scratch);
    printf("verify in words: %llu cycles, end %u\n", (unsigned long long)ran.count, ran.end);
    must(ran.end == TB_OK && ran.count == sizeof wanted / 2 + 1, "the end of the verify, or its cycles");
}

/* One read cycle: a word address is half the byte address, and the word's low byte is the byte there. */
static void read_word(tb_state state, tb_span block) {
    tb_bus bus = {.kind = TB_CYCLE_READ, .rp = TB_RP_HIGH, .vpp_mv = 5000, .address = (uint32_t)(block.first / 2)};
    tb_answer answer = tb_cycle(device, state, bus, array, sizeof array, NULL, 0);
    must(answer.seen == TB_DATA && answer.value == (file[0] | file[1] << 8), "the first word of the block");
    printf("word at %lX: %04X\n", (unsigned long)bus.address, answer.value);
}

int main(void) {
    tb_span block = tb_block(PART, BLOCK);
    must(tb_size(PART) == sizeof array && block.length == sizeof wanted, "the part's size or the block's");
    pack(file);
    tb_state state = load(); /* over a part that was used before: its bytes are 0 */
    verify(state);
    read_word(state, block);
    read_probe(array + block.first);

    /* a byte of the card's flash gone wrong is found, and told by its byte address */
    array[block.first + 101] ^= 1;
    tb_ran bad = tb_verify_file(device, state, TB_RP_HIGH, TB_WP_LOW, 0, BLOCK, LETTER, file, sizeof file, array, sizeof array, wanted,
                                sizeof wanted, scratch, sizeof scratch);
    must(bad.end == TB_VERIFY_FAILED && bad.address == block.first + 101, "a wrong byte is not found");
    printf("a wrong byte is found at %lX\n", (unsigned long)bad.address);
    return 0;
}
