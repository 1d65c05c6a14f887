/* The second implementation: load and verify run against the model, and from a file. */
#include "second_run.h"

#include "second_file.h"

/* What is run: the load and, where it ended well, the verify; or one of the two. */
typedef enum { BOTH, LOAD, VERIFY } work;

/* The load: its end. */
static inline uint8_t load(bench *b, bool word, uint8_t block) {
    open_block(b, word);
    if (must_erase(b->wanted, b->scratch, b->n)) {
        uint8_t end = erase_all(b, block);
        if (end != TB_OK)
            return end;
    }
    return program_all(b, word);
}

static tb_ran ran(work what, const order *o, uint8_t *array, const uint8_t *wanted, uint8_t *scratch, size_t n) {
    bool word = o->device.word;
    bench b = bench_of(o, array, wanted, scratch, n);
    uint32_t address = 0;
    uint8_t end = what == VERIFY ? TB_OK : load(&b, word, o->block);
    if ((end == TB_OK || SLIP(23)) && (what != LOAD || SLIP(25)))
        end = verify_all(&b, word, &address);
    return (tb_ran){b.count, end, address, b.state};
}

static inline tb_ran tested(work what, order o, uint8_t *array, size_t size, const uint8_t *wanted, size_t n, uint8_t *scratch, size_t m) {
    uint8_t number = run_refused(&o, size, n, m);
    if (number != TB_OK)
        return (tb_ran){0, number, 0, o.state};
    return ran(what, &o, array, wanted, scratch, n);
}

tb_ran c_run(tb_device d, tb_state s, uint8_t rp, uint8_t wp, uint32_t vpp, uint8_t block, uint8_t *array, size_t size,
             const uint8_t *wanted, size_t n, uint8_t *scratch, size_t m) {
    return tested(BOTH, (order){d, s, rp, wp, block, vpp}, array, size, wanted, n, scratch, m);
}

tb_ran c_load_run(tb_device d, tb_state s, uint8_t rp, uint8_t wp, uint32_t vpp, uint8_t block, uint8_t *array, size_t size,
                  const uint8_t *wanted, size_t n, uint8_t *scratch, size_t m) {
    return tested(LOAD, (order){d, s, rp, wp, block, vpp}, array, size, wanted, n, scratch, m);
}

tb_ran c_verify_run(tb_device d, tb_state s, uint8_t rp, uint8_t wp, uint32_t vpp, uint8_t block, uint8_t *array, size_t size,
                    const uint8_t *wanted, size_t n, uint8_t *scratch, size_t m) {
    return tested(VERIFY, (order){d, s, rp, wp, block, vpp}, array, size, wanted, n, scratch, m);
}

static inline tb_ran with_file(work what, order o, uint8_t letter, const uint8_t *file, size_t k, uint8_t *array, size_t size,
                               uint8_t *wanted, size_t n, uint8_t *scratch, size_t m) {
    uint8_t number = run_refused(&o, size, n, m);
    if (number == TB_OK)
        number = k > n ? TB_FILE_SIZE : second_judge(letter, file, k);
    if (number != TB_OK && !(SLIP(12) && number == TB_OTHER_LETTER))
        return (tb_ran){0, number, 0, o.state};
    memcpy(wanted, file, k);
    memset(wanted + k, 0xFF, n - k);
    if (number != TB_OK)
        return (tb_ran){0, number, 0, o.state};
    return ran(what, &o, array, wanted, scratch, n);
}

tb_ran c_load(tb_device d, tb_state s, uint8_t rp, uint8_t wp, uint32_t vpp, uint8_t block, uint8_t letter, const uint8_t *file, size_t k,
              uint8_t *array, size_t size, uint8_t *wanted, size_t n, uint8_t *scratch, size_t m) {
    return with_file(BOTH, (order){d, s, rp, wp, block, vpp}, letter, file, k, array, size, wanted, n, scratch, m);
}

tb_ran c_verify_file(tb_device d, tb_state s, uint8_t rp, uint8_t wp, uint32_t vpp, uint8_t block, uint8_t letter, const uint8_t *file,
                     size_t k, uint8_t *array, size_t size, uint8_t *wanted, size_t n, uint8_t *scratch, size_t m) {
    return with_file(VERIFY, (order){d, s, rp, wp, block, vpp}, letter, file, k, array, size, wanted, n, scratch, m);
}
