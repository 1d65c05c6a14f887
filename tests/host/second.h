/* A second implementation of the rules, in C: each function of torfbarke.h once more, with c_ in place of tb_. It is written from
 * the rules and not from the proved code, so that the two can be held against each other; and it is as good C as we can write, so
 * that the bench can measure by it. */
#ifndef SECOND_H
#define SECOND_H

#include <stdbool.h>

#include "torfbarke.h"

/* BREAK=n puts one slip into this implementation, to show that the tests notice it. With 0, which is none, every SLIP is the
 * constant 0 and nothing of it is left in the code. */
#ifndef BREAK
#define BREAK 0
#endif
#define SLIP(n) (BREAK == (n))

size_t c_size(uint8_t part);
tb_span c_block(uint8_t part, uint8_t block);
tb_state c_fresh(void);
tb_answer c_cycle(tb_device, tb_state, tb_bus, uint8_t *array, size_t, const uint8_t *residue, size_t);
tb_checked c_recording(tb_device, tb_state, const tb_record *list, size_t, const uint8_t *promised, size_t, uint8_t *array, size_t);
tb_given c_start(uint8_t part, uint8_t word, uint8_t rp, uint8_t wp, uint32_t vpp, uint8_t block, const uint8_t *wanted, size_t,
                 const uint8_t *scratch, size_t);
tb_given c_load_start(uint8_t part, uint8_t word, uint8_t rp, uint8_t wp, uint32_t vpp, uint8_t block, const uint8_t *wanted, size_t,
                      const uint8_t *scratch, size_t);
tb_given c_verify_start(uint8_t part, uint8_t word, uint8_t rp, uint8_t wp, uint32_t vpp, uint8_t block, const uint8_t *wanted, size_t,
                        const uint8_t *scratch, size_t);
tb_turn c_step(tb_loader *, uint16_t value, const uint8_t *wanted, size_t, uint8_t *scratch, size_t);
tb_ran c_run(tb_device, tb_state, uint8_t rp, uint8_t wp, uint32_t vpp, uint8_t block, uint8_t *array, size_t, const uint8_t *wanted,
             size_t, uint8_t *scratch, size_t);
tb_ran c_stepped_run(tb_device, tb_state, uint8_t rp, uint8_t wp, uint32_t vpp, uint8_t block, uint8_t *array, size_t,
                     const uint8_t *wanted, size_t, uint8_t *scratch, size_t); /* as c_run, cycle by cycle */
tb_ran c_load_run(tb_device, tb_state, uint8_t rp, uint8_t wp, uint32_t vpp, uint8_t block, uint8_t *array, size_t,
                  const uint8_t *wanted, size_t, uint8_t *scratch, size_t);
tb_ran c_verify_run(tb_device, tb_state, uint8_t rp, uint8_t wp, uint32_t vpp, uint8_t block, uint8_t *array, size_t,
                    const uint8_t *wanted, size_t, uint8_t *scratch, size_t);
tb_ran c_load(tb_device, tb_state, uint8_t rp, uint8_t wp, uint32_t vpp, uint8_t block, uint8_t letter, const uint8_t *file, size_t,
              uint8_t *array, size_t, uint8_t *wanted, size_t, uint8_t *scratch, size_t);
tb_ran c_verify_file(tb_device, tb_state, uint8_t rp, uint8_t wp, uint32_t vpp, uint8_t block, uint8_t letter, const uint8_t *file,
                     size_t, uint8_t *array, size_t, uint8_t *wanted, size_t, uint8_t *scratch, size_t);
tb_held_given c_held_start(uint8_t part, uint8_t word, uint8_t rp, uint8_t wp, uint32_t vpp, uint8_t block, uint8_t verify,
                           const uint8_t *wanted, size_t, const uint8_t *scratch, size_t, const uint32_t *addresses, size_t,
                           const uint8_t *room, size_t);
tb_held_given c_held_step(tb_held, uint16_t value, const uint8_t *wanted, size_t, uint8_t *scratch, size_t, const uint32_t *polls, size_t,
                          const uint32_t *addresses, size_t, uint8_t *room, size_t);
tb_ran c_held_run(tb_device, tb_state, uint8_t rp, uint8_t wp, uint32_t vpp, uint8_t block, uint8_t verify, uint8_t *array, size_t,
                  const uint8_t *wanted, size_t, uint8_t *scratch, size_t, const uint32_t *polls, size_t, const uint32_t *addresses,
                  size_t, uint8_t *room, size_t);
tb_ran c_held_quick(tb_device, tb_state, uint8_t rp, uint8_t wp, uint32_t vpp, uint8_t block, uint8_t verify, uint8_t *array, size_t,
                    const uint8_t *wanted, size_t, uint8_t *scratch, size_t, const uint32_t *polls, size_t, const uint32_t *addresses,
                    size_t, uint8_t *room, size_t);
tb_ran c_held_load(tb_device, tb_state, uint8_t rp, uint8_t wp, uint32_t vpp, uint8_t block, uint8_t verify, uint8_t letter,
                   const uint8_t *file, size_t, uint8_t *array, size_t, uint8_t *wanted, size_t, uint8_t *scratch, size_t,
                   const uint32_t *polls, size_t, const uint32_t *addresses, size_t, uint8_t *room, size_t);
tb_sized c_file_write(uint8_t letter, const uint8_t *payload, size_t, uint8_t *file, size_t);
tb_sized c_file_read(uint8_t letter, const uint8_t *file, size_t, uint8_t *payload, size_t);
uint16_t c_block_check(const uint8_t *block, size_t);
uint8_t c_table_judge(const uint8_t *payload, size_t);
tb_reading c_table_reading(const uint8_t *payload, size_t, int32_t microvolts);
tb_reading c_file_reading(uint8_t letter, const uint8_t *file, size_t, uint8_t *room, size_t,
                        int32_t microvolts);
tb_sized c_store_find(uint8_t part, uint8_t word, uint8_t letter, const uint8_t *array, size_t, uint8_t *room, size_t);
tb_reading c_store_read(uint8_t part, uint8_t word, uint8_t letter, const uint8_t *array, size_t, uint8_t *room, size_t,
                        int32_t microvolts);
tb_ran c_store_drop(tb_device, tb_state, uint8_t rp, uint8_t wp, uint32_t vpp, uint8_t letter, uint8_t *array, size_t, uint8_t *memory,
                    size_t, uint8_t *scratch, size_t);
tb_ran c_store_add(tb_device, tb_state, uint8_t rp, uint8_t wp, uint32_t vpp, uint8_t letter, const uint8_t *file, size_t, uint8_t *array,
                   size_t, uint8_t *memory, size_t, uint8_t *scratch, size_t);
size_t c_words(uint8_t number, uint8_t *out, size_t);
uint8_t c_knot_pack(size_t place, int32_t microvolts, int32_t tenths, uint8_t *payload, size_t);
tb_knot c_knot_unpack(size_t place, const uint8_t *payload, size_t);
uint32_t c_version(void);
tb_reported c_wear_add(uint8_t part, tb_report, uint8_t from, tb_wear);
tb_reported c_wear_report(uint8_t part, const uint8_t *parts, size_t, const uint32_t *counts, size_t);

#endif
