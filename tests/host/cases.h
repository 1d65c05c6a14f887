/* What the random cases share: numbers from a seed, buffers kept twice, and the account of what was met. */
#ifndef CASES_H
#define CASES_H

#include "second.h"

/* Random numbers. */
void seed_with(uint64_t seed);
uint32_t any32(void);
uint32_t below(uint32_t n);               /* 0 to n-1 */
bool chance(uint32_t percent);
uint32_t one_of(const uint32_t *, size_t); /* an element */
#define ONE_OF(...) one_of((const uint32_t[]){__VA_ARGS__}, sizeof((const uint32_t[]){__VA_ARGS__}) / sizeof(uint32_t))

/* A buffer kept twice: `lib` is lent to the library, `ref` to the second implementation. Guard bytes stand on both sides. */
typedef struct {
    const char *name;
    uint8_t *lib, *ref;
    size_t room, length; /* what it can hold, and what is lent of it */
} twin;
void twin_new(twin *, const char *name, size_t room);           /* once; later calls do nothing */
void twin_noise(twin *, size_t from, size_t n);                 /* random bytes, the same in both */
void twin_fill(twin *, size_t from, size_t n, uint8_t byte);
void twin_set(twin *, size_t at, uint8_t byte);
void twin_copy(twin *, size_t at, const uint8_t *bytes, size_t n);
void third_new(twin *, const twin *of);                         /* a third copy as `lib`; the first, `lib` of the other, as `ref` */
uint8_t *lib_of(twin *); /* what is handed over: sometimes null where the length is 0 */
uint8_t *ref_of(twin *);

/* The account. A call is compared by its answer and by every byte that it was lent. */
enum {
    IN_CYCLE, IN_TABLE_CYCLE, IN_RECORDING, IN_START, IN_STEP, IN_RUN, IN_LOAD_RUN, IN_VERIFY_RUN, IN_LOAD, IN_VERIFY_FILE,
    IN_HELD_START, IN_HELD_STEP, IN_HELD_RUN, IN_HELD_LOAD,
    IN_WRITE, IN_READ, IN_TABLE, IN_READING, IN_WEAR_ADD, IN_WEAR_REPORT, IN_STORE_FIND, IN_STORE_READ, IN_STORE_DROP, IN_STORE_ADD,
    IN_WORDS, IN_KNOT, GROUPS
};
enum { ON_DEVICES = IN_HELD_LOAD + 1 }; /* the groups before this are about a device */
void met(int group, uint8_t number);
void met_on(int group, uint8_t part, uint8_t word, uint8_t number, bool refused); /* of a call about a device */
void met_phase(uint8_t phase, bool word);
void met_stage(uint8_t stage, bool word);
void met_vpp(uint32_t vpp);                        /* on devices 5 to 8 */
void met_erase(bool in_run, tb_device, int block); /* one that was counted */

/* What else must be met; account.c has their names. */
enum {
    CUT_WORD, CUT_ERASE, BAND_CHANGE, TEN, HIGH_COMMAND, HIGH_DATA, BYTE_HIGH_DATA, CODE_BY_WORD, CODE_BY_BYTE,
    UNLOCKED_BY_WP, LOCKED_BY_WP, WP_REFUSED, WP_IGNORED, NO_MODE, NO_WORDS, ODD_ARRAY, ODD_RESIDUE, ODD_WANTED, ODD_SCRATCH,
    LOADED_AT_5V, LOADED_AT_12V, BOOT_LOADED_BY_WP, LOW_DIFFERS, HIGH_DIFFERS,
    COUNT_TO_STOP, COUNT_AT_STOP, COUNT_ELSEWHERE, KEPT_BARRED, KEPT_BY_SR3, KEPT_LOCKED, KEPT_OTHER_SECOND, KEPT_ASKED, KEPT_RESUMED,
    KEPT_SUSPENDED, KEPT_CUT, KEPT_HELD_CUT, KEPT_ENDED, KEPT_RESET, KEPT_RESET_CUT, KEPT_PROGRAM, KEPT_REFUSED, KEPT_PLACES,
    LOAD_AT_STOP, LOAD_NOT_COUNTED, LOAD_BARRED, VERIFY_NOT_COUNTED, RUN_REFUSED_KEPT,
    TRACES_NONE, TRACES_MOST, TRACES_OVER, TRACES_TURNED, ONE_HUNDRED_THOUSAND, TOTAL_OVER_32_BITS, TOTAL_STOPPED, PASSED_STOPPED,
    OTHER_FIRST, OTHER_LAST, FROM_UNKNOWN,
    ACCEPTED, ACCEPTED_EMPTY, ACCEPTED_ERASE, ACCEPTED_SUSPENDED, FAULT_FIRST, FAULT_LAST, FAULT_IN_END, FAULT_CUT, FAULT_HELD_CUT,
    FAULT_COUNT, FAULT_COUNT_WRAPS, FAULT_SEEN, FAULT_AWAITING, FAULT_PROMISED, FAULT_PROMISED_LENGTH, COUNT_UNREAD,
    STORE_SLID, STORE_SLID_REPLACED, STORE_REPLACED, STORE_FULL_REPLACED, STORE_FULL_LONG, STORE_ON_BR, STORE_NO_LETTER, STORE_NO_WORDS,
    HELD_USUAL, HELD_HALTING, HELD_LOOKING, HELD_SETTLING, HELD_TURNING, HELD_FETCHING, HELD_RESUMING, /* by TB_USUAL to TB_RESUMING */
    HELD_MADE, HELD_WORDS, HELD_NO_READS, HELD_ALL_READS, HELD_NEVER, HELD_NO_ERASE, MARKS
};
void mark_if(bool seen, int which);

void count_block(void); /* of a part */
void count_cycle(void);
void count_table_cycle(void);
void count_load(void);
void count_file(void);
void count_step(void);
void count_reading(void);
void count_report(void);
void count_recording(void);
void count_store(void); /* a call on one */
void count_held(void);
void count_held_step(void);
void count_knot(void);
void untouched(bool refused, const char *what, twin **, size_t); /* between the two calls: a refusal changed nothing */
void alike(bool answers, const char *what, twin **, size_t);     /* after both calls */
_Noreturn void mismatch(const char *what);
extern void (*tell_case)(void); /* prints the case at hand */
int closing(uint64_t seed, bool verbose);

/* Cases. */
enum { EDGES = 12 };
extern const uint32_t vpp_edges[EDGES]; /* of devices 5 to 8, and of 1 to 4 */
tb_device some_device(void);
uint8_t some_part(void);
uint8_t some_mode(uint8_t part);
uint8_t real_part(uint8_t part);                  /* the part, or bench T where there is none of that number */
bool real_mode(uint8_t part, uint8_t word);       /* whether that is a device in word mode */
bool two_widths(uint8_t part);                    /* 5 to 8 */
uint32_t some_vpp(uint8_t part, uint32_t rough);
uint8_t some_wp(uint8_t part, uint32_t rough);
uint8_t some_block(uint8_t part);                 /* one that the part has */
uint32_t some_address(uint8_t part, uint8_t word); /* in units */
uint32_t some_count(void); /* of erases: often at the stop, at the sheet's 100,000, or near them */
tb_wear some_wear(void);
tb_state some_state(tb_device);
bool any_wear(tb_wear);                        /* a count that is not 0 */
int changed_at(tb_wear before, tb_wear after); /* the first place at which they differ, or -1 */
void keeps_places(const char *what, uint8_t part, tb_wear before, tb_wear after); /* where the part has no block */
void cards(void);
void parts(void);
void stack(bool verbose);
void cycles(uint32_t walks, uint32_t scattered);
void loads(uint32_t n);
void files(uint32_t n);
void readings(uint32_t n);
void every_word(void); /* of every number in every room, and the version */
void knots(uint32_t n);
void wears(uint32_t n);
void recordings(uint32_t n);
void stores(uint32_t n);
void helds(uint32_t runs, uint32_t walks, uint32_t forged);
void wears_long(void); /* 65,535 traces and one more */
void steps(uint32_t fed, uint32_t fed_long, uint32_t forged);
void endless(void); /* polls that never get ready */

/* For telling. */
void tell_device(tb_device);
void tell_state(const char *, tb_state);
void tell_bus(tb_bus);
bool same_wear(tb_wear, tb_wear);
bool same_state(tb_state, tb_state);
bool same_bus(tb_bus, tb_bus);

#endif
