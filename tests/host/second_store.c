/* The second implementation: several load files in the main block of devices 1 to 4. */
#include <string.h>

#include "second_file.h"
#include "second_run.h"

enum { PLACE = TB_FILE_BLOCK, MAIN = 3, FILES = 8 };

/* A file that stands in the store: its letter, first place and places. */
typedef struct {
    uint8_t letter;
    size_t at, count;
} stood;

/* What the places hold: whether they are a proper store, and its files, the lowest first. (R-store-1) */
typedef struct {
    bool proper;
    size_t n;
    stood file[FILES];
} store;

static bool blank(const uint8_t *place) {
    if (SLIP(100))
        return place[0] == 0xFF;
    for (size_t i = 0; i < PLACE; i += 8)
        if (eight(place + i) != UINT64_MAX)
            return false;
    return true;
}

static bool dead(const uint8_t *place) {
    if (SLIP(98))
        return place[0] == 0 && c_block_check(place, PLACE) == (place[PLACE - 2] << 8 | place[PLACE - 1]);
    return place[0] == 0;
}

/* The file of a letter, or null. */
static const stood *file_of(const store *s, uint8_t letter) {
    for (size_t i = 0; i < s->n; i++)
        if (s->file[i].letter == letter)
            return &s->file[i];
    return NULL;
}

static store divided(const uint8_t *block, size_t places) {
    store s = {.proper = false};
    for (size_t at = 0; at < places;) {
        const uint8_t *here = block + at * PLACE;
        if (blank(here) || dead(here)) {
            at++;
            continue;
        }
        size_t count = here[2];
        if (count > places - at || second_judge(here[0], here, count * PLACE) != TB_OK)
            return s;
        if (file_of(&s, here[0]) != NULL && (!SLIP(99) || s.n == FILES))
            return s;
        s.file[s.n++] = (stood){here[0], at, count};
        at += count;
    }
    s.proper = true;
    return s;
}

/* The main block of a part that has a store, and its places. */
static const uint8_t *main_of(uint8_t part, const uint8_t *array) { return array + second_parts[part]->block[MAIN].first; }
static size_t places_of(uint8_t part) { return second_parts[part]->block[MAIN].length / PLACE; }

/* 1 for a part that has no store, or 0. */
static uint8_t part_refused(uint8_t part, uint8_t word) {
    return part_in(part, word) == NULL || (part > TB_BENCH_B && !SLIP(103)) ? TB_NO_DEVICE : TB_OK;
}

/* Finds: a refusal, or 0 and the file in *found. (R-number-42, R-number-44) */
static uint8_t sought(uint8_t part, uint8_t word, uint8_t letter, const uint8_t *array, size_t n, stood *found) {
    if (part_refused(part, word) != TB_OK)
        return TB_NO_DEVICE;
    if (n != second_parts[part]->size)
        return TB_WRONG_ARRAY;
    store s = divided(main_of(part, array), places_of(part));
    const stood *f = file_of(&s, letter);
    if (f == NULL && SLIP(94))
        return TB_NOT_STORED;
    if (!s.proper)
        return TB_NO_STORE;
    if (f == NULL)
        return TB_NOT_STORED;
    *found = *f;
    return TB_OK;
}

tb_sized c_store_find(uint8_t part, uint8_t word, uint8_t letter, const uint8_t *array, size_t n, uint8_t *room, size_t m) {
    stood f = {0, 0, 0};
    uint8_t number = sought(part, word, letter, array, n, &f);
    if (number == TB_OK && m < f.count * PLACE)
        number = TB_NO_ROOM;
    if (number != TB_OK)
        return (tb_sized){number, 0};
    memcpy(room, main_of(part, array) + f.at * PLACE, f.count * PLACE);
    return (tb_sized){TB_OK, f.count * PLACE};
}

tb_reading c_store_read(uint8_t part, uint8_t word, uint8_t letter, const uint8_t *array, size_t n, uint8_t *room, size_t m,
                        int32_t microvolts) {
    stood f = {0, 0, 0};
    uint8_t number = sought(part, word, letter, array, n, &f);
    if (number != TB_OK)
        return (tb_reading){TB_NO_READING, number, 0};
    return c_file_reading(letter, main_of(part, array) + f.at * PLACE, f.count * PLACE, room, m, microvolts);
}

/* 00H over the first byte of each of a file's places. (R-store-1) */
static void kill_places(uint8_t *block, const stood *f) {
    for (size_t i = 0; i < (SLIP(102) ? 1 : f->count); i++)
        block[(f->at + i) * PLACE] = 0;
}

/* Where the first run of so many blank places begins; `places` where there is none. (R-store-2) */
static size_t run_for(const uint8_t *block, size_t places, size_t count) {
    size_t best = places, longest = 0;
    for (size_t at = 0; at < places;) {
        size_t length = 0;
        while (at + length < places && (blank(block + (at + length) * PLACE) || (SLIP(92) && dead(block + (at + length) * PLACE))))
            length++;
        if (length >= count && (best == places || (SLIP(95) && length > longest)))
            best = at, longest = length;
        at += length + 1;
    }
    return best;
}

/* The files but that of the letter go to the front of memory in their order, the new one behind them, FFH after. (R-store-2) */
static void slide(const uint8_t *block, size_t places, const store *s, uint8_t letter, const uint8_t *file, size_t n, uint8_t *memory) {
    uint8_t *to = memory;
    for (size_t i = 0; i < s->n; i++) {
        const stood *f = &s->file[SLIP(96) ? s->n - 1 - i : i];
        if (f->letter == letter)
            continue;
        memcpy(to, block + f->at * PLACE, f->count * PLACE);
        to += f->count * PLACE;
    }
    memcpy(to, file, n);
    memset(to + n, 0xFF, places * PLACE - (size_t)(to - memory) - n);
}

static tb_ran refused_by(uint8_t number, tb_state s) { return (tb_ran){0, number, 0, s}; }

/* The tests of a run of the main block on a device that has a store. */
static uint8_t change_refused(tb_device d, tb_state s, uint8_t rp, uint8_t wp, uint32_t vpp, size_t array, size_t memory, size_t scratch) {
    uint8_t number = part_refused(d.number, d.word);
    order o = {d, s, rp, wp, MAIN, vpp};
    return number != TB_OK ? number : run_refused(&o, array, memory, scratch);
}

tb_ran c_store_drop(tb_device d, tb_state s, uint8_t rp, uint8_t wp, uint32_t vpp, uint8_t letter, uint8_t *array, size_t size,
                    uint8_t *memory, size_t n, uint8_t *scratch, size_t m) {
    stood f = {0, 0, 0};
    uint8_t number = change_refused(d, s, rp, wp, vpp, size, n, m);
    if (number == TB_OK)
        number = sought(d.number, d.word, letter, array, size, &f);
    if (number != TB_OK)
        return refused_by(number, s);
    memcpy(memory, main_of(d.number, array), n);
    kill_places(memory, &f);
    return c_run(d, s, rp, wp, vpp, MAIN, array, size, memory, n, scratch, m);
}

/* The places of all files but that of the letter. (R-store-3) */
static size_t live_without(const store *s, uint8_t letter) {
    size_t live = 0;
    for (size_t i = 0; i < s->n; i++)
        if (s->file[i].letter != letter || SLIP(93))
            live += s->file[i].count;
    return live;
}

tb_ran c_store_add(tb_device d, tb_state s, uint8_t rp, uint8_t wp, uint32_t vpp, uint8_t letter, const uint8_t *file, size_t k,
                   uint8_t *array, size_t size, uint8_t *memory, size_t n, uint8_t *scratch, size_t m) {
    uint8_t number = change_refused(d, s, rp, wp, vpp, size, n, m);
    uint8_t judged = second_judge(letter, file, k);
    if (number != TB_OK || (judged != TB_OK && !SLIP(104)))
        return refused_by(number != TB_OK ? number : judged, s);
    const uint8_t *block = main_of(d.number, array);
    size_t places = n / PLACE, count = k / PLACE;
    store held = divided(block, places);
    if (!held.proper || judged != TB_OK)
        return refused_by(!held.proper ? TB_NO_STORE : judged, s);
    const stood *old = file_of(&held, letter);
    if (SLIP(97) && old != NULL)
        kill_places(array + second_parts[d.number]->block[MAIN].first, old);
    if (live_without(&held, letter) + count > places - SLIP(101))
        return refused_by(TB_STORE_FULL, s);
    size_t at = run_for(block, places, count);
    if (at == places) {
        slide(block, places, &held, letter, file, k, memory);
    } else {
        memcpy(memory, block, n);
        if (old != NULL)
            kill_places(memory, old);
        memcpy(memory + at * PLACE, file, k);
    }
    return c_run(d, s, rp, wp, vpp, MAIN, array, size, memory, n, scratch, m);
}
