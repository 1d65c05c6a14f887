/* The second implementation: a load whose erase is interrupted for reads from other blocks, run and a step at a time. The usual cycles of a
 * step are those of c_step. A run's stages are those of second_run.h, but for the erase, whose cycles are made one by one;
 * c_held_quick does the erase at once too, and is what the bench measures by. */
#include "second_file.h"
#include "second_run.h"

enum { READS_MOST = TB_HELD_MOST };

/* What is handed over for the interruptions. */
typedef struct {
    const uint32_t *polls;
    size_t polls_length;
    const uint32_t *addresses;
    size_t count;
    uint8_t *room;
    size_t room_length;
} lists;

static bool listed(const lists *h, uint32_t number) {
    for (size_t i = 0; i < h->polls_length; i++)
        if (h->polls[i] == number)
            return true;
    return false;
}

/* The lowest listed number from that one on; past all numbers where there is none. */
static uint64_t listed_from(const lists *h, uint64_t from) {
    uint64_t next = UINT64_MAX;
    for (size_t i = 0; i < h->polls_length; i++)
        if (h->polls[i] >= from && h->polls[i] < next)
            next = h->polls[i];
    return next;
}

/* 5, 45, 46, 37: each over the addresses from `from` to `to` before the next. (R-held-3) */
static uint8_t lists_bad(const part_rules *p, uint8_t block, bool word, const lists *h, size_t from, size_t to) {
    for (size_t i = from; i < to; i++)
        if ((uint64_t)h->addresses[i] << word >= p->size)
            return TB_PAST_ARRAY;
    for (size_t i = from; i < to && !SLIP(110); i++)
        if (holds(p, block, h->addresses[i] << word))
            return TB_OWN_BLOCK;
    if (h->count > READS_MOST)
        return TB_TOO_MANY_READS;
    return h->room_length < (h->count << (SLIP(111) ? 0 : word)) ? TB_NO_ROOM : TB_OK;
}

/* One cycle of the erase at the block's first address. None is refused or cut. */
static inline uint16_t made(bench *b, const tb_bus *bus) {
    operation o = operation_of(&b->state);
    bool word = b->chip.device->word, ends;
    uint16_t unit = 0;
    worked_out(&b->chip, word, &b->state, bus, &unit, &ends);
    if (ends)
        finish(&b->chip, word, o);
    b->count++;
    return unit;
}

/* The erase's own levels and address, with nothing to read or write yet. */
static void give(bench *b, tb_bus at, uint16_t data) {
    at.kind = TB_CYCLE_WRITE;
    at.data = data;
    made(b, &at);
}

static uint16_t take(bench *b, tb_bus at) { return made(b, &at); }

/* Polls until the chip is ready: its status, or 0 after so many. */
static uint8_t ready(bench *b, tb_bus at) {
    for (uint32_t i = 0; i < POLLS_MOST; i++) {
        uint8_t status = (uint8_t)take(b, at);
        if (status & TB_SR_READY)
            return status;
    }
    return 0;
}

/* An interruption: the number that ends the load, and whether the erase goes on. (R-held-1) */
static uint8_t interrupted(bench *b, tb_bus at, const lists *h, bool *on) {
    bool word = b->chip.device->word;
    give(b, at, 0xB0);
    if (!SLIP(112))
        give(b, at, 0x70);
    uint8_t status = ready(b, at), number = status == 0 ? TB_NEVER_READY : status_judged(status, true);
    if (number != TB_OK)
        return number;
    give(b, at, 0xFF);
    for (size_t i = 0; i < h->count; i++) /* reads of other blocks: each gives its unit and changes nothing */
        put_unit(h->room, i, unit_of(b->chip.array, h->addresses[i], word), word);
    b->count += h->count;
    *on = status & TB_SR_SUSPENDED;
    if (*on || SLIP(113))
        give(b, at, 0xD0);
    return TB_OK;
}

/* Polls with numbers, from 1 on. What is listed next is looked up once for each interruption. (R-held-1) */
static uint8_t erase_waited(bench *b, tb_bus at, const lists *h) {
    uint32_t waited = 0;
    uint64_t next = listed_from(h, SLIP(114) ? 0 : 1);
    for (uint64_t number = SLIP(114) ? 0 : 1;; number++) {
        if (number == next) {
            bool on = true;
            uint8_t end = interrupted(b, at, h, &on);
            if (end != TB_OK || !on)
                return end;
            waited = 0;
            if (SLIP(116))
                number = 0;
            next = listed_from(h, number + 1);
            continue;
        }
        uint8_t status = (uint8_t)take(b, at);
        if (status & TB_SR_READY)
            return status_judged(status, true);
        if (++waited == POLLS_MOST)
            return TB_NEVER_READY;
    }
}

static uint8_t loaded(bench *b, const order *o, const lists *h) {
    bool word = o->device.word;
    open_block(b, word);
    if (must_erase(b->wanted, b->scratch, b->n)) {
        uint32_t first = b->chip.part->block[o->block].first >> word;
        tb_bus at = {.kind = TB_CYCLE_READ, .rp = o->rp, .wp = o->wp, .vpp_mv = o->vpp, .address = first};
        give(b, at, 0x20);
        give(b, at, 0xD0);
        uint8_t end = erase_waited(b, at, h);
        if (end != TB_OK)
            return end;
        memset(b->scratch, 0xFF, b->n);
    }
    return program_all(b, word);
}

/* The same at once: each listed poll adds its cycles, and the room is filled once. An interruption in the last poll's place leaves the chip
 * in read array. (R-held-2) */
static uint8_t loaded_at_once(bench *b, const order *o, const lists *h) {
    bool word = o->device.word;
    open_block(b, word);
    if (must_erase(b->wanted, b->scratch, b->n)) {
        uint8_t end = erase_all(b, o->block);
        if (end != TB_OK) {
            b->count += listed(h, 1) ? 2 : 0;
            return end;
        }
        uint64_t each = h->count + 3, waits = o->device.suspend > 2 ? o->device.suspend - 1u : 1, last = o->device.erase, met = 0;
        for (uint64_t next = listed_from(h, 1); next <= last; next = listed_from(h, next + 1)) {
            met = next;
            b->count += each + (next == last ? 0 : waits);
        }
        for (size_t i = 0; met != 0 && i < h->count; i++)
            put_unit(h->room, i, unit_of(b->chip.array, h->addresses[i], word), word);
        if (met == last)
            b->state.mode = TB_MODE_ARRAY;
    }
    return program_all(b, word);
}

typedef uint8_t load_way(bench *, const order *, const lists *);

static inline tb_ran ran(load_way *way, const order *o, bool verify, uint8_t *array, const uint8_t *wanted, uint8_t *scratch, size_t n,
                         const lists *h) {
    bench b = bench_of(o, array, wanted, scratch, n);
    uint32_t address = 0;
    uint8_t end = way(&b, o, h);
    if (end == TB_OK && verify)
        end = verify_all(&b, o->device.word, &address);
    return (tb_ran){b.count, end, address, b.state};
}

static inline tb_ran judged_and_ran(load_way *way, const order *o, bool verify, uint8_t *array, size_t size, const uint8_t *wanted, size_t n,
                                    uint8_t *scratch, size_t m, const lists *h) {
    uint8_t number = run_refused(o, size, n, m);
    if (number == TB_OK)
        number = lists_bad(second_parts[o->device.number], o->block, o->device.word, h, 0, h->count);
    return number != TB_OK ? (tb_ran){0, number, 0, o->state} : ran(way, o, verify, array, wanted, scratch, n, h);
}

tb_ran c_held_run(tb_device d, tb_state s, uint8_t rp, uint8_t wp, uint32_t vpp, uint8_t block, uint8_t verify, uint8_t *array, size_t size,
                  const uint8_t *wanted, size_t n, uint8_t *scratch, size_t m, const uint32_t *polls, size_t q, const uint32_t *addresses,
                  size_t k, uint8_t *room, size_t r) {
    order o = {d, s, rp, wp, block, vpp};
    lists h = {polls, q, addresses, k, room, r};
    return judged_and_ran(loaded, &o, verify, array, size, wanted, n, scratch, m, &h);
}

tb_ran c_held_quick(tb_device d, tb_state s, uint8_t rp, uint8_t wp, uint32_t vpp, uint8_t block, uint8_t verify, uint8_t *array,
                    size_t size, const uint8_t *wanted, size_t n, uint8_t *scratch, size_t m, const uint32_t *polls, size_t q,
                    const uint32_t *addresses, size_t k, uint8_t *room, size_t r) {
    order o = {d, s, rp, wp, block, vpp};
    lists h = {polls, q, addresses, k, room, r};
    return judged_and_ran(loaded_at_once, &o, verify, array, size, wanted, n, scratch, m, &h);
}

tb_ran c_held_load(tb_device d, tb_state s, uint8_t rp, uint8_t wp, uint32_t vpp, uint8_t block, uint8_t verify, uint8_t letter,
                   const uint8_t *file, size_t f, uint8_t *array, size_t size, uint8_t *wanted, size_t n, uint8_t *scratch, size_t m,
                   const uint32_t *polls, size_t q, const uint32_t *addresses, size_t k, uint8_t *room, size_t r) {
    order o = {d, s, rp, wp, block, vpp};
    lists h = {polls, q, addresses, k, room, r};
    uint8_t number = run_refused(&o, size, n, m);
    if (number == TB_OK)
        number = f > n ? TB_FILE_SIZE : second_judge(letter, file, f);
    if (number == TB_OK)
        number = lists_bad(second_parts[d.number], block, d.word, &h, 0, k);
    if (number != TB_OK)
        return (tb_ran){0, number, 0, s};
    memcpy(wanted, file, f);
    memset(wanted + f, 0xFF, n - f);
    return ran(loaded, &o, verify, array, wanted, scratch, n, &h);
}

/* A step at a time. */
static tb_turn barred(uint8_t number) { return (tb_turn){.turn = TB_BARRED, .number = number}; }

static tb_turn out_at(const tb_loader *l, uint8_t kind, uint32_t address, uint16_t data) {
    tb_bus c = {.kind = kind, .rp = l->rp, .wp = l->wp, .vpp_mv = l->vpp_mv, .address = address, .data = data};
    return (tb_turn){.turn = TB_CYCLE_OUT, .cycle = c};
}

/* The cycle of an interruption that is out. */
static tb_turn out_held(const tb_held *x, uint32_t first, const lists *h) {
    static const uint16_t written[] = {[TB_HALTING] = 0xB0, [TB_LOOKING] = 0x70, [TB_TURNING] = 0xFF, [TB_RESUMING] = 0xD0};
    uint8_t step = x->hold.step;
    if (step == TB_FETCHING)
        return out_at(&x->loader, TB_CYCLE_READ, h->addresses[x->hold.place], 0);
    return out_at(&x->loader, step == TB_SETTLING ? TB_CYCLE_READ : TB_CYCLE_WRITE, first, step == TB_SETTLING ? 0 : written[step]);
}

/* The next poll of the erase has its number, and an interruption comes in its place where that is listed. */
static void number_on(tb_held *x, const lists *h) {
    uint32_t was = x->hold.number;
    x->hold = (tb_hold){.number = was == UINT32_MAX ? was : was + 1};
    if (was != UINT32_MAX && listed(h, x->hold.number))
        x->hold.step = TB_HALTING;
}

static void hold_at(tb_held *x, uint8_t step) {
    x->hold = (tb_hold){.step = step, .suspended = x->hold.suspended, .number = x->hold.number};
}

static void ended(tb_held *x, uint8_t number) {
    x->loader.stage = TB_ENDED;
    x->loader.end = number;
    x->loader.polls = 0;
    x->hold = (tb_hold){.number = x->hold.number};
}

/* A poll of the suspend's own wait. */
static void settled(tb_held *x, uint8_t status) {
    uint32_t waits = x->hold.waits + 1;
    if (!(status & TB_SR_READY)) {
        if (waits == POLLS_MOST)
            ended(x, TB_NEVER_READY);
        else {
            hold_at(x, TB_SETTLING);
            x->hold.suspended = 0;
            x->hold.waits = waits;
        }
        return;
    }
    uint8_t number = status_judged(status, true);
    if (number != TB_OK) {
        ended(x, number);
        return;
    }
    hold_at(x, TB_TURNING);
    x->hold.suspended = (status & TB_SR_SUSPENDED) != 0;
}

/* The loader's own cycle: c_step, with the number of the poll that comes next. */
static tb_turn usual(tb_held *x, uint16_t value, const uint8_t *wanted, size_t n, uint8_t *scratch, const lists *h, uint32_t first) {
    tb_turn t = c_step(&x->loader, value, wanted, n, scratch, n);
    x->hold = (tb_hold){.number = x->hold.number};
    if (x->loader.stage == TB_ERASE_WAITING)
        number_on(x, h);
    return x->hold.step == TB_USUAL ? t : out_held(x, first, h);
}

/* After the reads: D0H, or what the loader makes of a ready poll. */
static tb_turn fetched(tb_held *x, size_t next, const uint8_t *wanted, size_t n, uint8_t *scratch, const lists *h, uint32_t first) {
    if (next < h->count) {
        hold_at(x, TB_FETCHING);
        x->hold.place = next;
    } else if (x->hold.suspended)
        hold_at(x, TB_RESUMING);
    else {
        x->hold = (tb_hold){.number = x->hold.number};
        return c_step(&x->loader, TB_SR_READY, wanted, n, scratch, n);
    }
    return out_held(x, first, h);
}

static tb_turn moved(tb_held *x, uint16_t value, const uint8_t *wanted, size_t n, uint8_t *scratch, const lists *h, uint32_t first) {
    switch (x->hold.step) {
    case TB_USUAL: return usual(x, value, wanted, n, scratch, h, first);
    case TB_HALTING: hold_at(x, TB_LOOKING); break;
    case TB_LOOKING: hold_at(x, TB_SETTLING); break;
    case TB_SETTLING: settled(x, (uint8_t)value); break;
    case TB_TURNING: return fetched(x, 0, wanted, n, scratch, h, first);
    case TB_FETCHING: {
        size_t place = x->hold.place;
        put_unit(h->room, place, x->loader.word ? value : value & 0xFF, x->loader.word);
        return fetched(x, place + 1, wanted, n, scratch, h, first);
    }
    case TB_RESUMING:
        x->loader.place = 0, x->loader.high = 0;
        if (!SLIP(115))
            x->loader.polls = 0;
        number_on(x, h);
        if (x->hold.step == TB_USUAL)
            return out_at(&x->loader, TB_CYCLE_READ, first, 0);
        break;
    }
    return x->loader.stage == TB_ENDED ? (tb_turn){.turn = TB_OVER, .number = x->loader.end} : out_held(x, first, h);
}

static bool hold_bad(const tb_held *x, size_t k) {
    const tb_hold *h = &x->hold;
    if (h->step > TB_RESUMING || h->suspended > 1 || h->waits >= POLLS_MOST)
        return true;
    return (h->step != TB_USUAL && x->loader.stage != TB_ERASE_WAITING) || (h->step == TB_FETCHING && h->place >= k);
}

/* The place of the one address that the next cycle reads; k where it reads none. */
static size_t read_next(const tb_hold *h, size_t k) {
    size_t place = h->step == TB_TURNING ? 0 : h->step == TB_FETCHING ? h->place + 1 : k;
    return place < k ? place : k;
}

tb_held_given c_held_start(uint8_t part, uint8_t word, uint8_t rp, uint8_t wp, uint32_t vpp, uint8_t block, uint8_t verify,
                           const uint8_t *wanted, size_t n, const uint8_t *scratch, size_t m, const uint32_t *addresses, size_t k,
                           const uint8_t *room, size_t r) {
    lists h = {NULL, 0, addresses, k, NULL, r};
    tb_given g = (verify ? c_start : c_load_start)(part, word, rp, wp, vpp, block, wanted, n, scratch, m);
    tb_held x = {.loader = g.loader};
    (void)room;
    if (g.turn.turn == TB_BARRED)
        return (tb_held_given){g.turn, x};
    uint8_t number = lists_bad(second_parts[part], block, word, &h, 0, k);
    if (number == TB_OK)
        return (tb_held_given){g.turn, x};
    ended(&x, number);
    return (tb_held_given){barred(number), x};
}

tb_held_given c_held_step(tb_held x, uint16_t value, const uint8_t *wanted, size_t n, uint8_t *scratch, size_t m, const uint32_t *polls,
                          size_t q, const uint32_t *addresses, size_t k, uint8_t *room, size_t r) {
    lists h = {polls, q, addresses, k, room, r};
    tb_held was = x;
    if (part_in(x.loader.part, x.loader.word) == NULL)
        return (tb_held_given){barred(TB_NO_DEVICE), was};
    const part_rules *p = second_parts[x.loader.part];
    uint8_t number = record_bad(p, &x.loader) || hold_bad(&x, k) ? TB_IMPROPER : unfit(p, &x.loader, n, m);
    size_t place = read_next(&x.hold, k);
    if (number == TB_OK)
        number = lists_bad(p, x.loader.block, x.loader.word, &h, place, place < k ? place + 1 : place);
    if (number != TB_OK)
        return (tb_held_given){barred(number), was};
    tb_turn t = moved(&x, value, wanted, n, scratch, &h, first_of(p, &x.loader));
    return (tb_held_given){t, x};
}
