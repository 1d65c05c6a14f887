/* The second implementation: the loader a step at a time. Places and the block's first address count units, n is its bytes. `word` and
 * `first` are handed on beside the record: a store into scratch might be one into the record for all that the compiler knows. (R-load-7) */
#include "second_load.h"

/* Every stage begins without polls. */
static inline void to(tb_loader *l, uint8_t stage, size_t place) {
    l->stage = stage;
    l->place = place;
    if (!SLIP(4))
        l->polls = 0;
}

static inline void end(tb_loader *l, uint8_t number) {
    l->stage = TB_ENDED;
    l->end = number;
    l->polls = 0;
}

/* The end, and for 25 the byte address. */
static inline tb_turn over(const tb_loader *l, bool word, uint32_t first) {
    uint32_t at = (SLIP(26) ? 0 : first) + (uint32_t)l->place;
    return (tb_turn){.turn = TB_OVER, .number = l->end, .address = l->end == TB_VERIFY_FAILED ? told(at, word, l->high) : 0};
}

/* What the record has out: a cycle or the end. */
static inline tb_turn out(const tb_loader *l, bool word, uint32_t first, const uint8_t *wanted) {
    uint32_t here = first + (uint32_t)l->place;
    tb_bus c = {.kind = TB_CYCLE_WRITE, .rp = l->rp, .wp = SLIP(50) ? 0 : l->wp, .vpp_mv = l->vpp_mv, .address = first};
    switch (l->stage) {
    case TB_CLEARING: c.data = 0x50; break;
    case TB_OPENING:
    case TB_CLOSING: c.data = 0xFF; break;
    case TB_ERASE_ASKING: c.data = 0x20; break;
    case TB_ERASE_CONFIRMING: c.data = 0xD0; break;
    case TB_ERASE_WAITING: c.kind = TB_CYCLE_READ; break;
    case TB_PROGRAM_ASKING: c.data = 0x40, c.address = here; break;
    case TB_PROGRAM_SENDING: c.data = unit_of(wanted, l->place, word), c.address = here; break;
    case TB_READING:
    case TB_PROGRAM_WAITING:
    case TB_VERIFYING: c.kind = TB_CYCLE_READ, c.address = here; break;
    default: return over(l, word, first);
    }
    return (tb_turn){.turn = TB_CYCLE_OUT, .cycle = c};
}

static inline void next_program(tb_loader *l, bool word, size_t from, const uint8_t *wanted, const uint8_t *scratch, size_t n) {
    size_t at = unit_differs(from, word, wanted, scratch, n);
    if (at < n >> word)
        to(l, TB_PROGRAM_ASKING, at);
    else if (l->verify || SLIP(25))
        to(l, TB_CLOSING, 0);
    else {
        l->place = 0;
        end(l, TB_OK);
    }
}

static inline void read_unit(tb_loader *l, bool word, uint16_t unit, const uint8_t *wanted, uint8_t *scratch, size_t n) {
    put_unit(scratch, l->place, unit, word);
    if (l->place + 1 < n >> word)
        to(l, TB_READING, l->place + 1);
    else if (must_erase(wanted, scratch, n))
        to(l, TB_ERASE_ASKING, 0);
    else
        next_program(l, word, 0, wanted, scratch, n);
}

static inline void polled(tb_loader *l, bool word, uint8_t status, const uint8_t *wanted, uint8_t *scratch, size_t n) {
    bool erase = l->stage == TB_ERASE_WAITING;
    if (!(status & TB_SR_READY)) {
        if (++l->polls >= POLLS_MOST)
            end(l, TB_NEVER_READY);
        return;
    }
    uint8_t number = status_judged(status, erase);
    if (number != TB_OK) {
        end(l, number);
        return;
    }
    if (erase)
        memset(scratch, 0xFF, n);
    else
        put_unit(scratch, l->place, unit_of(wanted, l->place, word), word);
    next_program(l, word, erase ? 0 : l->place + 1, wanted, scratch, n);
}

static inline void verified(tb_loader *l, bool word, uint16_t unit, const uint8_t *wanted, uint8_t *scratch, size_t n) {
    uint16_t want = unit_of(wanted, l->place, word);
    put_unit(scratch, l->place, unit, word);
    if (unlike(unit, want)) {
        end(l, TB_VERIFY_FAILED);
        l->high = word && high_differs(unit, want);
    } else if (l->place + 1 < (n >> word) - (SLIP(24) ? 1 : 0))
        to(l, TB_VERIFYING, l->place + 1);
    else
        end(l, TB_OK);
}

/* Of what was read byte mode has the low 8 bits, and a status in either mode. */
static inline void moved(tb_loader *l, bool word, uint16_t value, const uint8_t *wanted, uint8_t *scratch, size_t n) {
    uint16_t unit = word ? value : value & 0xFF;
    if (l->stage != TB_ENDED)
        l->high = 0;
    switch (l->stage) {
    case TB_CLEARING: to(l, TB_OPENING, 0); break;
    case TB_OPENING: to(l, TB_READING, 0); break;
    case TB_READING: read_unit(l, word, unit, wanted, scratch, n); break;
    case TB_ERASE_ASKING: to(l, TB_ERASE_CONFIRMING, 0); break;
    case TB_ERASE_CONFIRMING: to(l, TB_ERASE_WAITING, 0); break;
    case TB_PROGRAM_ASKING: to(l, TB_PROGRAM_SENDING, l->place); break;
    case TB_PROGRAM_SENDING:
        if (SLIP(22))
            put_unit(scratch, l->place, unit_of(wanted, l->place, word), word);
        to(l, TB_PROGRAM_WAITING, l->place);
        break;
    case TB_ERASE_WAITING:
    case TB_PROGRAM_WAITING: polled(l, word, (uint8_t)value, wanted, scratch, n); break;
    case TB_CLOSING: to(l, TB_VERIFYING, 0); break;
    case TB_VERIFYING: verified(l, word, unit, wanted, scratch, n); break;
    } /* an end stays */
}

/* A start: the record at its first stage, and whether the verify is part of what it does. With a mode that is none the record is of
 * no part, 0. */
static inline tb_given started(uint8_t part, uint8_t word, uint8_t rp, uint8_t wp, uint32_t vpp, uint8_t block, uint8_t stage,
                               uint8_t verify, const uint8_t *wanted, size_t n, size_t m) {
    bool mode = word <= TB_WORD_MODE;
    tb_given g = {.loader = {.part = mode ? part : 0, .word = mode ? word : 0, .rp = rp, .wp = wp, .block = block, .stage = stage,
                             .verify = verify, .vpp_mv = vpp}};
    const part_rules *p = part_in(part, word);
    uint8_t number = part_in(part, word) != NULL ? unfit(p, &g.loader, n, m) : TB_NO_DEVICE;
    if (number == TB_OK) {
        g.turn = out(&g.loader, word, first_of(p, &g.loader), wanted);
        return g;
    }
    g.turn = (tb_turn){.turn = TB_BARRED, .number = number};
    end(&g.loader, number);
    return g;
}

tb_given c_start(uint8_t part, uint8_t word, uint8_t rp, uint8_t wp, uint32_t vpp, uint8_t block, const uint8_t *wanted, size_t n,
                 const uint8_t *scratch, size_t m) {
    (void)scratch;
    return started(part, word, rp, wp, vpp, block, TB_CLEARING, 1, wanted, n, m);
}

tb_given c_load_start(uint8_t part, uint8_t word, uint8_t rp, uint8_t wp, uint32_t vpp, uint8_t block, const uint8_t *wanted, size_t n,
                      const uint8_t *scratch, size_t m) {
    (void)scratch;
    return started(part, word, rp, wp, vpp, block, TB_CLEARING, 0, wanted, n, m);
}

tb_given c_verify_start(uint8_t part, uint8_t word, uint8_t rp, uint8_t wp, uint32_t vpp, uint8_t block, const uint8_t *wanted, size_t n,
                        const uint8_t *scratch, size_t m) {
    (void)scratch;
    return started(part, word, rp, wp, vpp, block, TB_CLOSING, 1, wanted, n, m);
}

tb_turn c_step(tb_loader *l, uint16_t value, const uint8_t *wanted, size_t n, uint8_t *scratch, size_t m) {
    if (part_in(l->part, l->word) == NULL)
        return (tb_turn){.turn = TB_BARRED, .number = TB_NO_DEVICE};
    const part_rules *p = second_parts[l->part];
    uint8_t number = record_bad(p, l) ? TB_IMPROPER : unfit(p, l, n, m);
    if (number != TB_OK)
        return (tb_turn){.turn = TB_BARRED, .number = number};
    bool word = l->word;
    uint32_t first = first_of(p, l);
    moved(l, word, value, wanted, scratch, n);
    return out(l, word, first, wanted);
}
