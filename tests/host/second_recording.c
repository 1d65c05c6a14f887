/* The second implementation: a recording checked, record after record. A record's own busy count stands for P and E, so the device that its
 * cycle is made on has the longest times, and what the cycle started is then given the count. */
#include "second_cycle.h"

enum { LONGEST = TB_BUSY_MOST };

static uint8_t refused(const part_rules *p, const tb_device *d, const tb_state *s, size_t array) {
    if (p == NULL)
        return TB_NO_DEVICE;
    if (array != p->size)
        return TB_WRONG_ARRAY;
    if (!proper(p, d, s))
        return TB_IMPROPER;
    return s->phase != TB_FREE && !(SLIP(83) && !pending(s->phase)) ? TB_UNDER_WAY : TB_OK;
}

/* Refused 4 or 5, or a cut: RP# or VPP falls while there is an operation. */
LAID_IN bool barred(const second_chip *c, const tb_state *s, const tb_bus *b) {
    if (ordinary(c->part, c->device->word, b))
        return pending(s->phase) && vpp_low(c->part, b->vpp_mv);
    if (levels_bad(c->part, b) || (pending(s->phase) && (b->rp == TB_RP_LOW || vpp_low(c->part, b->vpp_mv))))
        return true;
    return b->address >= c->part->size >> c->device->word && b->kind != TB_CYCLE_IDLE && b->rp != TB_RP_LOW;
}

/* Whether it was seen so that a cycle answers data, or none. (R-recording-1) */
LAID_IN bool seen_so(const tb_record *r) {
    bool data = r->bus.kind == TB_CYCLE_READ && r->bus.rp != TB_RP_LOW;
    return (SLIP(85) && r->seen > TB_DATA ? TB_DATA : r->seen) == (data ? TB_DATA : TB_NO_DATA);
}

/* A busy count that is none, at a cycle that starts an operation. Whether it does is tried on a copy. (R-recording-1) */
APART bool miscounted(const second_chip *c, tb_state s, const tb_record *r) {
    uint16_t value;
    bool ends, awaited = s.phase == TB_ERASE_AWAITED || s.phase == TB_DATA_AWAITED;
    if (!awaited || r->bus.rp == TB_RP_LOW)
        return false;
    worked_out(c, c->device->word, &s, &r->bus, &value, &ends);
    return pending(s.phase) || (SLIP(87) && r->bus.kind == TB_CYCLE_WRITE);
}

/* Only for slip 84: a suspended erase is cut. */
static bool cut_all_the_same(const second_chip *c, tb_state *s, const tb_record *r) {
    static const uint8_t residue[TB_BLOCK_MOST];
    tb_answer a = c_cycle(*c->device, *s, r->bus, c->array, c->part->size, residue, sizeof residue);
    *s = a.state;
    return a.seen == r->seen && (a.seen == TB_NO_DATA || a.value == r->value);
}

/* The state after a record, and whether it passed. A fault leaves array and state as they were: what is stored is stored last, and no fault
 * is found behind the counts of erases. */
LAID_IN bool passed_by(const second_chip *c, tb_state *s, const tb_record *r) {
    bool word = c->device->word, ends = false, counted = SLIP(88) ? (uint16_t)r->busy != 0 : r->busy - 1 < LONGEST;
    if (SLIP(84) && s->phase == TB_SUSPENDED && barred(c, s, &r->bus))
        return cut_all_the_same(c, s, r);
    if (!seen_so(r) || barred(c, s, &r->bus) || (!counted && miscounted(c, *s, r)))
        return false;
    if (r->bus.rp == TB_RP_LOW) {
        reset(s);
        return true;
    }
    uint64_t front = front_of(s);
    operation o = operation_of(s);
    uint16_t value = r->value;
    uint8_t number = worked_out(c, word, s, &r->bus, &value, &ends);
    bool good = number == TB_OK && value == r->value;
    if (ends && (good || SLIP(89)))
        finish(c, word, o);
    if (!good) {
        memcpy(s, &front, sizeof front);
        s->address = o.address;
    } else if (!pending(o.phase) && pending(s->phase) && !SLIP(86))
        s->left = (uint16_t)r->busy;
    return good;
}

tb_checked c_recording(tb_device d, tb_state s, const tb_record *list, size_t count, const uint8_t *promised, size_t m, uint8_t *array,
                       size_t n) {
    const part_rules *p = device_part(&d);
    uint8_t number = refused(p, &d, &s, n);
    size_t at = 0;
    if (number != TB_OK)
        return (tb_checked){number, 0, 0, s};
    if (!SLIP(86))
        d.program = d.erase = LONGEST;
    second_chip c = {p, &d, array};
    while (at < count && passed_by(&c, &s, &list[at]))
        at++;
    bool idle = SLIP(90) ? !pending(s.phase) : s.phase == TB_FREE;
    bool same = (m == n || (SLIP(91) && m < n)) && (m == 0 || memcmp(promised, array, m) == 0);
    return (tb_checked){TB_OK, at == count && idle && same, at, s};
}
