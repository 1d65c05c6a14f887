/* The second implementation: a bus cycle, refusals 1 to 6 first. */
#include "second_cycle.h"

tb_state c_fresh(void) { return (tb_state){.mode = TB_MODE_ARRAY, .status = SR7}; }

/* Whether VPP cuts an operation. Slip 45 alone asks for the band in which it began. */
uint32_t second_begun_at;
LAID_IN bool cut_by_vpp(const part_rules *p, const tb_state *s, uint32_t vpp) {
    bool other = SLIP(45) && (vpp > TB_VPP_BR_5V_MOST_MV) != (second_begun_at > TB_VPP_BR_5V_MOST_MV);
    return pending(s->phase) && (vpp_low(p, vpp) || other) && !(SLIP(3) && s->phase < TB_SUSPENDED && s->left == 1);
}

/* What a cut needs, in bytes: a program's unit, or the erase's block. (R-number-6) */
LAID_IN size_t residue_needed(const second_chip *c, bool word, operation o) {
    if (o.phase == TB_PROGRAMMING)
        return SLIP(43) ? 1 : 1u << word;
    return c->part->block[unit_block(c, word, o.address)].length;
}

/* A cut program takes the first unit of the residue for r; a cut erase leaves the residue in its block. (R-cycle-7) */
LAID_IN void cut(const second_chip *c, bool word, operation o, const uint8_t *residue) {
    if (o.phase == TB_PROGRAMMING) {
        uint16_t r = unit_of(residue, 0, word);
        program_leaves(c->array, word, o, SLIP(33) && word ? (uint16_t)(r << 8 | r >> 8) : r);
        return;
    }
    unsigned k = unit_block(c, word, o.address);
    memcpy(c->array + c->part->block[k].first, residue, c->part->block[k].length);
}

/* What step 2 makes of the state. (R-cycle-4) */
LAID_IN void fall(tb_state *s) {
    s->status = (s->status & ~SR6) | SR7 | SR3 | (s->phase == TB_PROGRAMMING ? SR4 : SR5);
    s->mode = TB_MODE_STATUS;
    rest(s);
}

LAID_IN tb_answer refusal(uint8_t number, const tb_state *s) { return (tb_answer){TB_REFUSED, number, *s}; }

LAID_IN tb_answer answer(const tb_bus *b, uint16_t value, const tb_state *s) {
    return (tb_answer){b->kind == TB_CYCLE_READ ? TB_DATA : TB_NO_DATA, value, *s};
}

/* A cycle with RP# low. (R-cycle-3) */
APART tb_answer low_cycle(second_chip c, tb_state *s, const tb_bus *b, const uint8_t *residue, size_t m) {
    bool word = c.device->word;
    if (!proper(c.part, c.device, s))
        return refusal(TB_IMPROPER, s);
    if (levels_bad(c.part, b))
        return refusal(TB_BAD_LEVEL, s);
    if (pending(s->phase)) {
        if (m < residue_needed(&c, word, operation_of(s)))
            return refusal(TB_SHORT_RESIDUE, s);
        cut(&c, word, operation_of(s), residue);
    }
    reset(s);
    return (tb_answer){TB_NO_DATA, 0, *s};
}

/* The state goes back after 7 to 9. No such cycle gets as far as the counts of erases. (R-cycle-8) */
LAID_IN tb_answer put_back(uint8_t number, tb_state *s, uint64_t front, uint32_t address) {
    memcpy(s, &front, sizeof front);
    s->address = address;
    return refusal(number, s);
}

/* A cycle that is cut by VPP: 6 is still to be tested. */
APART tb_answer cut_cycle(second_chip c, tb_state *s, const tb_bus *b, const uint8_t *residue, size_t m) {
    bool word = c.device->word;
    uint64_t front = front_of(s);
    operation o = operation_of(s);
    uint16_t value = 0;
    if (m < residue_needed(&c, word, o))
        return refusal(TB_SHORT_RESIDUE, s);
    fall(s);
    if (SLIP(60) && o.phase != TB_PROGRAMMING)
        wear(s, unit_block(&c, word, o.address));
    uint8_t number = asked(&c, word, s, b, &value);
    if (number != TB_OK)
        return put_back(number, s, front, o.address);
    cut(&c, word, o, residue);
    return answer(b, value, s);
}

/* A cycle that refusals 1 to 6 let pass and that cuts nothing. */
LAID_IN tb_answer standing(const second_chip *c, tb_state *s, const tb_bus *b) {
    bool word = c->device->word, ends;
    uint64_t front = front_of(s);
    operation o = operation_of(s);
    uint16_t value = 0;
    uint8_t number = worked_out(c, word, s, b, &value, &ends);
    if (number != TB_OK)
        return put_back(number, s, front, o.address);
    if (ends)
        finish(c, word, o);
    return answer(b, value, s);
}

/* Any cycle with RP# not low that 1 and 2 let pass. */
APART tb_answer any_cycle(second_chip c, tb_state *s, const tb_bus *b, const uint8_t *residue, size_t m) {
    const part_rules *p = c.part;
    bool word = c.device->word;
    if (!proper(p, c.device, s))
        return refusal(TB_IMPROPER, s);
    if (levels_bad(p, b))
        return refusal(TB_BAD_LEVEL, s);
    bool cuts = cut_by_vpp(p, s, b->vpp_mv);
    if (SLIP(7) && cuts && m < residue_needed(&c, word, operation_of(s)))
        return refusal(TB_SHORT_RESIDUE, s);
    if (b->address >= p->size >> word && b->kind != TB_CYCLE_IDLE)
        return refusal(TB_PAST_ARRAY, s);
    return cuts ? cut_cycle(c, s, b, residue, m) : standing(&c, s, b);
}

/* An ordinary cycle, not at rest. */
APART tb_answer busy_cycle(second_chip c, tb_state *s, const tb_bus *b, const uint8_t *residue, size_t m) {
    if (!proper(c.part, c.device, s))
        return refusal(TB_IMPROPER, s);
    return cut_by_vpp(c.part, s, b->vpp_mv) ? cut_cycle(c, s, b, residue, m) : standing(&c, s, b);
}

/* What is commonest is tested first. */
tb_answer c_cycle(tb_device d, tb_state s, tb_bus b, uint8_t *array, size_t n, const uint8_t *residue, size_t m) {
    uint16_t value = 0;
    const part_rules *p = device_part(&d);
    if (p == NULL || n != p->size)
        return refusal(p == NULL ? TB_NO_DEVICE : TB_WRONG_ARRAY, &s);
    second_chip c = {p, &d, array};
    if (!ordinary(p, d.word, &b))
        return b.rp == TB_RP_LOW ? low_cycle(c, &s, &b, residue, m) : any_cycle(c, &s, &b, residue, m);
    if (!at_rest(&s))
        return busy_cycle(c, &s, &b, residue, m);
    uint8_t number = asked(&c, d.word, &s, &b, &value);
    return number != TB_OK ? refusal(number, &s) : answer(&b, value, &s);
}
