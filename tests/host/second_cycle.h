/* The second implementation: proper states, and a bus cycle that refusals 1 to 6 let pass. The check of a recording and an interrupted
 * erase make their cycles by it too, so it stands here, where the compiler can lay it into its callers. Addresses of cycles and states
 * count units. What is commonest is tested first, and a state is worked on where it stands. */
#ifndef SECOND_CYCLE_H
#define SECOND_CYCLE_H

#include <string.h>

#include "second_parts.h"

enum { SR7 = TB_SR_READY, SR6 = TB_SR_SUSPENDED, SR5 = TB_SR_ERASE_ERROR, SR4 = TB_SR_PROGRAM_ERROR, SR3 = TB_SR_VPP_LOW };

/* A device's part and numbers, and its array. */
typedef struct {
    const part_rules *part;
    const tb_device *device;
    uint8_t *array;
} second_chip;

/* 4, of a cycle. (R-number-4) */
LAID_IN bool levels_bad(const part_rules *p, const tb_bus *b) {
    if (b->kind > TB_CYCLE_IDLE || b->rp > TB_RP_VHH || b->oe > (b->kind == TB_CYCLE_WRITE && (!p->br || SLIP(38))))
        return true;
    return !vpp_good(p, b->vpp_mv) || (!wp_good(p, b->wp) && !(SLIP(47) && b->rp == TB_RP_LOW));
}

/* RP# high, levels that all cycles may have, and an address inside the array: 4 and 5 are not given. */
LAID_IN bool ordinary(const part_rules *p, bool word, const tb_bus *b) {
    if (b->rp - 1u >= TB_RP_VHH || b->oe != TB_OE_NORMAL || !wp_good(p, b->wp) || !vpp_good(p, b->vpp_mv))
        return false;
    return b->kind <= TB_CYCLE_WRITE ? b->address < p->size >> word : b->kind == TB_CYCLE_IDLE;
}

/* The phases with an operation, running, suspended or being suspended, are the last four. */
LAID_IN bool pending(uint8_t phase) { return phase >= TB_PROGRAMMING; }

/* The first eight bytes of a state as one number, the mode lowest: then status, phase, suspend, left and data. */
LAID_IN uint64_t front_of(const tb_state *s) {
    uint64_t front;
    memcpy(&front, s, sizeof front);
    return front;
}

/* The error bits may be anything in every proper state: they are left out of what is compared. */
#define HEAD(mode, status, phase) ((uint32_t)(mode) | (uint32_t)(status) << 8 | (uint32_t)(phase) << 16)
#define FRONT_COMPARED (~(uint64_t)HEAD(0, SR5 | SR4 | SR3, 0))

/* A proper state with nothing awaited, running or suspended. */
LAID_IN bool at_rest(const tb_state *s) {
    uint64_t front = front_of(s) & FRONT_COMPARED & ~(uint64_t)HEAD(0xFF, 0, 0);
    return s->phase == TB_FREE && front == HEAD(0, SR7, TB_FREE) && s->mode <= TB_MODE_IDENTIFIER && s->address == 0;
}

/* 1 to that many cycles to go, and an address inside the array. */
LAID_IN bool to_go(const part_rules *p, const tb_device *d, const tb_state *s, uint16_t most) {
    return s->left - 1u < most && s->address < p->size >> d->word;
}

/* Whether a state is proper on a device. (R-proper-1) */
LAID_IN bool proper(const part_rules *p, const tb_device *d, const tb_state *s) {
    uint64_t front = front_of(s) & FRONT_COMPARED;
    uint32_t head = (uint32_t)front;
    switch (s->phase) {
    case TB_FREE: return at_rest(s);
    case TB_ERASE_AWAITED: return front == HEAD(TB_MODE_STATUS, SR7, TB_ERASE_AWAITED) && s->address == 0;
    case TB_DATA_AWAITED: return front == HEAD(TB_MODE_STATUS, SR7, TB_DATA_AWAITED) && s->address == 0;
    case TB_PROGRAMMING: return head == HEAD(TB_MODE_STATUS, 0, TB_PROGRAMMING) && to_go(p, d, s, d->program);
    case TB_ERASING: return head == HEAD(TB_MODE_STATUS, 0, TB_ERASING) && s->data == 0 && to_go(p, d, s, d->erase);
    case TB_SUSPENDING:
        head -= (uint32_t)s->suspend << 24;
        return head == HEAD(TB_MODE_STATUS, 0, TB_SUSPENDING) && s->suspend - 1u < d->suspend && s->data == 0 && to_go(p, d, s, d->erase);
    case TB_SUSPENDED:
        head -= s->mode == TB_MODE_STATUS;
        return head == HEAD(TB_MODE_ARRAY, SR7 | SR6, TB_SUSPENDED) && s->data == 0 && to_go(p, d, s, d->erase);
    }
    return false;
}

/* The operation is over; what it leaves of the status is its own affair. The counts of erases stay. */
LAID_IN void rest(tb_state *s) {
    s->phase = TB_FREE;
    s->data = 0;
    s->left = 0;
    s->suspend = 0;
    s->address = 0;
}

/* RP# low: as a fresh device, with the counts as they are. (R-cycle-3) */
LAID_IN void reset(tb_state *s) {
    rest(s);
    s->mode = TB_MODE_ARRAY;
    s->status = SR7;
    if (SLIP(51))
        *s = c_fresh();
}

/* The block of a unit inside the array. */
LAID_IN unsigned unit_block(const second_chip *c, bool word, uint32_t unit) { return block_at(c->part, looked_up(unit, word)); }

/* An erase of that block has begun: one more, up to the stop. (R-wear-1) */
LAID_IN void wear(tb_state *s, unsigned block) {
    if (s->wear.block[block] != TB_WEAR_STOP || SLIP(56))
        s->wear.block[block]++;
}

/* What an operation does its work by when it ends or is cut. */
typedef struct {
    uint8_t phase;
    uint16_t data;
    uint32_t address;
} operation;

LAID_IN operation operation_of(const tb_state *s) { return (operation){s->phase, s->data, s->address}; }

/* A program leaves old AND (data OR r), r 0 where it ends well. (R-cycle-5, R-cycle-7) */
LAID_IN void program_leaves(uint8_t *array, bool word, operation o, uint16_t r) {
    uint16_t old = unit_of(array, o.address, word), left = SLIP(1) ? o.data | r : old & (o.data | r);
    put_unit(array, o.address, SLIP(31) && word ? (left & 0xFF) | (old & 0xFF00) : left, word);
}

/* An operation is finished; an erase leaves FFH in its whole block. */
LAID_IN void finish(const second_chip *c, bool word, operation o) {
    if (o.phase == TB_PROGRAMMING) {
        program_leaves(c->array, word, o, 0);
        return;
    }
    unsigned k = unit_block(c, word, o.address);
    memset(c->array + c->part->block[k].first, 0xFF, c->part->block[k].length);
}

/* One cycle of a suspend passes; the erase stands still. (R-busy-2) */
LAID_IN void hold(tb_state *s) {
    if (SLIP(14) && s->left > 1)
        s->left--;
    if (s->suspend-- != (SLIP(13) ? 0 : 1))
        return;
    s->suspend = 0;
    s->phase = TB_SUSPENDED;
    s->status |= SR7 | (SLIP(15) ? 0 : SR6);
}

/* Step 3, for an operation running, suspended or being suspended: whether it is finished. */
LAID_IN bool counted_off(tb_state *s) {
    if (s->phase == TB_SUSPENDING)
        hold(s);
    if (s->phase > TB_ERASING || --s->left != 0)
        return false;
    s->status |= SR7;
    rest(s);
    return true;
}

/* An identifier: 0 and the code, or 9. A part of two widths has A-1 before its first address line in byte mode, and it is ignored.
 * (R-read-1, R-read-2) */
LAID_IN uint8_t identified(const part_rules *p, bool word, uint32_t address, uint16_t *value) {
    uint32_t place = p->br && !word && !SLIP(44) ? address >> 1 : address;
    if (place > 1)
        return TB_NO_IDENTIFIER;
    uint32_t code = place == 0 ? 0x89 : p->code;
    *value = (uint16_t)(word ? code : code & 0xFF);
    return TB_OK;
}

/* A read: 0 and the unit, or 8 or 9. The array is read only where nothing was running, so no effect can be due.
 * (R-read-1, R-suspended-2) */
LAID_IN uint8_t respond(const second_chip *c, bool word, const tb_state *s, uint32_t address, uint16_t *value) {
    if (s->mode == TB_MODE_STATUS) {
        *value = SLIP(41) && word ? s->status << 8 | s->status : s->status;
    } else if (s->mode == TB_MODE_ARRAY) {
        if (s->phase == TB_SUSPENDED && holds(c->part, unit_block(c, word, s->address), looked_up(address, word)))
            return TB_SUSPENDED_READ;
        *value = unit_of(c->array, address, word);
    } else {
        return identified(c->part, word, address, value);
    }
    return TB_OK;
}

/* A write with nothing awaited, running or suspended: 0 or 7. (R-write-1 to R-write-3) */
LAID_IN uint8_t command(const part_rules *p, tb_state *s, uint16_t given) {
    switch (given) {
    case 0xB0:
        if (SLIP(16))
            break;
        /* fall through */
    case 0xFF: s->mode = TB_MODE_ARRAY; return TB_OK;
    case 0x90: s->mode = TB_MODE_IDENTIFIER; return TB_OK;
    case 0x70: s->mode = TB_MODE_STATUS; return TB_OK;
    case 0x50: s->status &= ~(SR5 | SR4 | SR3); return TB_OK;
    case 0x20: s->mode = TB_MODE_STATUS, s->phase = TB_ERASE_AWAITED; return TB_OK;
    case 0x10:
        if (SLIP(39) || (!p->br && !SLIP(40)))
            break;
        /* fall through */
    case 0x40: s->mode = TB_MODE_STATUS, s->phase = TB_DATA_AWAITED; return TB_OK;
    }
    return TB_NO_COMMAND;
}

/* Only for slip 45: the supply under which an operation began. */
extern uint32_t second_begun_at;

/* Only for slips 8 and 55: where 20H was last written; this address before it was. */
static uint32_t asked_at;
LAID_IN uint32_t asked_or(const second_chip *c, bool word, uint32_t address) {
    return asked_at < c->part->size >> word ? asked_at : address;
}

/* What unlocks the boot block: RP# at V_HH, or OE# at V_HH; where there is WP#, that high in place of OE#. (R-lock-1) */
LAID_IN bool unlocked(const part_rules *p, const tb_bus *b) {
    return b->rp == TB_RP_VHH || (p->br ? b->wp == (SLIP(37) ? TB_WP_LOW : TB_WP_HIGH) : b->oe == TB_OE_VHH);
}

/* A confirm or data: the operation starts, or error bits say why not. An erase that starts is counted at the block of this address.
 * (R-second-1 to R-second-4) */
LAID_IN void begin(const second_chip *c, bool word, tb_state *s, const tb_bus *b) {
    bool erase = s->phase == TB_ERASE_AWAITED, low = vpp_low(c->part, b->vpp_mv) || (s->status & SR3) != 0;
    uint32_t address = SLIP(8) && erase ? asked_or(c, word, b->address) : b->address;
    if (low || (!unlocked(c->part, b) && holds(c->part, 0, looked_up(address, word)))) {
        if ((low ? SLIP(54) : SLIP(61)) && erase)
            wear(s, unit_block(c, word, address));
        s->status |= (erase ? SR5 : SR4) | (low ? SR3 : 0);
        s->phase = TB_FREE;
        return;
    }
    s->status &= ~SR7;
    s->phase = erase ? TB_ERASING : TB_PROGRAMMING;
    s->left = erase ? c->device->erase : c->device->program;
    s->data = erase ? 0 : word || SLIP(48) ? b->data : b->data & 0xFF;
    s->address = address;
    if (erase || SLIP(69))
        wear(s, unit_block(c, word, SLIP(55) ? asked_or(c, word, address) : address));
    if (SLIP(45))
        second_begun_at = b->vpp_mv;
}

LAID_IN void suspended_write(tb_state *s, uint16_t given) {
    if (given == 0xFF) {
        s->mode = TB_MODE_ARRAY;
    } else if (given == 0x70) {
        s->mode = TB_MODE_STATUS;
    } else if (given == 0xD0) {
        s->mode = TB_MODE_STATUS;
        s->phase = TB_ERASING;
        s->status &= ~(SR7 | SR6);
    }
}

/* A write: 0 or 7. A command is the low 8 bits. */
LAID_IN uint8_t written(const second_chip *c, bool word, tb_state *s, const tb_bus *b) {
    uint16_t given = SLIP(32) && word ? b->data : b->data & 0xFF;
    if ((SLIP(8) || SLIP(55)) && given == 0x20 && s->phase == TB_FREE)
        asked_at = b->address;
    if (SLIP(53) && given == 0x20 && s->phase == TB_FREE)
        wear(s, unit_block(c, word, b->address));
    if (SLIP(52) && given == 0xD0 && s->phase == TB_SUSPENDED)
        wear(s, unit_block(c, word, s->address));
    if (SLIP(2) && s->phase == TB_DATA_AWAITED && given == 0xFF)
        s->phase = TB_FREE;
    switch (s->phase) {
    case TB_FREE: return command(c->part, s, given);
    case TB_DATA_AWAITED: begin(c, word, s, b); break;
    case TB_ERASE_AWAITED:
        if (given == 0xD0)
            begin(c, word, s, b);
        else
            s->phase = TB_FREE, s->status |= SR5 | SR4;
        break;
    case TB_ERASING:
        if (given == 0xB0)
            s->phase = TB_SUSPENDING, s->suspend = c->device->suspend;
        break;
    case TB_SUSPENDED: suspended_write(s, given); break;
    }
    return TB_OK; /* a program ignores all writes, and so does a suspend under way: 70H finds its mode set */
}

/* Step 4: 0, and a read's unit in *value; or 7 to 9. */
LAID_IN uint8_t asked(const second_chip *c, bool word, tb_state *s, const tb_bus *b, uint16_t *value) {
    if (b->kind == TB_CYCLE_READ)
        return respond(c, word, s, b->address, value);
    return b->kind == TB_CYCLE_WRITE ? written(c, word, s, b) : TB_OK;
}

/* A cycle with RP# not low that refusals 1 to 6 let pass and that cuts nothing, but for the array: 0, a read's unit in *value, and in *ends
 * whether the operation is finished and its end due; or 7 to 9, and *s is neither as it was nor as it would be. */
LAID_IN uint8_t worked_out(const second_chip *c, bool word, tb_state *s, const tb_bus *b, uint16_t *value, bool *ends) {
    *ends = false;
    if (pending(s->phase)) {
        operation o = operation_of(s);
        *ends = counted_off(s);
        if (SLIP(62) && *ends && o.phase != TB_PROGRAMMING)
            wear(s, unit_block(c, word, o.address));
    }
    return asked(c, word, s, b, value);
}

#endif
