/* Changes of a map, store and image or of a state that keep all rules: most of them break one. */
#include "inputs.h"

#include <string.h>

const struct DamageSays damages[DAMAGES] = {
    [MAP_NO_MULTIPLE] = {"map no multiple of 8", 7},
    [MAP_OF_65] = {"65 records", 7},
    [BANK_200] = {"bank 200 or more", 8},
    [WIDTH_0_OR_9] = {"width 0, or over 8", 8},
    [PAST_0XFE] = {"last location past 0xFE", 8},
    [KIND_5] = {"kind over 4", 8},
    [LOCKABLE_2] = {"lockable over 1", 8},
    [LOCKABLE_READ_ONLY] = {"lockable, and not writable", 8},
    [SIXTH_BYTE] = {"sixth byte not zero", 8},
    [EXCHANGED] = {"two records exchanged", 9},
    [TWICE] = {"a record twice", 9},
    [OVERLAP] = {"overlap by one location", 9},
    [OTHER_LENGTHS] = {"store and image of other lengths", 10},
    [STORE_OVER_4096] = {"store over 4,096 bytes", 10},
    [PLACE_OUTSIDE] = {"a place outside", 10},
    [PLACE_SHARED] = {"a place shared", 10},
    [NO_HEAD] = {"no record at 0x00", 11},
    [HEAD_NOT_ROM] = {"0x00 not ROM", 11},
    [HEAD_BYTE] = {"byte at 0x00 below 3, or 255", 11},
    [HEAD_BELOW_HIGHEST] = {"byte at 0x00 below the highest location", 11},
    [NO_LOCK] = {"no lock byte", 11},
    [LOCK_KIND] = {"lock byte of another kind", 11},
    [LOCK_LOCKABLE] = {"lock byte lockable", 11},
    [BANK_0_WRITABLE] = {"bank 0 with a writable value", 11},
    [AS_IT_IS] = {"state as it is", 0},
    [WAITING] = {"waiting, by the rules", 0},
    [STAGED] = {"staged, by the rules", 0},
    [LATCHED] = {"latched, by the rules", 0},
    [ADDRESS_64] = {"address 64 to 254", 12},
    [FLAG_2] = {"a flag over 1", 12},
    [WAITING_NO_PAIR] = {"waiting, and no pair command", 12},
    [WAITING_FOR_ANOTHER] = {"waiting, and for another unit", 12},
    [WAITING_OVER_24_BITS] = {"waiting, and over 24 bits", 12},
    [WAITING_ENABLED] = {"waiting while enabled", 12},
    [NONE_WAITS] = {"a frame and a clock, and none waits", 12},
    [STAGED_CLOSED] = {"staged while closed", 12},
    [STAGED_ALL] = {"all bytes staged", 12},
    [STAGED_FROM_SECOND] = {"staged from a second location on", 12},
    [STAGED_READ_ONLY] = {"staged, and not writable", 12},
    [STAGED_LOCKED] = {"staged, and its bank locked", 12},
    [STAGED_BEHIND] = {"a byte behind the staged ones", 12},
    [NONE_STAGED] = {"bytes, and none is staged", 12},
    [LATCHED_FROM_SECOND] = {"latched from a second location on", 12},
    [LATCHED_BEHIND] = {"a byte behind the latched ones", 12},
    [NONE_LATCHED] = {"bytes, and none is latched", 12},
    [BYTE_FROM_40] = {"a byte from 40 on", 12},
    [ANY_OF_MAP] = {"any byte of the map", ANY_NUMBER},
    [ANY_OF_STORE] = {"any byte of the store", ANY_NUMBER},
    [ANY_OF_STATE] = {"any byte of the state", ANY_NUMBER},
};

static uint8_t not_zero(void) { return (uint8_t)(1 + below(255)); }

/* ---- map, store and image ---- */

static uint8_t *any_record(Lent *lent) { return record(lent, below((uint32_t)records(lent))); }

/* A record with another of its bank before it, or NULL. */
static uint8_t *later_record(Lent *lent) {
    uint8_t *r = any_record(lent);
    return r > lent->map && r[-8] == r[0] ? r : NULL;
}

/* The record of the bank that begins at the location, or NULL. */
static uint8_t *record_of(Lent *lent, uint8_t bank, uint8_t location) {
    for (size_t i = 0; i < records(lent); i++)
        if (record(lent, i)[0] == bank && record(lent, i)[1] == location) return record(lent, i);
    return NULL;
}

/* Records rise: the bank's last one is its highest. */
static uint32_t highest_of(Lent *lent, uint8_t bank) {
    uint32_t highest = 0;
    for (size_t i = 0; i < records(lent); i++)
        if (record(lent, i)[0] == bank) highest = record(lent, i)[1] + record(lent, i)[2] - 1u;
    return highest;
}

static void take_out(Lent *lent, uint8_t *r) {
    memmove(r, r + 8, (size_t)(lent->map + lent->map_length - r) - 8);
    lent->map_length -= 8;
}

static void exchange(uint8_t *one, uint8_t *other) {
    uint8_t first[8];
    memcpy(first, one, 8), memcpy(one, other, 8), memcpy(other, first, 8);
}

static void put_place(uint8_t *r, size_t to) { r[6] = (uint8_t)(to >> 8), r[7] = (uint8_t)to; }

static bool damage_lengths(enum Damage which, Lent *lent) {
    switch (which) {
    case MAP_NO_MULTIPLE: lent->map_length += 1 + below(7); return true;
    case MAP_OF_65: lent->map_length = 520; return true;
    case OTHER_LENGTHS: lent->image_length += 1 + below(3); return true;
    default: lent->store_length = lent->image_length = 4097 + below(3); return true;
    }
}

static bool damage_fields(enum Damage which, uint8_t *r) {
    switch (which) {
    case BANK_200: r[0] = (uint8_t)(200 + below(56)); return true;
    case WIDTH_0_OR_9: r[2] = once_in(2) ? 0 : (uint8_t)(9 + below(247)); return true;
    case PAST_0XFE: r[1] = (uint8_t)(256 - r[2] + below(r[2])); return true;
    case KIND_5: r[3] = (uint8_t)(5 + below(251)); return true;
    case LOCKABLE_2: r[4] = (uint8_t)(2 + below(254)); return true;
    case LOCKABLE_READ_ONLY: r[3] = once_in(2) ? 1 : 3, r[4] = 1; return true;
    default: r[5] = not_zero(); return true;
    }
}

static bool damage_order(enum Damage which, uint8_t *later) {
    if (later == NULL) return false;
    if (which == EXCHANGED) exchange(later - 8, later);
    if (which == TWICE) memcpy(later, later - 8, 8);
    if (which == OVERLAP) later[1] = (uint8_t)(later[-7] + later[-6] - 1);
    return true;
}

static bool damage_places(enum Damage which, Lent *lent, uint8_t *r, const uint8_t *other) {
    if (which == PLACE_SHARED && r == other) return false;
    put_place(r, which == PLACE_SHARED ? place_of(other) + below(other[2]) : lent->store_length - r[2] + 1 + below(3));
    return true;
}

/* The record at 0x00, of a bank that has more. */
static bool damage_head(enum Damage which, Lent *lent, Kept *kept, const uint8_t *later) {
    if (later == NULL) return false;
    uint8_t *head = record_of(lent, later[0], 0), *stored = kept->store + place_of(head);
    uint32_t highest = highest_of(lent, later[0]);
    if (which == HEAD_BELOW_HIGHEST && highest <= 3) return false;
    if (which == NO_HEAD) take_out(lent, head);
    if (which == HEAD_NOT_ROM) head[3] = once_in(2) ? 1 : 3;
    if (which == HEAD_BYTE) *stored = (uint8_t)(255 + below(4));
    if (which == HEAD_BELOW_HIGHEST) *stored = (uint8_t)(once_in(2) ? highest - 1 : 3 + below(highest - 3));
    return true;
}

static bool damage_lock(enum Damage which, Lent *lent, uint8_t *lock) {
    if (lock == NULL) return false;
    if (which == NO_LOCK) take_out(lent, lock);
    if (which == LOCK_KIND) lock[3] = (uint8_t[]){0, 1, 3, 4}[below(4)];
    if (which == LOCK_LOCKABLE) lock[4] = 1;
    return true;
}

static bool damage_bank_0(uint8_t *later) {
    if (later == NULL || later[0] != 0) return false;
    later[3] = once_in(2) ? 2 : 4;
    return true;
}

static bool damage_lent(enum Damage which, Lent *lent, Kept *kept) {
    if (which <= MAP_OF_65 || which == OTHER_LENGTHS || which == STORE_OVER_4096) return damage_lengths(which, lent);
    if (records(lent) == 0) return false;
    uint8_t *r = any_record(lent);
    if (which <= SIXTH_BYTE) return damage_fields(which, r);
    if (which <= OVERLAP) return damage_order(which, later_record(lent));
    if (which <= PLACE_SHARED) return damage_places(which, lent, r, any_record(lent));
    if (which <= HEAD_BELOW_HIGHEST) return damage_head(which, lent, kept, later_record(lent));
    if (which <= LOCK_LOCKABLE) return damage_lock(which, lent, r[0] > 0 ? record_of(lent, r[0], 2) : NULL);
    return damage_bank_0(later_record(lent));
}

/* ---- the state; its bytes are those of mirtofalko.h ---- */

enum { ADDRESS = 0, WAITS = 8, FRAME = 9, CLOCK = 13, ENABLED = 17, COUNT = 18, STAGE = 19, LATCHES = 29, LATCH = 30 };
enum { FIRST = 1, BYTES = 2, PART = 10, TAIL = 40 }; /* within the staged and the latched part */

static void hold(uint8_t *part, const uint8_t *r, uint32_t count) {
    memset(part, 0, PART);
    part[0] = r[0], part[FIRST] = r[1];
    for (uint32_t i = 0; i < count; i++) part[BYTES + i] = byte();
}

/* A broadcast pair command waits, at any clock. */
static bool damage_waiting(enum Damage which, uint8_t *state) {
    static const uint8_t pair[] = {0x11, 0x14, 0x15, 0x19, 0x1A, 0x1B, 0x1C}, no_pair[] = {0x10, 0x16, 0x33, 0x3C};
    uint8_t opcode = which == WAITING_NO_PAIR ? no_pair[below(sizeof no_pair)] : pair[below(sizeof pair)];
    uint8_t fields[9] = {which != NONE_WAITS, 0, 0xFF, 0xFE, opcode, byte(), byte(), byte(), byte()};
    memcpy(state + WAITS, fields, sizeof fields);
    memset(state + ENABLED, 0, 2 + PART);
    if (which == WAITING_FOR_ANOTHER) state[FRAME + 1] = (uint8_t)((state[ADDRESS] + 1u + below(63)) % 64 * 2 + 1);
    if (which == WAITING_OVER_24_BITS) state[FRAME] = not_zero();
    if (which == WAITING_ENABLED) state[ENABLED] = 1;
    return true;
}

/* A record of width 2 or more, writable or not; NULL where a few tries find none. */
static const uint8_t *wide_record(Lent *lent, bool wanted) {
    for (uint32_t i = 0; i < 8 && records(lent) > 0; i++) {
        const uint8_t *r = any_record(lent);
        if (r[2] > 1 && is_writable(r) == wanted) return r;
    }
    return NULL;
}

static bool damage_staged(enum Damage which, Lent *lent, Kept *kept) {
    uint8_t *state = kept->state;
    const uint8_t *r = wide_record(lent, which != STAGED_READ_ONLY);
    if (r == NULL || (which == STAGED_LOCKED && r[4] == 0)) return false;
    uint32_t count = which == STAGED_ALL ? r[2] : 1 + below(r[2] - 1u);
    memset(state + WAITS, 0, ENABLED - WAITS);
    state[ENABLED] = which != STAGED_CLOSED, state[COUNT] = (uint8_t)count;
    hold(state + STAGE, r, count);
    if (r[4] == 1) kept->store[place_of(record_of(lent, r[0], 2))] = which == STAGED_LOCKED ? 0x54 : 0x55;
    if (which == STAGED_FROM_SECOND) state[STAGE + FIRST]++;
    if (which == STAGED_BEHIND) state[STAGE + BYTES + count + below(8 - count)] = not_zero();
    return true;
}

static bool damage_latched(enum Damage which, Lent *lent, uint8_t *state) {
    const uint8_t *r = wide_record(lent, once_in(2));
    if (r == NULL || (which == LATCHED_BEHIND && r[2] == 8)) return false;
    state[LATCHES] = 1;
    hold(state + LATCH, r, r[2]);
    if (which == LATCHED_FROM_SECOND) state[LATCH + FIRST]++;
    if (which == LATCHED_BEHIND) state[LATCH + BYTES + r[2] + below(8u - r[2])] = not_zero();
    return true;
}

static bool damage_rest(enum Damage which, uint8_t *state) {
    static const uint8_t flags[] = {WAITS, ENABLED, LATCHES};
    switch (which) {
    case ADDRESS_64: state[ADDRESS] = (uint8_t)(64 + below(191)); return true;
    case FLAG_2: state[flags[below(3)]] = (uint8_t)(2 + below(254)); return true;
    case NONE_STAGED: memset(state + COUNT, 0, 1 + PART), state[STAGE + below(PART)] = not_zero(); return true;
    case NONE_LATCHED: memset(state + LATCHES, 0, 1 + PART), state[LATCH + below(PART)] = not_zero(); return true;
    case BYTE_FROM_40: state[TAIL + below(MF_STATE_BYTES - TAIL)] = not_zero(); return true;
    default: return true;
    }
}

static bool damage_any(enum Damage which, Lent *lent, Kept *kept) {
    uint8_t *bytes = which == ANY_OF_MAP ? lent->map : which == ANY_OF_STORE ? kept->store : kept->state;
    size_t length = which == ANY_OF_MAP ? lent->map_length : which == ANY_OF_STORE ? lent->store_length : TAIL;
    uint8_t *changed = bytes + below((uint32_t)length + 1);
    *changed = once_in(3) ? byte() : (uint8_t)(*changed + (once_in(2) ? 1 : -1));
    return true;
}

bool damage(enum Damage which, Lent *lent, Kept *kept) {
    if (which < AS_IT_IS) return damage_lent(which, lent, kept);
    if (which >= ANY_OF_MAP) return damage_any(which, lent, kept);
    if (which == WAITING || (which >= WAITING_NO_PAIR && which <= NONE_WAITS))
        return damage_waiting(which, kept->state);
    if (which == STAGED || (which >= STAGED_CLOSED && which <= STAGED_BEHIND))
        return damage_staged(which, lent, kept);
    if (which == LATCHED || which == LATCHED_FROM_SECOND || which == LATCHED_BEHIND)
        return damage_latched(which, lent, kept->state);
    return damage_rest(which, kept->state);
}
