/* scenarios SEED COUNT DIR: writes COUNT scenario folders DIR/0000 on, each
   with unit.map, unit.sto, unit.rst, unit.adr and input. The same seed gives
   the same folders. */
#define _POSIX_C_SOURCE 200809L

#include <errno.h>
#include <inttypes.h>
#include <stdbool.h>
#include <stdint.h>
#include <stdio.h>
#include <stdlib.h>
#include <string.h>
#include <sys/stat.h>

enum {
    RECORD_ROOM = 80,
    MAP_ROOM = RECORD_ROOM * 8 + 8,
    STORE_ROOM = 4200,
    PATH_ROOM = 4096,
    NO_ADDRESS = 255
};

typedef struct Value {
    uint8_t bank;
    uint8_t first;
    uint8_t width;
    uint8_t kind;
    uint8_t lockable;
    uint8_t zero;
    uint16_t offset;
} Value;

typedef struct Scenario {
    uint64_t random;
    Value values[RECORD_ROOM];
    unsigned count;
    unsigned limit; /* of records; 64, or 65 for a damaged map */
    uint8_t map[MAP_ROOM];
    size_t map_len;
    uint8_t store[STORE_ROOM];
    size_t store_len;
    uint8_t image[STORE_ROOM];
    size_t image_len;
    uint8_t adr[8];
    size_t adr_len;
    unsigned missing; /* bits 0..3: map, store, image, adr not written */
    uint8_t address;  /* what the unit should hold by now */
    uint32_t groups;
    uint32_t clock;
    unsigned emitted;
    FILE *input;
} Scenario;

/* ---- numbers from the seed ---- */

static uint64_t next_random(Scenario *s)
{
    s->random += UINT64_C(0x9E3779B97F4A7C15);
    uint64_t z = s->random;
    z = (z ^ (z >> 30)) * UINT64_C(0xBF58476D1CE4E5B9);
    z = (z ^ (z >> 27)) * UINT64_C(0x94D049BB133111EB);
    return z ^ (z >> 31);
}

/* A number below the limit; 0 where there is none. */
static unsigned below(Scenario *s, unsigned limit)
{
    uint64_t random = next_random(s);
    return limit == 0 ? 0 : (unsigned)(random % limit);
}

static bool one_in(Scenario *s, unsigned count)
{
    return below(s, count) == 0;
}

static uint8_t any_byte(Scenario *s)
{
    return (uint8_t)below(s, 256);
}

static uint8_t pick(Scenario *s, const uint8_t *bytes, unsigned count)
{
    return bytes[below(s, count)];
}

/* ---- a valid map ---- */

static void add_value(Scenario *s, unsigned bank, unsigned first,
                      unsigned width, unsigned kind, unsigned lockable)
{
    Value *value = &s->values[s->count++];
    value->bank = (uint8_t)bank;
    value->first = (uint8_t)first;
    value->width = (uint8_t)width;
    value->kind = (uint8_t)kind;
    value->lockable = (uint8_t)lockable;
    value->zero = 0;
    value->offset = 0;
}

/* Mostly writable; bank 0 has only kinds 0, 1, 3. */
static void add_any_value(Scenario *s, unsigned bank, unsigned first,
                          unsigned width)
{
    static const uint8_t bank_0_kinds[3] = {0, 1, 3};
    static const uint8_t kinds[10] = {4, 4, 4, 4, 4, 2, 2, 0, 1, 3};
    unsigned kind = bank == 0 ? pick(s, bank_0_kinds, 3) : pick(s, kinds, 10);
    bool writable = kind == 2 || kind == 4;
    add_value(s, bank, first, width, kind, writable && !one_in(s, 3) ? 1 : 0);
}

/* Values from a location on, at most as many as told. */
static void add_values(Scenario *s, unsigned bank, unsigned location,
                       unsigned count)
{
    for (unsigned i = 0; i < count && s->count < s->limit; i++) {
        unsigned width = 1 + below(s, 8);
        location += one_in(s, 4) ? 1 + below(s, 3) : 0;
        if (one_in(s, 12) && location < 0xF0) {
            location = 0xFF - width; /* last location 0xFE */
        }
        if (location + width > 0xFF) {
            return;
        }
        add_any_value(s, bank, location, width);
        location += width;
    }
}

static void add_bank(Scenario *s, unsigned bank, unsigned count)
{
    add_value(s, bank, 0, 1, 0, 0);
    if (bank == 0) {
        add_values(s, 0, 1 + below(s, 3), count / 2 + 1);
        return;
    }
    if (one_in(s, 3) && s->count + 2 < s->limit) {
        add_any_value(s, bank, 1, 1);
    }
    add_value(s, bank, 2, 1, 2, 0);
    add_values(s, bank, 3, count);
}

static void make_records(Scenario *s, bool full)
{
    unsigned banks = full ? 199 : 1 + below(s, 4);
    unsigned bank = one_in(s, 3) ? 0 : 1 + below(s, 4);
    for (unsigned i = 0; i < banks && bank <= 199 && s->count + 3 <= s->limit; i++) {
        add_bank(s, bank, full ? 12 : 2 + below(s, 7));
        bank += one_in(s, 4) ? 1 + below(s, 60) : 1 + below(s, 2);
    }
    if (!full && one_in(s, 4) && s->values[s->count - 1].bank != 199) {
        add_bank(s, 199, 4);
    }
}

/* Places in a shuffled order, mostly without gaps. */
static void make_places(Scenario *s)
{
    unsigned order[RECORD_ROOM];
    unsigned offset = one_in(s, 3) ? below(s, 5) : 0;
    for (unsigned i = 0; i < s->count; i++) {
        unsigned j = below(s, i + 1);
        order[i] = i;
        order[i] = order[j];
        order[j] = i;
    }
    for (unsigned i = 0; i < s->count; i++) {
        Value *value = &s->values[order[i]];
        if (i + 1 == s->count && one_in(s, 20)) {
            offset = 4096u - value->width; /* up to the very end */
        }
        value->offset = (uint16_t)offset;
        offset += value->width + (one_in(s, 8) ? below(s, 4) : 0);
    }
    s->store_len = offset;
    if (s->store_len > 4096) {
        s->store_len = 4096;
    }
    s->image_len = s->store_len;
}

static unsigned last_location(const Value *value)
{
    return value->first + value->width - 1u;
}

static unsigned highest_location(const Scenario *s, unsigned bank)
{
    unsigned highest = 0;
    for (unsigned i = 0; i < s->count; i++) {
        if (s->values[i].bank == bank
            && last_location(&s->values[i]) > highest) {
            highest = last_location(&s->values[i]);
        }
    }
    return highest;
}

/* The stored byte at 0x00: the lowest allowed, the highest, or between. */
static uint8_t allowed_last_byte(Scenario *s, unsigned bank)
{
    unsigned lowest = highest_location(s, bank);
    lowest = lowest < 3 ? 3 : lowest;
    switch (below(s, 4)) {
    case 0:
        return 254;
    case 1:
        return (uint8_t)(lowest + below(s, 255 - lowest));
    default:
        return (uint8_t)lowest;
    }
}

static void make_bytes(Scenario *s)
{
    for (size_t i = 0; i < s->store_len; i++) {
        s->store[i] = any_byte(s);
        s->image[i] = any_byte(s);
    }
    for (unsigned i = 0; i < s->count; i++) {
        const Value *value = &s->values[i];
        if (value->first == 0) {
            s->store[value->offset] = allowed_last_byte(s, value->bank);
        }
        if (value->first == 2 && value->bank != 0 && one_in(s, 2)) {
            s->store[value->offset] = 0x55;
            s->image[value->offset] = 0x55;
        }
    }
}

static void pack_map(Scenario *s)
{
    for (unsigned i = 0; i < s->count; i++) {
        const Value *value = &s->values[i];
        uint8_t *bytes = s->map + 8 * i;
        bytes[0] = value->bank;
        bytes[1] = value->first;
        bytes[2] = value->width;
        bytes[3] = value->kind;
        bytes[4] = value->lockable;
        bytes[5] = value->zero;
        bytes[6] = (uint8_t)(value->offset >> 8);
        bytes[7] = (uint8_t)(value->offset & 0xFF);
    }
    s->map_len = 8 * (size_t)s->count;
}

static void make_address(Scenario *s)
{
    static const uint32_t few[4] = {0, 0x00000001, 0x80000000, 0x00010004};
    s->address = one_in(s, 4) ? NO_ADDRESS : (uint8_t)below(s, 64);
    s->groups = one_in(s, 2) ? few[below(s, 4)] : (uint32_t)next_random(s);
    s->adr[0] = s->address;
    s->adr[1] = (uint8_t)(s->groups >> 24);
    s->adr[2] = (uint8_t)(s->groups >> 16);
    s->adr[3] = (uint8_t)(s->groups >> 8);
    s->adr[4] = (uint8_t)s->groups;
    s->adr_len = 5;
}

/* ---- damage ---- */

/* 7: map not a multiple of 8 bytes, or over 512. */
static void damage_map_length(Scenario *s)
{
    pack_map(s);
    switch (below(s, 3)) {
    case 0:
        s->map_len -= s->map_len == 0 ? 0 : 1 + below(s, 7);
        break;
    case 1:
        s->map_len += 1 + below(s, 7);
        break;
    default: /* 65 records, 513 bytes, or many records */
        s->map_len = one_in(s, 2) ? 520 : 513 + below(s, 100);
        break;
    }
}

/* A bank becomes another one. */
static void move_bank(Scenario *s, uint8_t from, uint8_t to)
{
    for (unsigned i = 0; i < s->count; i++) {
        if (s->values[i].bank == from) {
            s->values[i].bank = to;
        }
    }
}

/* 8: a record's own fields. */
static void damage_fields(Scenario *s)
{
    Value *value = &s->values[below(s, s->count)];
    switch (below(s, 8)) {
    case 0:
        move_bank(s, s->values[s->count == 0 ? 0 : s->count - 1].bank,
                  (uint8_t)(one_in(s, 4) ? 200 + below(s, 56) : 200));
        break;
    case 1:
        value->width = one_in(s, 2) ? 0 : 9;
        break;
    case 2:
        value->first = (uint8_t)(256 - value->width); /* last 0xFF */
        break;
    case 3:
        value->kind = (uint8_t)(5 + below(s, 251));
        break;
    case 4:
        value->lockable = (uint8_t)(2 + below(s, 254));
        break;
    case 5: /* lockable with kind 0, 1 or 3 */
        value->kind = (uint8_t)(below(s, 3) == 0 ? 3 : below(s, 2));
        value->lockable = 1;
        break;
    case 6:
        value->zero = (uint8_t)(1 + below(s, 255));
        break;
    default: /* its last location far past 0xFF */
        value->first = 0xFF;
        value->width = 8;
        break;
    }
    pack_map(s);
}

/* Two records that adjoin come to overlap by one, and nothing else. */
static void overlap_by_one(Scenario *s)
{
    unsigned start = below(s, s->count);
    for (unsigned i = 0; i < s->count; i++) {
        unsigned at = (start + i) % s->count;
        Value *value = &s->values[at];
        if (at > 0 && value->bank == value[-1].bank && value[-1].width > 1
            && value->first == last_location(&value[-1]) + 1) {
            value->first--;
            return;
        }
    }
}

/* 9: records out of order or overlapping; often by one only. */
static void damage_order(Scenario *s)
{
    unsigned i = s->count < 2 ? 0 : 1 + below(s, s->count - 1);
    Value *value = &s->values[i];
    Value *before = &s->values[i == 0 ? 0 : i - 1];
    Value kept = *value;
    switch (below(s, 6)) {
    case 0:
        *value = *before;
        *before = kept;
        break;
    case 1: /* twice the same, elsewhere in the store */
        value->bank = before->bank;
        value->first = before->first;
        break;
    case 2: /* overlap by one */
        value->bank = before->bank;
        value->first = (uint8_t)last_location(before);
        break;
    case 3:
    case 4:
        overlap_by_one(s);
        break;
    default:
        value->bank = before->bank == 0 ? 0 : (uint8_t)(before->bank - 1);
        break;
    }
    pack_map(s);
}

/* Where the last place ends. */
static size_t end_of_places(const Scenario *s)
{
    size_t end = 1;
    for (unsigned i = 0; i < s->count; i++) {
        const Value *value = &s->values[i];
        if ((size_t)value->offset + value->width > end
            && value->offset < 4096) {
            end = (size_t)value->offset + value->width;
        }
    }
    return end;
}

/* 10: lengths, and places outside or shared; often by one only. */
static void damage_places(Scenario *s)
{
    Value *value = &s->values[below(s, s->count)];
    const Value *other = &s->values[below(s, s->count)];
    switch (below(s, 6)) {
    case 0:
        s->image_len += one_in(s, 2) ? 1 : (size_t)below(s, 20);
        break;
    case 1:
        s->image_len -= 1;
        break;
    case 2:
        s->store_len = s->image_len = 4097 + (size_t)below(s, 50);
        break;
    case 3: /* outside by one */
        s->store_len = s->image_len = end_of_places(s) - 1;
        break;
    case 4: /* far outside */
        value->offset = (uint16_t)(0xFF00 + below(s, 256));
        break;
    default: /* shared by one */
        value->offset = (uint16_t)(other->offset + other->width - 1);
        break;
    }
    pack_map(s);
}

/* The first record of some bank. */
static Value *some_bank(Scenario *s)
{
    unsigned i = below(s, s->count);
    while (i > 0 && s->values[i].first != 0) {
        i--;
    }
    return &s->values[i];
}

/* 11: the stored byte at 0x00. */
static void damage_last_byte(Scenario *s)
{
    const Value *value = some_bank(s);
    static const uint8_t out_of_range[4] = {0, 1, 2, 255};
    if (value->offset >= STORE_ROOM) {
        return; /* damaged before */
    }
    if (one_in(s, 2)) {
        s->store[value->offset] = pick(s, out_of_range, 4);
    } else {
        s->store[value->offset]
            = (uint8_t)(highest_location(s, value->bank) - 1);
    }
}

static void remove_value(Scenario *s, const Value *value)
{
    size_t index = (size_t)(value - s->values);
    if (s->count == 0) {
        return;
    }
    s->count--;
    for (size_t i = index; i < s->count; i++) {
        s->values[i] = s->values[i + 1];
    }
}

/* The lock byte of some bank; NULL where there is none. */
static Value *some_lock_byte(Scenario *s)
{
    unsigned start = below(s, s->count);
    for (unsigned i = 0; i < s->count; i++) {
        Value *value = &s->values[(start + i) % s->count];
        if (value->first == 2 && value->bank != 0) {
            return value;
        }
    }
    return NULL;
}

/* 11: the record at 0x02 of banks 1 to 199. */
static void damage_lock_byte(Scenario *s)
{
    Value *lock = some_lock_byte(s);
    if (lock == NULL) {
        return;
    }
    switch (below(s, 3)) {
    case 0:
        lock->kind = one_in(s, 2) ? 4 : 1;
        break;
    case 1:
        lock->lockable = 1;
        break;
    default:
        remove_value(s, lock);
        break;
    }
    pack_map(s);
}

/* 11: the record at 0x00. */
static void damage_head(Scenario *s)
{
    Value *head = some_bank(s);
    if (one_in(s, 2)) {
        remove_value(s, head);
    } else {
        head->kind = (uint8_t)(1 + below(s, 4));
    }
    pack_map(s);
}

/* 11: bank 0 has only kinds 0, 1, 3. */
static void damage_bank_0(Scenario *s)
{
    if (s->count > 1 && s->values[1].bank == 0) {
        s->values[1].kind = one_in(s, 2) ? 2 : 4;
    } else {
        move_bank(s, s->values[0].bank, 0);
    }
    pack_map(s);
}

/* 6: address 64..254, or a wrong length of unit.adr. */
static void damage_address(Scenario *s)
{
    static const size_t lengths[4] = {0, 4, 6, 7};
    if (one_in(s, 2)) {
        s->adr[0] = one_in(s, 2) ? 64 : (uint8_t)(64 + below(s, 191));
    } else {
        s->adr_len = lengths[below(s, 4)];
    }
}

/* A missing file counts as empty. */
static void lose_files(Scenario *s)
{
    s->missing = 1 + below(s, 15);
}

static void damage_once(Scenario *s)
{
    static void (*const damages[])(Scenario *) = {
        damage_map_length, damage_fields,    damage_fields, damage_fields,
        damage_order,      damage_order,     damage_places, damage_places,
        damage_last_byte,  damage_lock_byte, damage_head,   damage_bank_0,
        damage_address,    damage_address,   lose_files};
    damages[below(s, sizeof damages / sizeof damages[0])](s);
}

/* An empty map is valid: nothing is mapped. */
static void make_unit(Scenario *s)
{
    unsigned fate = below(s, 100);
    Scenario kept;
    s->limit = fate == 1 ? 65 : 64;
    make_records(s, fate <= 7);
    if (fate == 0) {
        s->count = 0;
    }
    make_places(s);
    make_bytes(s);
    make_address(s);
    pack_map(s);
    kept = *s;
    if (s->count > 0 && fate >= 72) {
        damage_once(s);
        if (fate >= 95) {
            damage_once(s);
        }
    }
    /* The traffic goes to the values that would have been. */
    memcpy(s->values, kept.values, sizeof s->values);
    s->count = kept.count;
}

/* ---- records on the input ---- */

static void put_record(Scenario *s, uint8_t kind, uint32_t frame)
{
    const uint8_t bytes[8] = {
        (uint8_t)(s->clock >> 24), (uint8_t)(s->clock >> 16),
        (uint8_t)(s->clock >> 8),  (uint8_t)s->clock,
        kind,                      (uint8_t)(frame >> 16),
        (uint8_t)(frame >> 8),     (uint8_t)frame};
    (void)fwrite(bytes, 1, sizeof bytes, s->input);
    s->emitted++;
}

static void send_after(Scenario *s, uint32_t milliseconds, uint32_t frame)
{
    s->clock += milliseconds;
    put_record(s, 0, frame);
}

static void send(Scenario *s, uint32_t frame)
{
    send_after(s, below(s, 40), frame);
}

/* Clock and frame of a power-on record are ignored. */
static void power_on(Scenario *s)
{
    uint32_t clock = s->clock;
    s->clock = one_in(s, 2) ? clock : (uint32_t)next_random(s);
    put_record(s, 1, one_in(s, 2) ? 0 : below(s, 0x1000000));
    s->clock = clock;
}

/* An address byte that reaches the unit. */
static uint8_t matching_address(Scenario *s)
{
    unsigned choice = below(s, 8);
    if (choice < 4 && s->address != NO_ADDRESS) {
        return (uint8_t)(s->address << 1 | 1);
    }
    if (choice < 4) {
        return 0xFD;
    }
    if (choice < 6 && s->groups != 0) {
        unsigned group = below(s, 32);
        while ((s->groups >> group & 1u) == 0) {
            group = (group + 1) % 32;
        }
        return (uint8_t)(0x81 | group << 1);
    }
    return 0xFF;
}

/* An address byte that does not reach the unit, unless all do. */
static uint8_t foreign_address(Scenario *s)
{
    unsigned group = below(s, 32);
    if (one_in(s, 3) && s->groups != 0xFFFFFFFF) {
        while ((s->groups >> group & 1u) == 1) {
            group = (group + 1) % 32;
        }
        return (uint8_t)(0x81 | group << 1);
    }
    if (one_in(s, 3) && s->address != NO_ADDRESS) {
        return 0xFD;
    }
    return (uint8_t)(((s->address + 1 + below(s, 63)) % 64) << 1 | 1);
}

static uint32_t device_frame(uint8_t address_byte, uint8_t opcode)
{
    return (uint32_t)address_byte << 16 | 0xFE00u | opcode;
}

/* A device command for the unit. */
static uint32_t device(Scenario *s, uint8_t opcode)
{
    return device_frame(matching_address(s), opcode);
}

static void pair(Scenario *s, uint8_t opcode)
{
    static const uint8_t gaps[6] = {0, 1, 50, 98, 99, 100};
    uint32_t frame = device(s, opcode);
    send(s, frame);
    send_after(s, pick(s, gaps, 6), frame);
}

static void enable(Scenario *s)
{
    pair(s, 0x15);
}

static void set_dtr0(Scenario *s, uint8_t byte)
{
    send(s, 0xC13000u | byte);
}

static void set_dtr1(Scenario *s, uint8_t byte)
{
    if (one_in(s, 5)) {
        send(s, 0xC90000u | (uint32_t)any_byte(s) << 8 | byte);
    } else {
        send(s, 0xC13100u | byte);
    }
}

static void set_place(Scenario *s, uint8_t bank, uint8_t location)
{
    if (one_in(s, 2)) {
        send(s, 0xC70000u | (uint32_t)bank << 8 | location);
    } else if (one_in(s, 2)) {
        set_dtr1(s, bank);
        set_dtr0(s, location);
    } else {
        set_dtr0(s, location);
        set_dtr1(s, bank);
    }
}

static void read_bytes(Scenario *s, unsigned count)
{
    for (unsigned i = 0; i < count; i++) {
        send(s, device(s, 0x3C));
    }
}

static void read_value(Scenario *s, const Value *value)
{
    set_place(s, value->bank, value->first);
    read_bytes(s, value->width);
}

static void query_dtrs(Scenario *s)
{
    send(s, device(s, (uint8_t)(0x36 + below(s, 3))));
    if (one_in(s, 2)) {
        send(s, device(s, 0x36));
    }
}

/* ---- choosing values ---- */

static const Value *some_value(Scenario *s)
{
    return &s->values[below(s, s->count)];
}

/* Mostly a writable value other than a lock byte. */
static const Value *target_value(Scenario *s)
{
    unsigned start = below(s, s->count);
    if (one_in(s, 12)) {
        return &s->values[start];
    }
    for (unsigned i = 0; i < s->count; i++) {
        const Value *value = &s->values[(start + i) % s->count];
        if ((value->kind == 2 || value->kind == 4)
            && !(value->first == 2 && value->bank != 0)) {
            return value;
        }
    }
    return &s->values[start];
}

/* A value of width 2 or more if there is one. */
static const Value *wide_value(Scenario *s, bool writable)
{
    unsigned start = below(s, s->count);
    for (unsigned i = 0; i < s->count; i++) {
        const Value *value = &s->values[(start + i) % s->count];
        bool kind = value->kind == 2 || value->kind == 4 || !writable;
        if (value->width >= 2 && kind) {
            return value;
        }
    }
    return &s->values[start];
}

static uint8_t unmapped_bank(Scenario *s)
{
    uint8_t bank = one_in(s, 2) ? any_byte(s) : (uint8_t)(200 + below(s, 56));
    for (unsigned i = 0; i < s->count; i++) {
        if (s->values[i].bank == bank) {
            return 200;
        }
    }
    return bank;
}

/* ---- frames that come in between ---- */

static uint32_t event_frame(Scenario *s)
{
    if (one_in(s, 6)) { /* a power cycle event */
        return 0xFEE000u | (one_in(s, 2) ? 0x1000u | below(s, 32) << 7 : 0)
               | (one_in(s, 2) ? 0x40u | below(s, 64) : 0);
    }
    uint32_t frame = below(s, 0x1000000) & ~UINT32_C(0x10000);
    if ((frame & 0xC08000u) == 0xC08000u) {
        frame &= ~UINT32_C(0x8000);
    }
    return frame;
}

static uint8_t reserved_address(Scenario *s)
{
    static const uint8_t addresses[14] = {0xE1, 0xE3, 0xE5, 0xE7, 0xE9,
                                          0xEB, 0xED, 0xEF, 0xF1, 0xF3,
                                          0xF5, 0xF7, 0xF9, 0xFB};
    return pick(s, addresses, 14);
}

static uint8_t reserved_instance(Scenario *s)
{
    static const uint8_t instances[10] = {0x40, 0x5F, 0xE0, 0xEF, 0xF0,
                                          0xF7, 0xF8, 0xFA, 0xFB, 0x50};
    return pick(s, instances, 10);
}

static uint32_t command_frame(uint8_t address_byte, uint8_t instance_byte,
                              uint8_t opcode)
{
    return (uint32_t)address_byte << 16 | (uint32_t)instance_byte << 8 | opcode;
}

/* A command for the unit, with an instance byte as told. */
static uint32_t own_command(Scenario *s, uint8_t instance_byte, uint8_t opcode)
{
    return command_frame(matching_address(s), instance_byte, opcode);
}

static uint32_t reserved_frame(Scenario *s)
{
    switch (below(s, 4)) {
    case 0:
        return command_frame(reserved_address(s), 0xFE, 0x15);
    case 1:
        return own_command(s, reserved_instance(s), 0x15);
    case 2: /* reserved event */
        return 0xC08000u | below(s, 15) << 17 | below(s, 0x8000);
    default: /* power event with a non-zero blank field */
        return one_in(s, 2) ? 0xFEE000u | (1 + below(s, 63))
                            : 0xFEE000u | (1 + below(s, 31)) << 7;
    }
}

static const uint8_t listed[16] = {0x11, 0x14, 0x15, 0x19, 0x1A, 0x1B,
                                   0x1C, 0x33, 0x36, 0x37, 0x38, 0x3C,
                                   0x41, 0x42, 0x43, 0x44};

static uint32_t foreign_frame(Scenario *s)
{
    return device_frame(foreign_address(s), pick(s, listed, 16));
}

static bool one_of(uint8_t byte, const uint8_t *bytes, unsigned count)
{
    return memchr(bytes, byte, count) != NULL;
}

/* A device command that is not listed, often one that 000 has. */
static uint32_t unlisted_device(Scenario *s)
{
    static const uint8_t opcodes[16] = {0x00, 0x01, 0x10, 0x12, 0x13, 0x16,
                                        0x18, 0x1D, 0x20, 0x30, 0x34, 0x35,
                                        0x39, 0x3D, 0x40, 0x45};
    uint8_t opcode = any_byte(s);
    return device(s, one_in(s, 2) || one_of(opcode, listed, 16)
                         ? pick(s, opcodes, 16)
                         : opcode);
}

static uint8_t some_instance(Scenario *s)
{
    static const uint8_t from[3] = {0x00, 0x80, 0xC0};
    unsigned number = below(s, 32);
    return one_in(s, 4) ? 0xFF : (uint8_t)(pick(s, from, 3) + number);
}

static uint8_t some_feature(Scenario *s)
{
    static const uint8_t from[3] = {0x20, 0xA0, 0x60};
    static const uint8_t alone[3] = {0xF9, 0xFC, 0xFD};
    unsigned number = below(s, 32);
    return one_in(s, 2) ? pick(s, alone, 3)
                        : (uint8_t)(pick(s, from, 3) + number);
}

/* Often one that is listed with instance byte 0xFE, or QUERY CONTENT DTR0..2,
   which keep write-enable there. */
static uint8_t any_opcode(Scenario *s)
{
    switch (below(s, 3)) {
    case 0:
        return (uint8_t)(0x36 + below(s, 3));
    case 1:
        return pick(s, listed, 16);
    default:
        return any_byte(s);
    }
}

/* 0xC1 with a first free byte that is not listed, 0xC3, and 0xCB to 0xDF. */
static uint32_t unlisted_special(Scenario *s, uint8_t second)
{
    static const uint8_t with_c1[5] = {0x20, 0x21, 0x30, 0x31, 0x32};
    static const uint8_t beside[10] = {0x00, 0x01, 0x0B, 0x1F, 0x22,
                                       0x2F, 0x33, 0x36, 0xFE, 0xFF};
    uint8_t first = any_byte(s);
    if (one_in(s, 2)) {
        bool near = one_in(s, 2) || one_of(first, with_c1, 5);
        return command_frame(0xC1, near ? pick(s, beside, 10) : first, second);
    }
    uint8_t address = one_in(s, 4) ? 0xC3 : (uint8_t)(0xCB + 2 * below(s, 11));
    return command_frame(address, one_in(s, 2) ? 0xFE : first, second);
}

/* For the unit, but not listed: device, instance, feature or special. */
static uint32_t unlisted_frame(Scenario *s)
{
    uint8_t opcode = any_opcode(s);
    switch (below(s, 4)) {
    case 0:
        return unlisted_device(s);
    case 1:
        return own_command(s, some_instance(s), opcode);
    case 2:
        return own_command(s, some_feature(s), opcode);
    default:
        return unlisted_special(s, opcode);
    }
}

/* The same frame reserved or foreign: its address byte reserved or another
   unit's, or its instance byte reserved. */
static uint32_t not_for_the_unit(Scenario *s, uint32_t frame)
{
    switch (below(s, 4)) {
    case 0:
        return (uint32_t)reserved_address(s) << 16 | (frame & 0xFFFF);
    case 1:
        return own_command(s, reserved_instance(s), (uint8_t)(frame & 0xFF));
    default:
        return (uint32_t)foreign_address(s) << 16 | (frame & 0xFFFF);
    }
}

/* Frames that keep write-enable and change neither bank nor location. */
static void keep_between(Scenario *s)
{
    switch (below(s, 6)) {
    case 0:
        send(s, event_frame(s));
        break;
    case 1:
        send(s, reserved_frame(s));
        break;
    case 2:
        send(s, foreign_frame(s));
        break;
    case 3:
        send(s, not_for_the_unit(s, unlisted_frame(s)));
        break;
    case 4:
        send(s, device(s, (uint8_t)(0x36 + below(s, 3))));
        break;
    default:
        send(s, 0xC13200u | any_byte(s));
        break;
    }
}

/* A write in a bank that is not mapped, and back: staging stays. */
static void detour(Scenario *s, const Value *value)
{
    send(s, 0xC13100u | unmapped_bank(s));
    switch (below(s, 3)) {
    case 0:
        send(s, 0xC50000u | below(s, 0x10000));
        break;
    case 1:
        send(s, 0xC12000u | any_byte(s));
        break;
    default:
        send(s, 0xC12100u | any_byte(s));
        break;
    }
    send(s, 0xC13100u | value->bank);
}

/* Frames that close write-enable. */
static void close_between(Scenario *s)
{
    static const uint8_t singles[6] = {0x33, 0x3C, 0x41, 0x42, 0x43, 0x44};
    static const uint8_t halves[7] = {0x11, 0x14, 0x15, 0x19,
                                      0x1A, 0x1B, 0x1C};
    switch (below(s, 6)) {
    case 0:
        send(s, device(s, pick(s, halves, 7))); /* a lone first half */
        break;
    case 1:
        power_on(s);
        break;
    case 2:
    case 3:
        send(s, unlisted_frame(s));
        break;
    default:
        send(s, device(s, pick(s, singles, 6)));
        break;
    }
}

/* Executed writes that are not the next staged byte. */
static void other_write_between(Scenario *s, const Value *value)
{
    const Value *other = some_value(s);
    switch (below(s, 5)) {
    case 0: /* the first byte again */
        send(s, 0xC50000u | (uint32_t)value->first << 8 | any_byte(s));
        break;
    case 1: /* the lock byte */
        send(s, 0xC50200u | (one_in(s, 2) ? 0x55u : any_byte(s)));
        break;
    case 2: /* one location on */
        send(s, 0xC50000u | (last_location(value) + 1) % 256 << 8
                    | any_byte(s));
        break;
    case 3: /* another bank, and back */
        send(s, 0xC13100u | other->bank);
        send(s, 0xC50000u | (uint32_t)other->first << 8 | any_byte(s));
        send(s, 0xC13100u | value->bank);
        break;
    default:
        send(s, 0xC50000u | below(s, 0x10000));
        break;
    }
}

/* The writing goes on at the same location of another bank. */
static void change_bank(Scenario *s, const Value *value)
{
    unsigned start = below(s, s->count);
    for (unsigned i = 0; i < s->count; i++) {
        const Value *other = &s->values[(start + i) % s->count];
        if (other->bank != value->bank && other->first == value->first
            && other->width > 1) {
            send(s, 0xC13100u | other->bank);
            return;
        }
    }
    keep_between(s);
}

static void interrupt(Scenario *s, const Value *value)
{
    switch (below(s, 9)) {
    case 0:
    case 1:
    case 2:
        keep_between(s);
        break;
    case 3:
    case 4:
        close_between(s);
        break;
    case 5:
        detour(s, value);
        break;
    case 6:
        other_write_between(s, value);
        break;
    case 7:
        change_bank(s, value);
        break;
    default: /* the next location is skipped, or met again */
        set_dtr0(s, (uint8_t)(value->first + below(s, value->width + 1u)));
        break;
    }
}

/* ---- writing ---- */

/* One write of a byte at a location, where DTR0 may stand already. */
static void write_byte(Scenario *s, uint8_t location, uint8_t byte)
{
    switch (below(s, 5)) {
    case 0:
        send(s, 0xC12100u | byte); /* without reply */
        break;
    case 1:
        send(s, 0xC50000u | (uint32_t)location << 8 | byte);
        break;
    default:
        send(s, 0xC12000u | byte);
        break;
    }
}

/* Write-enable open, DTR1 the bank, the lock byte as told. */
static void open_bank(Scenario *s, const Value *value, uint8_t lock)
{
    if (one_in(s, 2)) {
        set_dtr1(s, value->bank);
        enable(s);
    } else {
        enable(s);
        set_dtr1(s, value->bank);
    }
    if (value->lockable == 1 || one_in(s, 4)) {
        if (one_in(s, 2)) {
            send(s, 0xC50200u | lock);
        } else {
            set_dtr0(s, 2);
            write_byte(s, 2, lock);
        }
    }
}

/* The bytes of a value, first to last, up to a count; an interruption before
   the byte with the given index. */
static void write_bytes(Scenario *s, const Value *value, unsigned count,
                        unsigned interrupted)
{
    for (unsigned i = 0; i < count; i++) {
        if (i == interrupted) {
            interrupt(s, value);
        } else if (one_in(s, 9)) {
            keep_between(s);
        }
        write_byte(s, (uint8_t)(value->first + i), any_byte(s));
    }
}

static void look_after(Scenario *s, const Value *value)
{
    if (one_in(s, 3)) {
        query_dtrs(s);
    }
    if (!one_in(s, 4)) {
        read_value(s, value);
    }
}

/* A complete writing. */
static void whole_writing(Scenario *s)
{
    const Value *value = target_value(s);
    open_bank(s, value, 0x55);
    set_dtr0(s, value->first);
    write_bytes(s, value, value->width, 99);
    if (one_in(s, 3)) {
        send(s, 0xC50200u | (one_in(s, 2) ? 0xFFu : any_byte(s)));
    }
    look_after(s, value);
}

/* A writing interrupted at any place, then gone on with. */
static void cut_writing(Scenario *s)
{
    const Value *value = wide_value(s, true);
    unsigned place = below(s, value->width + 1u);
    open_bank(s, value, 0x55);
    set_dtr0(s, value->first);
    write_bytes(s, value, value->width, place);
    if (place == value->width) {
        interrupt(s, value);
        write_byte(s, value->first, any_byte(s));
    }
    look_after(s, value);
}

/* A command that is not listed, sometimes twice, or the same frame reserved or
   foreign: the one closes write-enable, the other leaves it. */
static void meet_the_door(Scenario *s)
{
    uint32_t frame = unlisted_frame(s);
    if (one_in(s, 3)) {
        frame = not_for_the_unit(s, frame);
    }
    send(s, frame);
    if (one_in(s, 4)) {
        send(s, frame);
    }
}

/* A writing that meets such a frame right after the ENABLE pair, before its
   first byte, between two bytes or after the last, and is gone on with. */
static void door_writing(Scenario *s)
{
    const Value *value = target_value(s);
    unsigned count = below(s, value->width + 1u);
    if (one_in(s, 4)) {
        count = 0;
        set_dtr1(s, value->bank);
        enable(s);
        meet_the_door(s);
        set_dtr0(s, value->first);
    } else {
        open_bank(s, value, 0x55);
        set_dtr0(s, value->first);
        write_bytes(s, value, count, 99);
        meet_the_door(s);
    }
    for (unsigned i = count; i < value->width; i++) {
        write_byte(s, (uint8_t)(value->first + i), any_byte(s));
    }
    send(s, 0xC50200u | (one_in(s, 2) ? 0xFFu : any_byte(s)));
    send(s, device(s, 0x36));
    look_after(s, value);
}

/* A writing that stops short, then the rest after something else. */
static void short_writing(Scenario *s)
{
    const Value *value = wide_value(s, true);
    unsigned count = 1 + below(s, value->width);
    open_bank(s, value, 0x55);
    set_dtr0(s, value->first);
    write_bytes(s, value, count, 99);
    switch (below(s, 3)) {
    case 0:
        enable(s);
        break;
    case 1:
        close_between(s);
        enable(s);
        break;
    default:
        break;
    }
    set_place(s, value->bank, (uint8_t)(value->first + count));
    for (unsigned i = count; i < value->width; i++) {
        write_byte(s, (uint8_t)(value->first + i), any_byte(s));
    }
    look_after(s, value);
}

/* Locks: 0x55 or another, before, inside or only before the last byte. */
static void lock_sequence(Scenario *s)
{
    static const uint8_t locks[8] = {0x55, 0x55, 0x54, 0x56,
                                     0x00, 0xFF, 0xAA, 0xD5};
    const Value *value = target_value(s);
    unsigned place = below(s, value->width + 1u);
    open_bank(s, value, pick(s, locks, 8));
    set_dtr0(s, value->first);
    write_bytes(s, value, place, 99);
    send(s, 0xC50200u | pick(s, locks, 8));
    set_dtr0(s, (uint8_t)(value->first + (one_in(s, 2) ? place : 0)));
    write_bytes(s, value, value->width - (one_in(s, 2) ? place : 0), 99);
    set_place(s, value->bank, 2);
    read_bytes(s, 1);
    look_after(s, value);
}

/* Writes without ENABLE, in unmapped banks, at 0xFF and 0xFE. */
static void odd_writes(Scenario *s)
{
    const Value *value = some_value(s);
    static const uint8_t ends[4] = {0xFF, 0xFE, 0xFD, 0x00};
    if (!one_in(s, 3)) {
        enable(s);
    }
    set_place(s, one_in(s, 3) ? unmapped_bank(s) : value->bank,
              one_in(s, 2) ? pick(s, ends, 4) : value->first);
    for (unsigned i = 0; i < 3; i++) {
        write_byte(s, one_in(s, 2) ? 0xFF : any_byte(s), any_byte(s));
        send(s, device(s, 0x36));
    }
    read_bytes(s, 2);
    send(s, device(s, 0x36));
}

/* ---- resets ---- */

/* Changes a value or two of a bank and leaves its lock byte as told. */
static void prepare_bank(Scenario *s, const Value *value, uint8_t lock)
{
    open_bank(s, value, 0x55);
    set_dtr0(s, value->first);
    write_bytes(s, value, value->width, 99);
    send(s, 0xC50200u | lock);
}

static void reset_sequence(Scenario *s)
{
    const Value *one = target_value(s);
    const Value *other = target_value(s);
    prepare_bank(s, one, one_in(s, 4) ? 0x54 : 0x55);
    if (one_in(s, 2)) {
        prepare_bank(s, other, one_in(s, 3) ? 0xFF : 0x55);
    }
    switch (below(s, 5)) {
    case 0:
    case 1:
        set_dtr0(s, 0);
        break;
    case 2:
        set_dtr0(s, unmapped_bank(s));
        break;
    default:
        set_dtr0(s, one->bank);
        break;
    }
    pair(s, 0x11);
    set_place(s, one->bank, 2);
    read_bytes(s, 1);
    read_value(s, one);
    read_value(s, other);
}

/* ---- reads ---- */

/* The stored bytes change while they are latched. */
static void change_value(Scenario *s, const Value *value)
{
    switch (below(s, 4)) {
    case 0: /* its bank is reset */
        prepare_bank(s, value, 0x55);
        set_dtr0(s, one_in(s, 2) ? 0 : value->bank);
        pair(s, 0x11);
        break;
    case 1:
        power_on(s);
        break;
    default:
        open_bank(s, value, 0x55);
        set_dtr0(s, value->first);
        write_bytes(s, value, value->width, 99);
        break;
    }
}

/* A read elsewhere, which ends the latch or leaves it. */
static void read_elsewhere(Scenario *s, const Value *value)
{
    const Value *other = one_in(s, 2) ? some_value(s) : wide_value(s, false);
    switch (below(s, 5)) {
    case 0: /* a first or single byte */
        set_place(s, other->bank, other->first);
        break;
    case 1: /* a later byte */
        set_place(s, other->bank, (uint8_t)last_location(other));
        break;
    case 2: /* a single byte */
        set_place(s, value->bank, 0);
        break;
    case 3: /* past all values, or 0xFF */
        set_place(s, value->bank, one_in(s, 2) ? 0xFF : 0xFB);
        break;
    default:
        set_place(s, unmapped_bank(s), value->first);
        break;
    }
    read_bytes(s, 1);
}

/* A first byte is read, something happens, the rest is read. */
static void latch_sequence(Scenario *s)
{
    const Value *value = wide_value(s, !one_in(s, 4));
    set_place(s, value->bank, value->first);
    read_bytes(s, 1 + below(s, 2));
    if (!one_in(s, 5)) {
        change_value(s, value);
    }
    if (!one_in(s, 3)) {
        read_elsewhere(s, value);
    }
    set_place(s, value->bank, (uint8_t)(value->first + 1));
    read_bytes(s, value->width - 1u);
}

/* Many locations in a row. */
static void read_sweep(Scenario *s)
{
    const Value *value = some_value(s);
    uint8_t location = one_in(s, 2) ? 0 : (uint8_t)(value->first - 2);
    if (one_in(s, 4)) {
        location = (uint8_t)(0xFA + below(s, 5));
    }
    set_place(s, value->bank, location);
    read_bytes(s, 5 + below(s, 10));
    send(s, device(s, 0x36));
}

/* ---- address and groups ---- */

static void set_groups(Scenario *s, uint8_t opcode, uint32_t sixteen)
{
    uint32_t bits = opcode == 0x1A || opcode == 0x1C ? sixteen << 16 : sixteen;
    if (one_in(s, 2)) {
        send(s, 0xC90000u | sixteen);
    } else {
        send(s, 0xC13200u | sixteen >> 8);
        send(s, 0xC13100u | (sixteen & 0xFF));
    }
    pair(s, opcode);
    if (opcode == 0x19 || opcode == 0x1A) {
        s->groups |= bits;
    } else {
        s->groups &= ~bits;
    }
}

static void query_groups(Scenario *s)
{
    for (unsigned i = 0; i < 4; i++) {
        send(s, device(s, (uint8_t)(0x41 + i)));
    }
}

static void group_change(Scenario *s)
{
    set_groups(s, (uint8_t)(0x19 + below(s, 4)), below(s, 0x10000));
    query_groups(s);
    send(s, foreign_frame(s));
    send(s, device(s, 0x37));
}

static void set_address(Scenario *s, uint8_t address)
{
    set_dtr0(s, address);
    pair(s, 0x14);
    if (address < 64 || address == NO_ADDRESS) {
        s->address = address;
    }
}

static void address_change(Scenario *s)
{
    static const uint8_t addresses[8] = {0, 63, 64, 0x7F, 254, 255, 255, 0x80};
    uint8_t before = s->address;
    set_address(s, one_in(s, 2) ? (uint8_t)below(s, 64)
                                : pick(s, addresses, 8));
    send(s, device_frame((uint8_t)((before & 63) << 1 | 1), 0x36));
    send(s, device(s, 0x36));
    send(s, device_frame(0xFD, 0x36));
    send(s, device_frame(one_in(s, 2) ? 0xFD : 0xFF, 0x33));
}

/* Address and groups are brought to what the generator holds. */
static void settle(Scenario *s)
{
    uint32_t groups = s->groups;
    send(s, 0xC13000u | s->address);
    send(s, 0xFFFE14);
    send(s, 0xFFFE14);
    send(s, 0xC9FFFF);
    send(s, 0xFFFE1B);
    send(s, 0xFFFE1B);
    send(s, 0xFFFE1C);
    send(s, 0xFFFE1C);
    send(s, 0xC90000u | (groups & 0xFFFF));
    send(s, 0xFFFE19);
    send(s, 0xFFFE19);
    send(s, 0xC90000u | groups >> 16);
    send(s, 0xFFFE1A);
    send(s, 0xFFFE1A);
}

/* ---- pairs ---- */

static uint8_t pair_opcode(Scenario *s)
{
    static const uint8_t opcodes[10] = {0x15, 0x15, 0x15, 0x15, 0x11,
                                        0x14, 0x19, 0x1A, 0x1B, 0x1C};
    return pick(s, opcodes, 10);
}

/* What may come between two halves. */
static void between_halves(Scenario *s, uint32_t half)
{
    switch (below(s, 10)) {
    case 0:
        send_after(s, below(s, 20), event_frame(s));
        break;
    case 1:
        send_after(s, below(s, 20), reserved_frame(s));
        break;
    case 2:
        send_after(s, below(s, 20), foreign_frame(s));
        break;
    case 3:
        send_after(s, below(s, 20), unlisted_frame(s));
        break;
    case 4:
    case 9:
        power_on(s);
        break;
    case 5: /* the same command by another address */
        send_after(s, below(s, 20), (half & 0xFFFF) | 0xFF0000u);
        break;
    case 6: /* another pair command */
        send_after(s, below(s, 20), device(s, pair_opcode(s)));
        break;
    case 7: /* a write */
        send_after(s, below(s, 20), 0xC12000u | any_byte(s));
        break;
    default:
        send_after(s, below(s, 20), 0xC13200u | any_byte(s));
        break;
    }
}

/* What the pair did, seen from outside. */
static void observe_pair(Scenario *s, uint8_t opcode, const Value *value)
{
    if (opcode == 0x15) {
        set_place(s, value->bank, value->first);
        write_bytes(s, value, value->width, 99);
        read_value(s, value);
    } else if (opcode == 0x11) {
        set_place(s, value->bank, 2);
        read_bytes(s, 1);
        read_value(s, value);
    } else if (opcode == 0x14) {
        send(s, 0xFFFE33);
        send(s, device_frame((uint8_t)((s->address & 63) << 1 | 1), 0x36));
    } else {
        send(s, 0xFFFE41);
        send(s, 0xFFFE42);
        send(s, 0xFFFE43);
        send(s, 0xFFFE44);
    }
}

/* Halves at 99, 100 and 101, three and four in a row, something between, the
   clock running over. */
static void pair_timing(Scenario *s)
{
    static const uint8_t gaps[8] = {99, 100, 101, 102, 0, 100, 101, 200};
    const Value *value = target_value(s);
    uint8_t opcode = pair_opcode(s);
    uint32_t half = device(s, opcode);
    if (opcode == 0x11) {
        prepare_bank(s, value, 0x55);
    }
    set_place(s, any_byte(s), one_in(s, 2) ? value->bank : any_byte(s));
    if (one_in(s, 3)) {
        s->clock = UINT32_MAX - below(s, 120);
    }
    send_after(s, 0, half);
    if (one_in(s, 2)) {
        between_halves(s, half);
        send_after(s, below(s, 75), half);
    } else {
        send_after(s, pick(s, gaps, 8), half);
    }
    for (unsigned i = below(s, 4); i > 1; i--) {
        send_after(s, pick(s, gaps, 8), half);
    }
    observe_pair(s, opcode, value);
    if (opcode != 0x15 && opcode != 0x11) {
        settle(s);
    }
}

/* ---- other traffic ---- */

static void queries(Scenario *s)
{
    send(s, 0xC90000u | below(s, 0x10000));
    send(s, 0xC70000u | below(s, 0x10000));
    for (unsigned i = 0; i < 4; i++) {
        send(s, device(s, pick(s, listed + 7, 9)));
    }
}

/* Any frames; those that could pair are kept apart. */
static void noise(Scenario *s)
{
    for (unsigned i = 1 + below(s, 6); i > 0; i--) {
        send(s, below(s, 0x1000000));
        keep_between(s);
    }
}

static void rest(Scenario *s)
{
    if (one_in(s, 2)) {
        power_on(s);
    } else {
        s->clock += below(s, 200000);
    }
}

typedef void (*Episode)(Scenario *s);

static void play(Scenario *s, unsigned target)
{
    static const Episode episodes[] = {
        whole_writing, whole_writing,  whole_writing,  whole_writing,
        cut_writing,   cut_writing,    cut_writing,    cut_writing,
        door_writing,  door_writing,   door_writing,
        short_writing, short_writing,  lock_sequence,  lock_sequence,
        odd_writes,    reset_sequence, reset_sequence, latch_sequence,
        latch_sequence, latch_sequence, read_sweep,    group_change,
        address_change, pair_timing,   pair_timing,    pair_timing,
        queries,       noise,          rest};
    const unsigned count = sizeof episodes / sizeof episodes[0];
    while (s->emitted < target) {
        episodes[below(s, count)](s);
    }
}

/* Without a value nothing but plain traffic makes sense. */
static void play_without_values(Scenario *s, unsigned target)
{
    add_value(s, (unsigned)any_byte(s), 3, 4, 4, 0);
    play(s, target);
}

/* An unfinished record or one of unknown kind, sometimes with more after. */
static void end_badly(Scenario *s)
{
    static const uint8_t few[7] = {0, 0, 0, 1, 0, 0xFF, 0xFE};
    if (one_in(s, 2)) {
        (void)fwrite(few, 1, 1 + below(s, 7), s->input);
    } else {
        put_record(s, (uint8_t)(2 + below(s, 254)), 0xFFFE36);
        queries(s);
    }
}

static void make_input(Scenario *s)
{
    unsigned target = 80 + below(s, 420);
    s->clock = one_in(s, 3) ? UINT32_MAX - below(s, 3000)
                            : (uint32_t)next_random(s);
    if (one_in(s, 100)) {
        return; /* an empty input */
    }
    if (s->count == 0) {
        play_without_values(s, target);
    } else {
        play(s, target);
    }
    if (one_in(s, 8)) {
        end_badly(s);
    }
}

/* ---- files ---- */

static FILE *open_file(const char *folder, const char *name)
{
    char path[PATH_ROOM];
    (void)snprintf(path, sizeof path, "%s/%s", folder, name);
    (void)remove(path);
    FILE *file = fopen(path, "wb");
    if (file == NULL) {
        (void)fprintf(stderr, "cannot write %s\n", path);
        exit(EXIT_FAILURE);
    }
    return file;
}

static void write_file(const char *folder, const char *name,
                       const uint8_t *bytes, size_t count, bool missing)
{
    FILE *file = open_file(folder, name);
    bool whole = fwrite(bytes, 1, count, file) == count;
    if (fclose(file) != 0 || !whole) {
        (void)fprintf(stderr, "cannot write %s/%s\n", folder, name);
        exit(EXIT_FAILURE);
    }
    if (missing) {
        char path[PATH_ROOM];
        (void)snprintf(path, sizeof path, "%s/%s", folder, name);
        (void)remove(path);
    }
}

static void make_folder(const char *folder)
{
    if (mkdir(folder, 0777) != 0 && errno != EEXIST) {
        (void)fprintf(stderr, "cannot make %s\n", folder);
        exit(EXIT_FAILURE);
    }
}

static void write_scenario(const char *folder, uint64_t seed, unsigned index)
{
    static Scenario s;
    memset(&s, 0, sizeof s);
    s.random = seed * UINT64_C(0xD1B54A32D192ED03)
               + (uint64_t)index * UINT64_C(0x2545F4914F6CDD1D);
    make_unit(&s);
    make_folder(folder);
    write_file(folder, "unit.map", s.map, s.map_len, (s.missing & 1) != 0);
    write_file(folder, "unit.sto", s.store, s.store_len, (s.missing & 2) != 0);
    write_file(folder, "unit.rst", s.image, s.image_len, (s.missing & 4) != 0);
    write_file(folder, "unit.adr", s.adr, s.adr_len, (s.missing & 8) != 0);
    s.input = open_file(folder, "input");
    make_input(&s);
    if (fclose(s.input) != 0) {
        (void)fprintf(stderr, "cannot write %s/input\n", folder);
        exit(EXIT_FAILURE);
    }
}

int main(int argc, char **argv)
{
    if (argc != 4) {
        (void)fprintf(stderr, "usage: scenarios SEED COUNT DIR\n");
        return EXIT_FAILURE;
    }
    uint64_t seed = strtoull(argv[1], NULL, 10);
    unsigned count = (unsigned)strtoul(argv[2], NULL, 10);
    make_folder(argv[3]);
    for (unsigned i = 0; i < count; i++) {
        char folder[PATH_ROOM / 2];
        (void)snprintf(folder, sizeof folder, "%s/%04u", argv[3], i);
        write_scenario(folder, seed, i);
    }
    return EXIT_SUCCESS;
}
