/* Map, store, reset image: tests 7 to 11, finding values, look and find. */
#include "banks.h"

#include "unit.h"

enum {
    RECORD_BYTES = 8,
    BANK_LIMIT = 199,     /* bank at most 199 */
    LOCATION_LIMIT = 0xFE /* last location at most 0xFE */
};

size_t record_count(const Lent *lent)
{
    return lent->map_len / RECORD_BYTES;
}

/* Bank, first location, width, kind, lockable, zero, store offset (two bytes,
   high first). */
Value record_at(const Lent *lent, size_t index)
{
    const uint8_t *bytes = lent->map + index * RECORD_BYTES;
    Value value;
    value.bank = bytes[0];
    value.first = bytes[1];
    value.width = bytes[2];
    value.kind = bytes[3];
    value.lockable = bytes[4];
    value.zero = bytes[5];
    value.offset = (uint16_t)((uint32_t)bytes[6] << 8 | bytes[7]);
    return value;
}

/* A record holds the locations of its bank from its first one on, as many as
   its width. */
static bool holds(const Value *value, uint32_t bank, uint32_t location)
{
    return value->bank == bank && location >= value->first
           && location - value->first < value->width;
}

bool value_holding(const Lent *lent, uint32_t bank, uint32_t location,
                   Value *value)
{
    for (size_t i = 0; i < record_count(lent); i++) {
        Value found = record_at(lent, i);
        if (holds(&found, bank, location)) {
            *value = found;
            return true;
        }
    }
    return false;
}

bool value_beginning(const Lent *lent, uint32_t bank, uint32_t location,
                     Value *value)
{
    Value found;
    if (!value_holding(lent, bank, location, &found)
        || found.first != location) {
        return false;
    }
    *value = found;
    return true;
}

bool bank_mapped(const Lent *lent, uint8_t bank)
{
    for (size_t i = 0; i < record_count(lent); i++) {
        if (record_at(lent, i).bank == bank) {
            return true;
        }
    }
    return false;
}

/* Only 2 and 4 are writable or may be lockable. */
bool writable(const Value *value)
{
    return value->kind == RAM_RW || value->kind == NVM_RW;
}

/* Banks 1 to 199 have at 0x02 the lock byte. */
bool is_lock_byte(const Value *value)
{
    return value->bank != 0 && value->first == LOCK_BYTE_LOCATION;
}

bool bank_unlocked(const Lent *lent, uint8_t bank)
{
    Value lock_byte;
    return bank != 0
           && value_beginning(lent, bank, LOCK_BYTE_LOCATION, &lock_byte)
           && lent->store[lock_byte.offset] == UNLOCKED;
}

uint8_t stored_byte(const Lent *lent, const Value *value, uint8_t location)
{
    return lent->store[value->offset + (location - value->first)];
}

void copy_bytes(uint8_t *to, const uint8_t *from, size_t count)
{
    for (size_t i = 0; i < count; i++) {
        to[i] = from[i];
    }
}

void put_value(const Lent *lent, const Value *value, const uint8_t *bytes)
{
    copy_bytes(lent->store_to_change + value->offset, bytes, value->width);
}

void take_reset_image(const Lent *lent, const Value *value)
{
    put_value(lent, value, lent->image + value->offset);
}

void lock_bank(const Lent *lent, const Value *lock_byte)
{
    lent->store_to_change[lock_byte->offset] = LOCKED;
}

/* A record's own fields. */
static bool fields_hold(const Value *value)
{
    return value->bank <= BANK_LIMIT && value->width >= 1
           && value->width <= VALUE_LIMIT
           && value->first + value->width - 1 <= LOCATION_LIMIT
           && value->kind <= NVM_RW && value->lockable <= 1
           && (value->lockable == 0 || writable(value)) && value->zero == 0;
}

static bool every_record_holds(const Lent *lent)
{
    for (size_t i = 0; i < record_count(lent); i++) {
        Value value = record_at(lent, i);
        if (!fields_hold(&value)) {
            return false;
        }
    }
    return true;
}

/* Records rise strictly by (bank, first) and don't overlap. */
static bool records_rise(const Lent *lent)
{
    for (size_t i = 1; i < record_count(lent); i++) {
        Value before = record_at(lent, i - 1);
        Value value = record_at(lent, i);
        if (value.bank < before.bank) {
            return false;
        }
        if (value.bank == before.bank
            && value.first < before.first + before.width) {
            return false;
        }
    }
    return true;
}

uint32_t check_map(const Lent *lent)
{
    if (lent->map_len % RECORD_BYTES != 0 || lent->map_len > MAP_LIMIT) {
        return MAP_LENGTH;
    }
    if (!every_record_holds(lent)) {
        return RECORD_FIELDS;
    }
    if (!records_rise(lent)) {
        return RECORD_ORDER;
    }
    return 0;
}

static bool places_shared(const Value *one, const Value *other)
{
    return one->offset < other->offset + other->width
           && other->offset < one->offset + one->width;
}

/* Store places lie inside and are disjoint. */
static bool places_hold(const Lent *lent)
{
    for (size_t i = 0; i < record_count(lent); i++) {
        Value value = record_at(lent, i);
        if ((size_t)value.offset + value.width > lent->store_len) {
            return false;
        }
        for (size_t j = 0; j < i; j++) {
            Value other = record_at(lent, j);
            if (places_shared(&value, &other)) {
                return false;
            }
        }
    }
    return true;
}

/* The bank's highest mapped location; the bank has a record. */
static uint8_t highest_location(const Lent *lent, uint8_t bank)
{
    int highest = 0;
    for (size_t i = 0; i < record_count(lent); i++) {
        Value value = record_at(lent, i);
        int last = value.first + value.width - 1;
        if (value.bank == bank && last > highest) {
            highest = last;
        }
    }
    return (uint8_t)highest;
}

/* A ROM record of width 1 at 0x00, whose stored byte is 3..254 and not below
   the bank's highest mapped location. */
static bool last_byte_holds(const Lent *lent, uint8_t bank)
{
    Value value;
    if (!value_beginning(lent, bank, LAST_BYTE_LOCATION, &value)
        || value.kind != ROM || value.width != 1) {
        return false;
    }
    uint8_t byte = lent->store[value.offset];
    return byte >= 3 && byte <= 254 && byte >= highest_location(lent, bank);
}

/* At 0x02 the lock byte: width 1, kind 2, not lockable. */
static bool lock_byte_holds(const Lent *lent, uint8_t bank)
{
    Value value;
    return value_beginning(lent, bank, LOCK_BYTE_LOCATION, &value)
           && value.width == 1 && value.kind == RAM_RW && value.lockable == 0;
}

/* Bank 0 has only kinds 0, 1, 3. */
static bool bank_0_holds(const Lent *lent)
{
    for (size_t i = 0; i < record_count(lent); i++) {
        Value value = record_at(lent, i);
        if (value.bank == 0 && writable(&value)) {
            return false;
        }
    }
    return true;
}

/* The rules of each bank present, tested at its first record. */
static bool bank_rules_hold(const Lent *lent)
{
    for (size_t i = 0; i < record_count(lent); i++) {
        uint8_t bank = record_at(lent, i).bank;
        if (i > 0 && record_at(lent, i - 1).bank == bank) {
            continue;
        }
        if (!last_byte_holds(lent, bank)
            || (bank != 0 && !lock_byte_holds(lent, bank))) {
            return false;
        }
    }
    return bank_0_holds(lent);
}

/* 7 to 11, each over everything. The store is only read. */
static uint32_t check_lent(const Lent *lent, size_t image_len)
{
    uint32_t number = check_map(lent);
    if (number != 0) {
        return number;
    }
    if (lent->store_len != image_len || lent->store_len > STORE_LIMIT
        || !places_hold(lent)) {
        return STORE_PLACES;
    }
    if (!bank_rules_hold(lent)) {
        return BANK_RULE;
    }
    return 0;
}

uint32_t second_check(const uint8_t *map, size_t map_len, const uint8_t *store,
                      size_t store_len, size_t image_len)
{
    const Lent lent = {map, map_len, store, store_len, store, NULL};
    return check_lent(&lent, image_len);
}

/* A call without an image takes the store for it. */
uint32_t second_look(const uint8_t *map, size_t map_len, const uint8_t *store,
                     size_t store_len, uint32_t bank, uint32_t location)
{
    const Lent lent = {map, map_len, store, store_len, store, NULL};
    Value value;
    uint32_t number = check_lent(&lent, store_len);
    if (number != 0) {
        return number;
    }
    if (!value_beginning(&lent, bank, location, &value)) {
        return NO_VALUE;
    }
    return (uint32_t)value.width << 8 | (uint32_t)value.offset << 16;
}

/* The next mapped location in a bank, above one that no value holds: the first
   location of the record that begins nearest above. False where none does. */
static bool next_mapped(const Lent *lent, uint32_t bank, uint32_t location,
                        uint8_t *next)
{
    bool above = false;
    for (size_t i = 0; i < record_count(lent); i++) {
        Value value = record_at(lent, i);
        if (value.bank == bank && value.first > location
            && (!above || value.first < *next)) {
            *next = value.first;
            above = true;
        }
    }
    return above;
}

static uint64_t found_answer(uint32_t what, uint8_t location, uint8_t width)
{
    return (uint64_t)what << 8 | (uint64_t)location << 16
           | (uint64_t)width << 24;
}

/* The value that holds a location, or why none does: bank absent, hole with
   the next mapped location in that bank, or past the bank's last one. */
static uint64_t find_by_walk(const Lent *lent, uint32_t bank,
                             uint32_t location)
{
    Value value;
    uint8_t next = 0;
    if (value_holding(lent, bank, location, &value)) {
        return found_answer(FOUND, value.first, value.width);
    }
    if (!bank_mapped(lent, (uint8_t)bank)) {
        return found_answer(ABSENT, 0, 0);
    }
    if (next_mapped(lent, bank, location, &next)) {
        return found_answer(HOLE, next, 0);
    }
    return found_answer(PAST, 0, 0);
}

/* (bank, location) is below a record's (bank, first location): by bank, then
   by location. */
static bool below(uint32_t bank, uint32_t location, const Value *value)
{
    return bank < value->bank
           || (bank == value->bank && location < value->first);
}

/* How many record positions the halving visits. It serves the count alone:
   nothing is found by it. */
static uint32_t positions_visited(const Lent *lent, uint32_t bank,
                                  uint32_t location)
{
    size_t low = 0;                   /* the first position that is left */
    size_t high = record_count(lent); /* the one behind the last */
    uint32_t count = 0;
    while (low < high) {
        size_t middle = low + (high - low) / 2;
        Value value = record_at(lent, middle);
        count++;
        if (holds(&value, bank, location)) {
            return count;
        }
        if (below(bank, location, &value)) {
            high = middle;
        } else {
            low = middle + 1;
        }
    }
    return count;
}

/* There is no store: 10 and 11 are not tested. */
uint64_t second_find(const uint8_t *map, size_t map_len, uint32_t bank,
                     uint32_t location)
{
    const Lent lent = {map, map_len, NULL, 0, NULL, NULL};
    uint32_t number = check_map(&lent);
    if (number != 0) {
        return number;
    }
    if (bank > 0xFF || location > 0xFF) {
        return FIELD_OUT_OF_RANGE;
    }
    return find_by_walk(&lent, bank, location)
           | (uint64_t)positions_visited(&lent, bank, location) << 32;
}
