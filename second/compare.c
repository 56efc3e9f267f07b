/* Compare two images: one map, two stores, and a list of the values that
   differ. */
#include "banks.h"

#include "unit.h"

/* Where a listed value has its old and its new bytes. */
enum { OLD_BYTES = 8, NEW_BYTES = 16 };

/* The first store is the old one; the second has the image's place. */
static bool differs(const Lent *lent, const Value *value)
{
    const uint8_t *old_bytes = lent->store + value->offset;
    const uint8_t *new_bytes = lent->image + value->offset;
    for (size_t i = 0; i < value->width; i++) {
        if (old_bytes[i] != new_bytes[i]) {
            return true;
        }
    }
    return false;
}

static uint32_t differing_values(const Lent *lent)
{
    uint32_t count = 0;
    for (size_t i = 0; i < record_count(lent); i++) {
        Value value = record_at(lent, i);
        if (differs(lent, &value)) {
            count++;
        }
    }
    return count;
}

/* Bank, first location, width, kind, four zeros, old bytes, new bytes (each 8,
   zero filled at the end). */
static void list_value(const Lent *lent, const Value *value, uint8_t *place)
{
    for (size_t i = 0; i < LISTED_BYTES; i++) {
        place[i] = 0;
    }
    place[0] = value->bank;
    place[1] = value->first;
    place[2] = value->width;
    place[3] = value->kind;
    copy_bytes(place + OLD_BYTES, lent->store + value->offset, value->width);
    copy_bytes(place + NEW_BYTES, lent->image + value->offset, value->width);
}

/* Each differing value once, in map order, no equal one. */
static void list_values(const Lent *lent, uint8_t *output)
{
    size_t listed = 0;
    for (size_t i = 0; i < record_count(lent); i++) {
        Value value = record_at(lent, i);
        if (differs(lent, &value)) {
            list_value(lent, &value, output + listed * LISTED_BYTES);
            listed++;
        }
    }
}

/* The first store is tested first, each with the other in the image's place.
   The room is tested before a byte of the output is written. */
uint32_t second_compare(const uint8_t *map, size_t map_len,
                        const uint8_t *old_store, size_t old_len,
                        const uint8_t *new_store, size_t new_len,
                        uint8_t *output, size_t output_len)
{
    const Lent lent = {map, map_len, old_store, old_len, new_store, NULL};
    uint32_t number = second_check(map, map_len, old_store, old_len, new_len);
    if (number == 0) {
        number = second_check(map, map_len, new_store, new_len, old_len);
    }
    if (number != 0) {
        return number;
    }
    uint32_t count = differing_values(&lent);
    if (output_len < (size_t)count * LISTED_BYTES) {
        return ROOM_TOO_SMALL;
    }
    list_values(&lent, output);
    return count << 8;
}
