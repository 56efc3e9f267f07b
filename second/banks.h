/* Map, store and reset image, for the library's own use. */
#ifndef SECOND_BANKS_H
#define SECOND_BANKS_H

#include <stdbool.h>
#include <stddef.h>
#include <stdint.h>

/* Kinds: 0 ROM, 1 RAM-RO, 2 RAM-RW, 3 NVM-RO, 4 NVM-RW. */
enum { ROM = 0, RAM_RO = 1, RAM_RW = 2, NVM_RO = 3, NVM_RW = 4 };

enum {
    LAST_BYTE_LOCATION = 0x00, /* holds the bank's last location */
    LOCK_BYTE_LOCATION = 0x02,
    UNLOCKED = 0x55,
    LOCKED = 0xFF
};

/* What the caller lends: map, store and reset image. */
typedef struct Lent {
    const uint8_t *map;
    size_t map_len;
    const uint8_t *store;
    size_t store_len;
    const uint8_t *image;
    uint8_t *store_to_change; /* the same store; NULL if a call only reads */
} Lent;

/* One record of the map. */
typedef struct Value {
    uint8_t bank;
    uint8_t first;
    uint8_t width;
    uint8_t kind;
    uint8_t lockable;
    uint8_t zero;
    uint16_t offset;
} Value;

size_t record_count(const Lent *lent);
Value record_at(const Lent *lent, size_t index);

/* The first of 7 to 9 that is given, or 0: the map alone, each over
   everything. */
uint32_t check_map(const Lent *lent);

/* The value that begins at, or holds, a location; false where none does. */
bool value_beginning(const Lent *lent, uint32_t bank, uint32_t location,
                     Value *value);
bool value_holding(const Lent *lent, uint32_t bank, uint32_t location,
                   Value *value);

/* Some record has that bank. */
bool bank_mapped(const Lent *lent, uint8_t bank);

bool writable(const Value *value);
bool is_lock_byte(const Value *value);

/* The bank's lock byte is 0x55. */
bool bank_unlocked(const Lent *lent, uint8_t bank);

/* A value's bytes are its part of the store, from its offset on. */
uint8_t stored_byte(const Lent *lent, const Value *value, uint8_t location);
void copy_bytes(uint8_t *to, const uint8_t *from, size_t count);
void put_value(const Lent *lent, const Value *value, const uint8_t *bytes);
void take_reset_image(const Lent *lent, const Value *value);
void lock_bank(const Lent *lent, const Value *lock_byte);

#endif
