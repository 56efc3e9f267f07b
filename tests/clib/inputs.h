/* Random inputs for the comparison: what is lent to the calls, frames that mean something, and damage. */
#ifndef INPUTS_H
#define INPUTS_H

#include "mirtofalko.h"

#include <stdbool.h>

/* ---- random numbers ---- */

void begin(uint64_t seed);
uint32_t any(void);
uint32_t below(uint32_t n); /* n is at least 1 */
bool once_in(uint32_t n);
uint8_t byte(void);

/* ---- map, store and image ---- */

enum { ROOM = 4104 }; /* a store, and bytes behind it that no call may touch */

typedef struct Lent {
    uint8_t map[528], image[ROOM];
    size_t map_length, image_length, store_length;
} Lent;

/* What a call of the unit changes. */
typedef struct Kept {
    uint8_t state[MF_STATE_BYTES], store[ROOM];
} Kept;

static inline uint8_t *record(Lent *lent, size_t i) { return lent->map + 8 * i; }
static inline size_t records(const Lent *lent) { return lent->map_length / 8; }
static inline size_t place_of(const uint8_t *r) { return (size_t)r[6] << 8 | r[7]; }
static inline bool is_writable(const uint8_t *r) { return r[3] == 2 || r[3] == 4; }

/* A map, a store and an image that keep all rules. */
void make_lent(Lent *lent, Kept *kept);

/* ---- frames ---- */

/* A list of frames that means something: the value of a record written, read, or its bank reset. */
typedef struct Plan {
    uint32_t frames[64], length, next;
} Plan;

uint32_t any_frame(const Kept *kept);
uint32_t next_frame(Plan *plan, Lent *lent, const Kept *kept);

/* ---- damage ---- */

enum Damage {
    /* of map, store and image, in the order of their numbers */
    MAP_NO_MULTIPLE, MAP_OF_65,
    BANK_200, WIDTH_0_OR_9, PAST_0XFE, KIND_5, LOCKABLE_2, LOCKABLE_READ_ONLY, SIXTH_BYTE,
    EXCHANGED, TWICE, OVERLAP,
    OTHER_LENGTHS, STORE_OVER_4096, PLACE_OUTSIDE, PLACE_SHARED,
    NO_HEAD, HEAD_NOT_ROM, HEAD_BYTE, HEAD_BELOW_HIGHEST, NO_LOCK, LOCK_KIND, LOCK_LOCKABLE, BANK_0_WRITABLE,
    /* of the state: first those that keep the rules */
    AS_IT_IS, WAITING, STAGED, LATCHED,
    ADDRESS_64, FLAG_2,
    WAITING_NO_PAIR, WAITING_FOR_ANOTHER, WAITING_OVER_24_BITS, WAITING_ENABLED, NONE_WAITS,
    STAGED_CLOSED, STAGED_ALL, STAGED_FROM_SECOND, STAGED_READ_ONLY, STAGED_LOCKED, STAGED_BEHIND, NONE_STAGED,
    LATCHED_FROM_SECOND, LATCHED_BEHIND, NONE_LATCHED,
    BYTE_FROM_40,
    /* anything may come of these */
    ANY_OF_MAP, ANY_OF_STORE, ANY_OF_STATE,
    DAMAGES
};

enum { ANY_NUMBER = 255 };

/* What it is, and the number that it gives where all rules were kept before. */
extern const struct DamageSays {
    const char *name;
    uint32_t number;
} damages[DAMAGES];

/* False where this map has no place for it; then nothing is changed. */
bool damage(enum Damage which, Lent *lent, Kept *kept);

#endif
