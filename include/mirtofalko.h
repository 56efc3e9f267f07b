/* Mirtofalko: settings in lighting units (IEC 62386-103), for C99 and later and for C++11 and later.
 *
 *   State of a unit   96 bytes
 *   Stack             at most 2,048 bytes for any call. Measured on x86-64: mf_check 128, mf_start 368, mf_frame 960,
 *                     mf_power_on 880, mf_run 1584, mf_look 160, mf_find 80, mf_compare 240, mf_session 288, mf_read 288,
 *                     mf_write 40, mf_compose_event 56, mf_compose_power 24, mf_census 448 bytes
 *   Code              about 26,000 bytes with its constants on x86-64
 *   Needs             memcpy, and nothing else: no heap, no file, no initialisation
 *   Re-entrant        every call: it keeps nothing of its own, and it returns. One unit is stepped by one thread at a
 *                     time; different units, and calls without a unit, need no lock between them
 *
 * A unit is four things that you lend to each call:
 *   map     which values there are: records of 8 bytes, 0 to 64 of them
 *   store   the values' bytes, 0 to 4,096; the calls change it
 *   image   the reset image, as long as the store
 *   state   96 bytes; the calls change it, and you only keep it
 * A record of the map: bank, first location, width 1..8, kind (below), lockable (0/1), zero, store offset (two bytes,
 * high first). A value's bytes stand in the store from its offset on, most significant byte first.
 * `mf_unit` (below) holds them side by side, so that a call names the unit only.
 *
 * Every call is proved: for all inputs its answer, the state and the store are what the definitions say. The
 * definitions stand in crates/faces/specs, those of mf_find in crates/finds/specs, of mf_compare in crates/compare/specs,
 * of mf_session in crates/session/specs and of mf_census in crates/census/specs.
 *
 * What no call can check, and you must see to:
 *   - Each pointer is good for as many bytes as the length beside it says, and is not null, also for the length 0.
 *   - What a call changes (state, output, frames, counts, and the store where it is not const) overlaps nothing else that is
 *     lent to that call. Two inputs that are only read may be one buffer.
 *   - A state comes from an accepted mf_start. Zeros are a state too, that of a unit with address 0: a refused start
 *     leaves them, so do not step it; and a state that was never started answers as address 0.
 *
 * `./mirto install PREFIX` puts the archive libmirtofalko.a, this header and a file for pkg-config below PREFIX.
 * Today's archive links into x86-64 programs only.
 */
#ifndef MIRTOFALKO_H
#define MIRTOFALKO_H

#include <stddef.h>
#include <stdint.h>

/* The interface counts up where a call, an answer or the state's bytes change; then you compile anew. */
#define MF_INTERFACE 9
#define MF_VERSION "1.0"
#define MF_VERSION_MAJOR 1
#define MF_VERSION_MINOR 0

#ifdef __cplusplus
extern "C" {
#endif

/* The numbers. 0 is no refusal. A refused call changes neither state nor store nor mf_compare's output; only a refused start
 * writes a state, all zeros, and a refused session its 13 places, all zeros. 13 is no refusal of the records before it: those
 * that mf_run answered and mf_census counted stand. Where several rules are broken the first in the call's order gives its
 * number. mf_text says each. */
enum {
    MF_OK = 0,
    MF_BAD_FRAME = 1,          /* frame 16,777,216 or more */
    MF_BAD_ADDRESS_BYTE = 2,   /* reserved address byte */
    MF_BAD_INSTANCE_BYTE = 3,  /* reserved instance byte */
    MF_BAD_EVENT = 4,          /* reserved event */
    MF_BAD_BLANK_FIELD = 5,    /* power event with a non-zero blank field */
    MF_BAD_FIELD = 6,          /* field out of range: writer, composer, start, find, session */
    MF_BAD_MAP_LENGTH = 7,     /* map not a multiple of 8 bytes, or over 512 */
    MF_BAD_RECORD = 8,         /* a record's own fields break the rules */
    MF_BAD_RECORD_ORDER = 9,   /* records out of order or overlapping */
    MF_BAD_PLACES = 10,        /* store and image lengths differ, exceed 4,096, or a place is outside or shared */
    MF_BAD_BANK = 11,          /* a bank rule of 0x00, 0x02 or bank 0 broken */
    MF_BAD_STATE = 12,         /* a rule of a state broken; also 96 bytes that are no state */
    MF_BAD_TRACE_RECORD = 13,  /* trace record unfinished or of unknown kind */
    MF_BAD_LOCATION = 14,      /* no value begins there */
    MF_BAD_ROOM = 15,          /* output room too small for the whole list */
    MF_BAD_KIND = 16           /* the value is not writable */
};

enum {
    MF_STATE_BYTES = 96,  /* a state */
    MF_RECORD_BYTES = 8,  /* a trace record: clock (4, high byte first), kind, frame (3, high byte first) */
    MF_OUTPUT_BYTES = 4,  /* what mf_run writes for it: number, answered 0/1, answer or 0, zero */
    MF_DIFFERENCE_BYTES = 24, /* what mf_compare writes for a value: bank, first location, width, kind, four zeros, its old
                               * bytes and its new bytes, each 8, zero filled at the end */
    MF_SESSION_FRAMES = 13, /* the places that mf_session writes */
    MF_COUNTS = 16,       /* the counts that mf_census adds to: MF_CLASSES of frames, and MF_POWER_ONS */
    MF_NO_ADDRESS = 255,  /* the address of a unit that has none */
    MF_NO_GROUP = 255     /* the primary group of an instance that has none */
};

/* Kinds of value in the map. Only MF_RAM_RW and MF_NVM_RW are writable or may be lockable. */
enum { MF_ROM = 0, MF_RAM_RO = 1, MF_RAM_RW = 2, MF_NVM_RO = 3, MF_NVM_RW = 4 };

/* Kinds of record for mf_run and mf_census. Clock and frame of a power-on are not looked at. */
enum { MF_RECORD_FRAME = 0, MF_RECORD_POWER_ON = 1 };

/* Kinds of message. An event of scheme s is MF_EVENT + s. */
enum { MF_COMMAND = 0, MF_SPECIAL = 1, MF_EVENT = 2, MF_POWER_CYCLE = 7 };

/* Schemes of an event, by their two fields; and the scheme as shipped, which is 2 (before interface 3: 0). */
enum {
    MF_TYPE_AND_NUMBER = 0,
    MF_SHORT_AND_TYPE = 1,
    MF_SHORT_AND_NUMBER = 2,
    MF_GROUP_AND_TYPE = 3,   /* the lowest device group */
    MF_PRIMARY_AND_TYPE = 4, /* the primary instance group */
    MF_AS_SHIPPED = 255
};

/* Kinds of address: the first two hold a number, 0..63 and 0..31. */
enum { MF_TO_SHORT = 0, MF_TO_GROUP = 1, MF_TO_UNADDRESSED = 2, MF_TO_ALL = 3 };

/* Kinds of target: the first six hold a number 0..31. */
enum {
    MF_AT_NUMBER = 1,           /* instance number */
    MF_AT_GROUP = 2,            /* instance group */
    MF_AT_TYPE = 3,             /* instance type */
    MF_FEATURE_AT_NUMBER = 4,
    MF_FEATURE_AT_GROUP = 5,
    MF_FEATURE_AT_TYPE = 6,
    MF_FEATURE_AT_ALL = 7,      /* feature broadcast */
    MF_FEATURE_AT_DEVICE = 8,   /* device feature */
    MF_FEATURE_AT_INSTANCES = 9, /* feature at instance broadcast */
    MF_AT_DEVICE = 10,
    MF_AT_INSTANCES = 11        /* instance broadcast */
};

/* What mf_census counts, by its place in the counts: the frames in MF_CLASSES classes, and the power-on records apart. */
enum {
    MF_COUNT_SHORT = 0,             /* commands that are well formed, by address kind: to a short address */
    MF_COUNT_GROUP = 1,             /* to a device group */
    MF_COUNT_UNADDRESSED = 2,       /* to all without an address */
    MF_COUNT_ALL = 3,               /* to all */
    MF_COUNT_SPECIAL = 4,           /* special commands */
    MF_COUNT_BAD_ADDRESS_BYTE = 5,  /* reserved address byte */
    MF_COUNT_BAD_INSTANCE_BYTE = 6, /* reserved instance byte, whatever the address kind */
    MF_COUNT_EVENT = 7,             /* an event of scheme s stands at MF_COUNT_EVENT + s: 7 to 11 */
    MF_COUNT_POWER_CYCLE = 12,
    MF_COUNT_BAD_BLANK_FIELD = 13,  /* malformed power event */
    MF_COUNT_BAD_EVENT = 14,        /* reserved event */
    MF_CLASSES = 15,                /* how many classes there are: their counts add up to the frame records */
    MF_COUNT_POWER_ON = 15          /* power-on records */
};

/* ---- answers ----
 *
 * One rule for every answer but the count of mf_run: its low byte is the number. Where that is not 0 the rest is 0. */
static inline uint32_t mf_number(uint64_t answer) { return (uint32_t)(answer & 0xFF); }

/* A number as a sentence. */
static inline const char *mf_text(uint32_t number) {
    switch (number) {
    case MF_OK: return "no refusal";
    case MF_BAD_FRAME: return "frame 16,777,216 or more";
    case MF_BAD_ADDRESS_BYTE: return "reserved address byte";
    case MF_BAD_INSTANCE_BYTE: return "reserved instance byte";
    case MF_BAD_EVENT: return "reserved event";
    case MF_BAD_BLANK_FIELD: return "power event with a non-zero blank field";
    case MF_BAD_FIELD: return "field out of range: writer, composer, start";
    case MF_BAD_MAP_LENGTH: return "map not a multiple of 8 bytes, or over 512";
    case MF_BAD_RECORD: return "a record's own fields break the rules";
    case MF_BAD_RECORD_ORDER: return "records out of order or overlapping";
    case MF_BAD_PLACES: return "store and image lengths differ, exceed 4,096, or a place is outside or shared";
    case MF_BAD_BANK: return "a bank rule of 0x00, 0x02 or bank 0 broken";
    case MF_BAD_STATE: return "a rule of a state broken";
    case MF_BAD_TRACE_RECORD: return "trace record unfinished or of unknown kind";
    case MF_BAD_LOCATION: return "no value begins there";
    case MF_BAD_ROOM: return "output room too small for the whole list";
    case MF_BAD_KIND: return "the value is not writable";
    default: return "no such number";
    }
}

/* Of mf_start, mf_frame, mf_power_on: number | answered << 8 | answer << 16. Only a frame is answered. */
static inline uint32_t mf_answered(uint32_t answer) { return answer >> 8 & 1; }
static inline uint8_t mf_answer(uint32_t answer) { return (uint8_t)(answer >> 16 & 0xFF); }

/* Of mf_look: number | width << 8 | offset << 16. */
static inline uint32_t mf_width(uint32_t look) { return look >> 8 & 0xFF; }
static inline uint32_t mf_offset(uint32_t look) { return look >> 16; }

/* Of mf_find: number | what << 8 | location << 16 | width << 24 | count << 32. mf_what is one of these. mf_place: of MF_FOUND
 * the value's first location, of MF_HOLE the next mapped location in that bank, else 0. mf_place_width: of MF_FOUND the
 * value's width, else 0. mf_count: how many records of the map the look-up examined, which comes behind the tests of the map:
 * at most 7, at most 6 where it has fewer than 64, at most 5 where it has fewer than 32 and so on, 0 where it has none. */
enum {
    MF_FOUND = 0,  /* a value holds the location */
    MF_ABSENT = 1, /* no value lies in the bank */
    MF_HOLE = 2,   /* no value holds it, and one follows in the bank */
    MF_PAST = 3    /* every mapped location of the bank lies below */
};
static inline uint32_t mf_what(uint64_t find) { return (uint32_t)(find >> 8 & 0xFF); }
static inline uint32_t mf_place(uint64_t find) { return (uint32_t)(find >> 16 & 0xFF); }
static inline uint32_t mf_place_width(uint64_t find) { return (uint32_t)(find >> 24 & 0xFF); }
static inline uint32_t mf_count(uint64_t find) { return (uint32_t)(find >> 32 & 0xFF); }

/* Of mf_compare: number | count << 8. How many values differ: at most 64, and 0 where the stores are alike. */
static inline uint32_t mf_differing(uint32_t compared) { return compared >> 8; }

/* Of mf_session: number | count << 8. How many frames there are: 4 to 13, and 0 of a refusal. */
static inline uint32_t mf_frames(uint32_t session) { return session >> 8; }

/* Of mf_write, mf_compose_event, mf_compose_power: number | frame << 8. */
static inline uint32_t mf_frame_of(uint32_t written) { return written >> 8; }

/* Of mf_read: a message word, eight bytes from high to low: 0, kind, then by kind
 *   command       address kind and number, target kind and number, opcode, 0
 *   special       its number 0..15, its two free bytes, 0, 0, 0
 *   event         its two fields, information (2, high first), 0, 0
 *   power cycle   group present 0/1, group, short address present 0/1, short address, 0, 0
 * A refused reading's word is its number alone. */
static inline uint8_t mf_byte(uint64_t word, unsigned place) { return (uint8_t)(word >> (56 - 8 * place) & 0xFF); }
static inline uint8_t mf_kind(uint64_t word) { return mf_byte(word, 1); }
static inline uint8_t mf_address_kind(uint64_t command) { return mf_byte(command, 2); }
static inline uint8_t mf_address_number(uint64_t command) { return mf_byte(command, 3); }
static inline uint8_t mf_target_kind(uint64_t command) { return mf_byte(command, 4); }
static inline uint8_t mf_target_number(uint64_t command) { return mf_byte(command, 5); }
static inline uint8_t mf_opcode(uint64_t command) { return mf_byte(command, 6); }
static inline uint8_t mf_special_number(uint64_t special) { return mf_byte(special, 2); }
static inline uint8_t mf_special_first(uint64_t special) { return mf_byte(special, 3); }
static inline uint8_t mf_special_second(uint64_t special) { return mf_byte(special, 4); }
static inline uint8_t mf_event_first(uint64_t event) { return mf_byte(event, 2); }
static inline uint8_t mf_event_second(uint64_t event) { return mf_byte(event, 3); }
static inline uint16_t mf_information(uint64_t event) { return (uint16_t)(event >> 16 & 0xFFFF); }
static inline uint8_t mf_power_has_group(uint64_t power) { return mf_byte(power, 2); }
static inline uint8_t mf_power_group(uint64_t power) { return mf_byte(power, 3); }
static inline uint8_t mf_power_has_short(uint64_t power) { return mf_byte(power, 4); }
static inline uint8_t mf_power_short(uint64_t power) { return mf_byte(power, 5); }

/* ---- the unit ----
 *
 * The state's bytes, high bytes first: 0 address; 1..4 groups; 5, 6, 7 DTR0..2; 8 waiting (0/1); 9..12 its frame;
 * 13..16 its clock; 17 write-enable (0/1); 18 staged count; 19 its bank; 20 its first location; 21..28 staged bytes;
 * 29 latched (0/1); 30 its bank; 31 its first location; 32..39 latched bytes; 40..95 zero, kept for what comes later.
 * You may keep them over a reset of your processor: a later call tests that they are a state of this map and store. */

/* Map, store and image alone: 7 to 11, or 0. Store and image may be one buffer here. */
uint32_t mf_check(const uint8_t *map, size_t map_length, const uint8_t *store, size_t store_length,
                  const uint8_t *image, size_t image_length);

/* Makes the state of a unit, and acts as a power-on: lock bytes 0xFF, other RAM-RW values from the image. Whatever
 * stood in `state` is not looked at. A refused start leaves zeros there, a state of address 0: do not step it.
 * 7 to 11, then 6 (the address is not 0..63 or 255). */
uint32_t mf_start(const uint8_t *map, size_t map_length, uint8_t *store, size_t store_length, const uint8_t *image,
                  size_t image_length, uint32_t address, uint32_t groups, uint8_t state[MF_STATE_BYTES]);

/* A frame of 24 bits was heard at `clock` (milliseconds, may run over). Any frame may be handed in, whoever it is for.
 * If it answers, send the answer as a backward frame.
 * Any command for the unit, obeyed or not, shuts write-enable and drops what is staged, but the three writes, the five DTR
 * commands and QUERY CONTENT DTR0..2 (before interface 8 a command that is not obeyed left it open).
 * 7 to 12, then 1. A reserved frame is no refusal here. */
uint32_t mf_frame(const uint8_t *map, size_t map_length, uint8_t *store, size_t store_length, const uint8_t *image,
                  size_t image_length, uint8_t state[MF_STATE_BYTES], uint32_t frame, uint32_t clock);

/* A later power-on: as a start, but address and groups stay.
 * 7 to 12. */
uint32_t mf_power_on(const uint8_t *map, size_t map_length, uint8_t *store, size_t store_length, const uint8_t *image,
                     size_t image_length, uint8_t state[MF_STATE_BYTES]);

/* Many records, each as mf_frame or mf_power_on would do it, with one check of map, store, image and state for all. It
 * takes the whole records of `records`, as many as `output` has room for, and writes 4 bytes for each; the rest of
 * `output` stays. It returns how many records were answered. An unfinished record at the end is left to you, to be
 * handed in again with the bytes that it lacks: it gives no 13.
 * In the output: 7 to 12; 13 for a record of unknown kind, which ends the run and is the last one answered. */
size_t mf_run(const uint8_t *map, size_t map_length, uint8_t *store, size_t store_length, const uint8_t *image,
              size_t image_length, uint8_t state[MF_STATE_BYTES], const uint8_t *records, size_t records_length,
              uint8_t *output, size_t output_length);

/* Where the value stands that begins at the bank and location: its bytes are store[mf_offset] on, mf_width of them.
 * There is no image: the store stands for it.
 * 7 to 11, then 14, which every bank and location over 255 gives too. */
uint32_t mf_look(const uint8_t *map, size_t map_length, const uint8_t *store, size_t store_length, uint32_t bank,
                 uint32_t location);

/* Which value of the map holds the location, or why none does: the bank is absent, the location lies in a hole, or past the
 * bank's last mapped location; and how many records the look-up examined. The map alone decides; there is neither store nor image.
 * 7, 8, 9, then 6 for a bank or location over 255. */
uint64_t mf_find(const uint8_t *map, size_t map_length, uint32_t bank, uint32_t location);

/* Which values of the map differ between two stores: a list in `output`, MF_DIFFERENCE_BYTES for each, in map order; no header.
 * Lock bytes and values that are not writable are listed too, bytes under no record never. The rest of `output` stays, and room
 * of exactly the list is enough: 64 values need 1,536 bytes, none need none. Both stores may be one buffer.
 * Each difference's new bytes, put where mf_look finds its value, make of the old store the new one, value by value; and its old
 * bytes of the new store the old one.
 * 7 to 11 for the old store with the new one in the image's place, 7 to 11 for the new store with the old one (of which only 11
 * can still come: its byte at 0x00), then 15. */
uint32_t mf_compare(const uint8_t *map, size_t map_length, const uint8_t *old_store, size_t old_length,
                    const uint8_t *new_store, size_t new_length, uint8_t *output, size_t output_length);

/* The frames that write a value, in the unit of a short address: send the first mf_frames of `frames`, one behind the other. The
 * value is the one that begins at the bank and location, and `bytes` are all its bytes, most significant first. All 13 places
 * of `frames` are written, with 0 where there is no frame.
 * They are DTR1, which is the bank; ENABLE WRITE MEMORY twice; DIRECT WRITE MEMORY of each byte; and, for a lockable value, of
 * the lock byte 0x55 before them and 0xFF after. Heard by a unit of this map that has the address, without another frame or a
 * power-on between, the second ENABLE at most 100 ms behind the first, they leave the value as given, the lock byte of a
 * lockable value 0xFF, and every other byte of the store as it was, whatever the unit heard before; and it answers each write
 * with its byte. Write-enable stays open behind them, until a command shuts it. And the writes carry no address: another
 * unit whose write-enable is open takes them too.
 * Only the map is looked at: one that breaks 10 or 11 has sessions too.
 * 7, 8, 9, then 14, which every bank and location over 255 gives too, then 16, then 6: not as many bytes as the value has, or an
 * address over 63. */
uint32_t mf_session(const uint8_t *map, size_t map_length, uint32_t address, uint32_t bank, uint32_t location,
                    const uint8_t *bytes, size_t bytes_length, uint32_t frames[MF_SESSION_FRAMES]);

/* ---- the unit as one thing ----
 *
 * Begin with zeros (a static one has them) and set the parts by their names. A part that is null has to have the length
 * 0, and is empty: so your code stays as it is where a later interface lends one part more. */
typedef struct mf_unit {
    const uint8_t *map;
    size_t map_length;
    uint8_t *store;
    size_t store_length;
    const uint8_t *image;
    size_t image_length;
    uint8_t *state; /* MF_STATE_BYTES of them; never null */
} mf_unit;

/* A part that is not null, for one that is read and for one that is changed. */
static inline const uint8_t *mf_lent(const uint8_t *part) {
    static const uint8_t none[1] = {0};
    return part ? part : none;
}
static inline uint8_t *mf_lent_to_change(uint8_t *part) {
    static uint8_t none[1] = {0};
    return part ? part : none;
}

static inline uint32_t mf_unit_check(const mf_unit *unit) {
    return mf_check(mf_lent(unit->map), unit->map_length, mf_lent(unit->store), unit->store_length,
                    mf_lent(unit->image), unit->image_length);
}

static inline uint32_t mf_unit_start(const mf_unit *unit, uint32_t address, uint32_t groups) {
    return mf_start(mf_lent(unit->map), unit->map_length, mf_lent_to_change(unit->store), unit->store_length,
                    mf_lent(unit->image), unit->image_length, address, groups, unit->state);
}

static inline uint32_t mf_unit_hear(const mf_unit *unit, uint32_t frame, uint32_t clock) {
    return mf_frame(mf_lent(unit->map), unit->map_length, mf_lent_to_change(unit->store), unit->store_length,
                    mf_lent(unit->image), unit->image_length, unit->state, frame, clock);
}

static inline uint32_t mf_unit_power_on(const mf_unit *unit) {
    return mf_power_on(mf_lent(unit->map), unit->map_length, mf_lent_to_change(unit->store), unit->store_length,
                       mf_lent(unit->image), unit->image_length, unit->state);
}

static inline size_t mf_unit_run(const mf_unit *unit, const uint8_t *records, size_t records_length, uint8_t *output,
                                 size_t output_length) {
    return mf_run(mf_lent(unit->map), unit->map_length, mf_lent_to_change(unit->store), unit->store_length,
                  mf_lent(unit->image), unit->image_length, unit->state, mf_lent(records), records_length,
                  mf_lent_to_change(output), output_length);
}

static inline uint32_t mf_unit_look(const mf_unit *unit, uint32_t bank, uint32_t location) {
    return mf_look(mf_lent(unit->map), unit->map_length, mf_lent(unit->store), unit->store_length, bank, location);
}

static inline uint64_t mf_unit_find(const mf_unit *unit, uint32_t bank, uint32_t location) {
    return mf_find(mf_lent(unit->map), unit->map_length, bank, location);
}

/* The unit's store is the old one. */
static inline uint32_t mf_unit_compare(const mf_unit *unit, const uint8_t *new_store, size_t new_length, uint8_t *output,
                                       size_t output_length) {
    return mf_compare(mf_lent(unit->map), unit->map_length, mf_lent(unit->store), unit->store_length, mf_lent(new_store),
                      new_length, mf_lent_to_change(output), output_length);
}

/* Of the unit's map; the address is that of the unit to be written. */
static inline uint32_t mf_unit_session(const mf_unit *unit, uint32_t address, uint32_t bank, uint32_t location,
                                       const uint8_t *bytes, size_t bytes_length, uint32_t frames[MF_SESSION_FRAMES]) {
    return mf_session(mf_lent(unit->map), unit->map_length, address, bank, location, mf_lent(bytes), bytes_length, frames);
}

/* The bytes that a look found, mf_width(look) of them. */
static inline const uint8_t *mf_unit_bytes(const mf_unit *unit, uint32_t look) {
    return mf_lent(unit->store) + mf_offset(look);
}

/* ---- frames, without a unit ---- */

/* What a frame says, as a message word (above).
 * 1 to 5. */
uint64_t mf_read(uint32_t frame);

/* The frame of a message word. What mf_read gave writes back to its frame.
 * 6: no message has the word, or a field is out of range. A refused reading's word is none. */
uint32_t mf_write(uint64_t word);

/* An event. Type and number 0..31, primary group 0..31 or 255, short address 0..63 or 255, 32 group bits, information
 * 0..1023, scheme 0..4, or 255 for as shipped, which is 2. A scheme whose field is missing falls back to 0.
 * 6: a field is out of range, also one that the scheme does not use. */
uint32_t mf_compose_event(uint32_t type, uint32_t number, uint32_t primary, uint32_t short_address, uint32_t groups,
                          uint32_t information, uint32_t scheme);

/* A power event, from a short address (0..63 or 255) and 32 group bits.
 * 6: the short address is out of range. */
uint32_t mf_compose_power(uint32_t short_address, uint32_t groups);

/* ---- trace records, without a unit ---- */

/* What the wire carried: each record is counted by the class of its frame, a power-on record apart, and the counts are added to
 * what stands in `counts`, modulo 2^64. So begin with zeros; a capture that is handed in slices of whole records adds up to the
 * same. Clocks are not looked at. No record is no fault.
 * 13: a record is unfinished or of unknown kind. It ends the count and is counted nowhere, nothing behind it is read, and what
 * was counted before it is added. */
uint32_t mf_census(const uint8_t *records, size_t records_length, uint64_t counts[MF_COUNTS]);

#ifdef __cplusplus
}
#endif

#endif
