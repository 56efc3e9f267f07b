/* The bus unit's rules: every public call. */
#ifndef SECOND_UNIT_H
#define SECOND_UNIT_H

#include <stdbool.h>
#include <stddef.h>
#include <stdint.h>

/* Refusal numbers. */
enum {
    FRAME_TOO_LARGE = 1,    /* frame 16,777,216 or more */
    RESERVED_ADDRESS = 2,   /* reserved address byte */
    RESERVED_INSTANCE = 3,  /* reserved instance byte */
    RESERVED_EVENT = 4,     /* reserved event */
    MALFORMED_POWER = 5,    /* power event with a non-zero blank field */
    FIELD_OUT_OF_RANGE = 6, /* field out of range: writer, composer, start */
    MAP_LENGTH = 7,         /* map not a multiple of 8 bytes, or over 512 */
    RECORD_FIELDS = 8,      /* a record's own fields break the rules */
    RECORD_ORDER = 9,       /* records out of order or overlapping */
    STORE_PLACES = 10,      /* store and image lengths differ, exceed 4,096,
                               or a place is outside or shared */
    BANK_RULE = 11,         /* a bank rule of 0x00, 0x02 or bank 0 broken */
    STATE_RULE = 12,        /* a rule of a state broken */
    TRACE_RECORD = 13,      /* trace record unfinished or of unknown kind */
    NO_VALUE = 14,          /* no value begins there */
    ROOM_TOO_SMALL = 15,    /* output room too small */
    NOT_WRITABLE = 16       /* value not writable */
};

enum {
    MAP_LIMIT = 512,    /* records of 8 bytes, 0 to 64 of them */
    STORE_LIMIT = 4096, /* store and reset image: 0 to 4,096 bytes */
    VALUE_LIMIT = 8,    /* width 1..8 */
    STATE_BYTES = 96,   /* a state as bytes */
    LISTED_BYTES = 24,  /* a value in the compare call's list */
    SESSION_ROOM = 13,  /* places for the frames of a session */
    RECORD_LENGTH = 8,  /* a record of the trace program */
    NO_ADDRESS = 255    /* short address 0..63 or 255 */
};

/* Kinds of a message, its second byte from the top. */
enum { COMMAND = 0, SPECIAL = 1, EVENT = 2, POWER_CYCLE = 7 };

/* Kinds of an address. */
enum { SHORT_ADDRESS = 0, DEVICE_GROUP = 1, UNADDRESSED = 2, BROADCAST = 3 };

/* What the find call says of a location. */
enum { FOUND = 0, ABSENT = 1, HOLE = 2, PAST = 3 };

/* What a census counts: frames by their class, and power-on records apart. */
enum {
    CLASS_SHORT = 0, /* commands by address kind, in its order */
    CLASS_GROUP = 1,
    CLASS_UNADDRESSED = 2,
    CLASS_BROADCAST = 3,
    CLASS_SPECIAL = 4,
    CLASS_RESERVED_ADDRESS = 5,
    CLASS_RESERVED_INSTANCE = 6, /* whatever its address kind */
    CLASS_EVENT = 7,             /* events by scheme: 7 to 11 */
    CLASS_POWER = 12,
    CLASS_MALFORMED_POWER = 13,
    CLASS_RESERVED_EVENT = 14,
    CLASSES = 15,
    POWER_ONS = 15,
    CENSUS_COUNTS = 16
};

/* State. Any numbers may be handed in; the rules of a state are tested. */
typedef struct Unit {
    uint8_t address;                 /* short address (0..63 or 255) */
    uint32_t groups;                 /* 32 group bits */
    uint8_t dtr0;                    /* DTR0..2 */
    uint8_t dtr1;
    uint8_t dtr2;
    uint8_t waiting;                 /* 1: one waiting frame */
    uint32_t waiting_frame;
    uint32_t waiting_clock;          /* with its clock */
    uint8_t write_enable;            /* 1: open */
    uint8_t staged;                  /* how many bytes are staged */
    uint8_t staged_bank;
    uint8_t staged_first;            /* first location of the staged value */
    uint8_t staged_bytes[VALUE_LIMIT];
    uint8_t latched;                 /* 1: a value is latched */
    uint8_t latched_bank;
    uint8_t latched_first;           /* first location of the latched value */
    uint8_t latched_bytes[VALUE_LIMIT];
} Unit;

/* Every answer has the refusal number, or 0, in its low byte. */

/* The reader: the message word of a frame, eight bytes from high to low:
   0, kind, then
     command: address kind, address number, target kind, target number,
              opcode, 0
     special: number, first free byte, second free byte, 0, 0, 0
     event:   field of bits 22 or 21..17, field of bits 14..10,
              information high, information low, 0, 0
     power:   group present, group, short address present, short address, 0, 0
   A refusal's word is its number alone. */
uint64_t second_read(uint32_t frame);

/* The writer and the composers: number | frame << 8; a refusal has frame 0. */
uint32_t second_write(uint64_t word);
uint32_t second_compose_event(uint32_t type, uint32_t number, uint32_t primary,
                              uint32_t short_address, uint32_t groups,
                              uint32_t information, uint32_t scheme);
uint32_t second_compose_power(uint32_t short_address, uint32_t groups);

/* The first of 7 to 11 that is given, or 0. */
uint32_t second_check(const uint8_t *map, size_t map_len, const uint8_t *store,
                      size_t store_len, size_t image_len);

/* The look call: number | width << 8 | store offset << 16; a refusal has
   width and offset 0. The value's bytes are store[offset] on. A bank or
   location that no byte holds has no value. */
uint32_t second_look(const uint8_t *map, size_t map_len, const uint8_t *store,
                     size_t store_len, uint32_t bank, uint32_t location);

/* The find call: number | what << 8 | location << 16 | width << 24
   | count << 32, by what:
     FOUND:  the first location and the width of the value that holds it
     ABSENT: no record has that bank; 0, 0
     HOLE:   the next mapped location in that bank; 0
     PAST:   every mapped location of that bank lies below; 0, 0
   The count, whatever the answer: how many record positions the halving rule
   visits, at most 7 with 64 records and 0 with none.
   It tests 7 to 9, then 6: a bank or location that no byte holds. A refusal is
   its number alone, its count 0. */
uint64_t second_find(const uint8_t *map, size_t map_len, uint32_t bank,
                     uint32_t location);

/* The compare call: number | count << 8. One map, two stores, and in the
   output a list of the values that differ, count records of 24 bytes each:
   bank, first location, width, kind, four zeros, old bytes, new bytes (each 8,
   zero filled at the end); the first store is the old one. Each differing
   value once, in map order, no equal one. Bytes past the list stay.
   It tests 7 to 11 for the first store, then for the second, each with the
   other in the image's place, then 15: fewer than 24 bytes of room for each
   differing value. A refusal is its number alone, its count 0, and leaves the
   output untouched. Both stores may be one buffer. */
uint32_t second_compare(const uint8_t *map, size_t map_len,
                        const uint8_t *old_store, size_t old_len,
                        const uint8_t *new_store, size_t new_len,
                        uint8_t *output, size_t output_len);

/* The session call: number | count << 8, and in the first count of the 13
   places the frames that write a value, with its bytes as told, to the unit
   with a short address:
     DTR1 := bank
     ENABLE WRITE MEMORY to the short address, twice
     DIRECT WRITE MEMORY 0x55 to 0x02, for a lockable value
     DIRECT WRITE MEMORY of each byte to its location
     DIRECT WRITE MEMORY 0xFF to 0x02, for a lockable value
   It tests 7 to 9, then 14, also for a bank or location that no byte holds,
   then 16, then 6: as many bytes as the value is wide, an address of 0..63. All
   13 places are written, those past the frames with 0. A refusal is its number
   alone, its count 0, and all its places 0. */
uint32_t second_session(const uint8_t *map, size_t map_len, uint32_t address,
                        uint32_t bank, uint32_t location, const uint8_t *bytes,
                        size_t bytes_len, uint32_t frames[SESSION_ROOM]);

/* The census of a capture: 0, or 13 where a record is unfinished or of unknown
   kind. Each record of the capture, 8 bytes as the trace program reads them,
   adds one to one of the counts, modulo 2^64: a frame to that of its class, a
   power-on to the last. Clocks are ignored, and so is the frame of a power-on
   record. 13 ends the count and is counted nowhere: what came before it stays
   added, nothing behind it is read. An empty capture is 0 and adds nothing; its
   records may be any pointer. The counts don't overlap the records. */
uint32_t second_census(const uint8_t *records, size_t records_len,
                       uint64_t counts[CENSUS_COUNTS]);

/* Start, a later power-on, a frame step:
   number | answered << 8 | answer << 16. */
uint32_t second_start(const uint8_t *map, size_t map_len, uint8_t *store,
                      size_t store_len, const uint8_t *image, size_t image_len,
                      uint32_t address, uint32_t groups, Unit *unit);
uint32_t second_power_on(const uint8_t *map, size_t map_len, uint8_t *store,
                         size_t store_len, const uint8_t *image,
                         size_t image_len, Unit *unit);
uint32_t second_frame(const uint8_t *map, size_t map_len, uint8_t *store,
                      size_t store_len, const uint8_t *image, size_t image_len,
                      Unit *unit, uint32_t frame, uint32_t clock);

/* The state as 96 bytes, high bytes first. Unpacking is false, and the unit
   all zeros, where a flag is over 1 or a byte from 40 on is not zero. */
void second_pack(const Unit *unit, uint8_t out[STATE_BYTES]);
bool second_unpack(const uint8_t in[STATE_BYTES], Unit *unit);

/* The same three calls over a state of 96 bytes. */
uint32_t second_start_bytes(const uint8_t *map, size_t map_len, uint8_t *store,
                            size_t store_len, const uint8_t *image,
                            size_t image_len, uint32_t address, uint32_t groups,
                            uint8_t state[STATE_BYTES]);
uint32_t second_power_on_bytes(const uint8_t *map, size_t map_len,
                               uint8_t *store, size_t store_len,
                               const uint8_t *image, size_t image_len,
                               uint8_t state[STATE_BYTES]);
uint32_t second_frame_bytes(const uint8_t *map, size_t map_len, uint8_t *store,
                            size_t store_len, const uint8_t *image,
                            size_t image_len, uint8_t state[STATE_BYTES],
                            uint32_t frame, uint32_t clock);

#endif
