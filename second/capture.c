/* Count what the wire carried: the class of a frame, the census of a
   capture. */
#include "capture.h"

const char *const count_names[CENSUS_COUNTS] = {
    "short",             "group",   "unaddressed", "broadcast",
    "special",           "reserved-address",
    "reserved-instance", "event-0", "event-1",     "event-2",
    "event-3",           "event-4", "power",       "malformed-power",
    "reserved-event",    "power-on"};

/* The class of a refusal; CLASSES where the reader may not give it here. */
static unsigned class_of_refusal(unsigned refusal)
{
    switch (refusal) {
    case RESERVED_ADDRESS:
        return CLASS_RESERVED_ADDRESS;
    case RESERVED_INSTANCE:
        return CLASS_RESERVED_INSTANCE;
    case MALFORMED_POWER:
        return CLASS_MALFORMED_POWER;
    case RESERVED_EVENT:
        return CLASS_RESERVED_EVENT;
    default:
        return CLASSES;
    }
}

unsigned class_of_word(uint64_t word)
{
    unsigned refusal = (unsigned)(word & 0xFF);
    unsigned kind = (unsigned)(word >> 48 & 0xFF);
    unsigned address_kind = (unsigned)(word >> 40 & 0xFF);
    if (refusal != 0) {
        return class_of_refusal(refusal);
    }
    if (kind == COMMAND) {
        return CLASS_SHORT + address_kind;
    }
    if (kind == SPECIAL) {
        return CLASS_SPECIAL;
    }
    return CLASS_EVENT + (kind - EVENT);
}

/* Which count a record adds to; CENSUS_COUNTS where its kind is unknown. A
   frame of three bytes always has a class. */
static unsigned count_of_record(const uint8_t record[RECORD_LENGTH])
{
    uint32_t frame = (uint32_t)record[5] << 16 | (uint32_t)record[6] << 8
                     | record[7];
    switch (record[4]) {
    case 0:
        return class_of_word(second_read(frame));
    case 1:
        return POWER_ONS;
    default:
        return CENSUS_COUNTS;
    }
}

uint32_t second_census(const uint8_t *records, size_t records_len,
                       uint64_t counts[CENSUS_COUNTS])
{
    size_t place = 0;
    while (records_len - place >= RECORD_LENGTH) {
        unsigned count = count_of_record(records + place);
        if (count == CENSUS_COUNTS) {
            return TRACE_RECORD;
        }
        counts[count]++;
        place += RECORD_LENGTH;
    }
    return place == records_len ? 0 : TRACE_RECORD;
}
