/* The state as 96 bytes, high bytes first, and the calls over it. */
#include "unit.h"

/* Where each part stands. */
enum {
    AT_ADDRESS = 0,
    AT_GROUPS = 1,
    AT_DTR0 = 5,
    AT_DTR1 = 6,
    AT_DTR2 = 7,
    AT_WAITING = 8,
    AT_WAITING_FRAME = 9,
    AT_WAITING_CLOCK = 13,
    AT_WRITE_ENABLE = 17,
    AT_STAGED = 18,
    AT_STAGED_BANK = 19,
    AT_STAGED_FIRST = 20,
    AT_STAGED_BYTES = 21,
    AT_LATCHED = 29,
    AT_LATCHED_BANK = 30,
    AT_LATCHED_FIRST = 31,
    AT_LATCHED_BYTES = 32,
    AT_ZERO = 40
};

static void pack_number(uint8_t *out, uint32_t number)
{
    for (unsigned i = 0; i < 4; i++) {
        out[i] = (uint8_t)(number >> (8 * (3 - i)) & 0xFF);
    }
}

static uint32_t unpack_number(const uint8_t *in)
{
    uint32_t number = 0;
    for (unsigned i = 0; i < 4; i++) {
        number = number << 8 | in[i];
    }
    return number;
}

void second_pack(const Unit *unit, uint8_t out[STATE_BYTES])
{
    for (size_t i = 0; i < STATE_BYTES; i++) {
        out[i] = 0;
    }
    out[AT_ADDRESS] = unit->address;
    pack_number(out + AT_GROUPS, unit->groups);
    out[AT_DTR0] = unit->dtr0;
    out[AT_DTR1] = unit->dtr1;
    out[AT_DTR2] = unit->dtr2;
    out[AT_WAITING] = unit->waiting;
    pack_number(out + AT_WAITING_FRAME, unit->waiting_frame);
    pack_number(out + AT_WAITING_CLOCK, unit->waiting_clock);
    out[AT_WRITE_ENABLE] = unit->write_enable;
    out[AT_STAGED] = unit->staged;
    out[AT_STAGED_BANK] = unit->staged_bank;
    out[AT_STAGED_FIRST] = unit->staged_first;
    out[AT_LATCHED] = unit->latched;
    out[AT_LATCHED_BANK] = unit->latched_bank;
    out[AT_LATCHED_FIRST] = unit->latched_first;
    for (size_t i = 0; i < VALUE_LIMIT; i++) {
        out[AT_STAGED_BYTES + i] = unit->staged_bytes[i];
        out[AT_LATCHED_BYTES + i] = unit->latched_bytes[i];
    }
}

static bool flags_and_tail_hold(const uint8_t in[STATE_BYTES])
{
    for (size_t i = AT_ZERO; i < STATE_BYTES; i++) {
        if (in[i] != 0) {
            return false;
        }
    }
    return in[AT_WAITING] <= 1 && in[AT_WRITE_ENABLE] <= 1
           && in[AT_LATCHED] <= 1;
}

bool second_unpack(const uint8_t in[STATE_BYTES], Unit *unit)
{
    *unit = (Unit){0};
    if (!flags_and_tail_hold(in)) {
        return false;
    }
    unit->address = in[AT_ADDRESS];
    unit->groups = unpack_number(in + AT_GROUPS);
    unit->dtr0 = in[AT_DTR0];
    unit->dtr1 = in[AT_DTR1];
    unit->dtr2 = in[AT_DTR2];
    unit->waiting = in[AT_WAITING];
    unit->waiting_frame = unpack_number(in + AT_WAITING_FRAME);
    unit->waiting_clock = unpack_number(in + AT_WAITING_CLOCK);
    unit->write_enable = in[AT_WRITE_ENABLE];
    unit->staged = in[AT_STAGED];
    unit->staged_bank = in[AT_STAGED_BANK];
    unit->staged_first = in[AT_STAGED_FIRST];
    unit->latched = in[AT_LATCHED];
    unit->latched_bank = in[AT_LATCHED_BANK];
    unit->latched_first = in[AT_LATCHED_FIRST];
    for (size_t i = 0; i < VALUE_LIMIT; i++) {
        unit->staged_bytes[i] = in[AT_STAGED_BYTES + i];
        unit->latched_bytes[i] = in[AT_LATCHED_BYTES + i];
    }
    return true;
}

/* A refused start's state is all zeros, and so are its bytes. */
uint32_t second_start_bytes(const uint8_t *map, size_t map_len, uint8_t *store,
                            size_t store_len, const uint8_t *image,
                            size_t image_len, uint32_t address, uint32_t groups,
                            uint8_t state[STATE_BYTES])
{
    Unit unit;
    uint32_t result = second_start(map, map_len, store, store_len, image,
                                   image_len, address, groups, &unit);
    second_pack(&unit, state);
    return result;
}

/* 7 to 11, then 12 for a state that does not unpack. */
static uint32_t unpack_checked(const uint8_t *map, size_t map_len,
                               const uint8_t *store, size_t store_len,
                               size_t image_len,
                               const uint8_t state[STATE_BYTES], Unit *unit)
{
    uint32_t number = second_check(map, map_len, store, store_len, image_len);
    if (number != 0) {
        return number;
    }
    return second_unpack(state, unit) ? 0 : STATE_RULE;
}

uint32_t second_power_on_bytes(const uint8_t *map, size_t map_len,
                               uint8_t *store, size_t store_len,
                               const uint8_t *image, size_t image_len,
                               uint8_t state[STATE_BYTES])
{
    Unit unit;
    uint32_t number = unpack_checked(map, map_len, store, store_len, image_len,
                                     state, &unit);
    if (number != 0) {
        return number;
    }
    uint32_t result = second_power_on(map, map_len, store, store_len, image,
                                      image_len, &unit);
    second_pack(&unit, state); /* a refused call has left the unit as it was */
    return result;
}

uint32_t second_frame_bytes(const uint8_t *map, size_t map_len, uint8_t *store,
                            size_t store_len, const uint8_t *image,
                            size_t image_len, uint8_t state[STATE_BYTES],
                            uint32_t frame, uint32_t clock)
{
    Unit unit;
    uint32_t number = unpack_checked(map, map_len, store, store_len, image_len,
                                     state, &unit);
    if (number != 0) {
        return number;
    }
    uint32_t result = second_frame(map, map_len, store, store_len, image,
                                   image_len, &unit, frame, clock);
    second_pack(&unit, state); /* a refused call has left the unit as it was */
    return result;
}
