/* A session: from a map, a short address and a value with its bytes, the
   frames that write it. */
#include "banks.h"

#include "unit.h"

/* The bytes of the frames that a session is made of. */
enum {
    DTR_SPECIAL = 0xC1,  /* 0xC1 with 0x31: DTR1 */
    DTR1_BYTE = 0x31,
    DIRECT_WRITE = 0xC5, /* DIRECT WRITE MEMORY (offset, data) */
    DEVICE_BYTE = 0xFE,  /* instance byte of a device command */
    ENABLE_WRITE = 0x15
};

/* Bits 23..16, 15..8 and 7..0. */
static uint32_t frame_of(uint32_t high, uint32_t middle, uint32_t low)
{
    return high << 16 | middle << 8 | low;
}

/* ENABLE WRITE MEMORY, by address byte 0aaaaaa1. */
static uint32_t enable_frame(uint32_t address)
{
    return frame_of(address << 1 | 1, DEVICE_BYTE, ENABLE_WRITE);
}

static uint32_t lock_frame(uint8_t lock_byte)
{
    return frame_of(DIRECT_WRITE, LOCK_BYTE_LOCATION, lock_byte);
}

/* DTR1 first, which clears any waiting frame; the ENABLE pair; the bytes in
   order; and for a lockable value lock byte 0x55 before them and 0xFF after.
   Each write has its own location with it, so DTR0 need not be set. */
static uint32_t put_frames(const Value *value, uint32_t address,
                           const uint8_t *bytes,
                           uint32_t frames[SESSION_ROOM])
{
    uint32_t count = 0;
    frames[count++] = frame_of(DTR_SPECIAL, DTR1_BYTE, value->bank);
    frames[count++] = enable_frame(address);
    frames[count++] = enable_frame(address);
    if (value->lockable == 1) {
        frames[count++] = lock_frame(UNLOCKED);
    }
    for (uint32_t i = 0; i < value->width; i++) {
        frames[count++] = frame_of(DIRECT_WRITE, value->first + i, bytes[i]);
    }
    if (value->lockable == 1) {
        frames[count++] = lock_frame(LOCKED);
    }
    return count;
}

/* There is no store: 10 and 11 are not tested. A session is for one unit, so
   its address is 0..63; 255 is none. */
uint32_t second_session(const uint8_t *map, size_t map_len, uint32_t address,
                        uint32_t bank, uint32_t location, const uint8_t *bytes,
                        size_t bytes_len, uint32_t frames[SESSION_ROOM])
{
    const Lent lent = {map, map_len, NULL, 0, NULL, NULL};
    Value value;
    for (size_t i = 0; i < SESSION_ROOM; i++) {
        frames[i] = 0;
    }
    uint32_t number = check_map(&lent);
    if (number != 0) {
        return number;
    }
    if (!value_beginning(&lent, bank, location, &value)) {
        return NO_VALUE;
    }
    if (!writable(&value)) {
        return NOT_WRITABLE;
    }
    if (bytes_len != value.width || address > 63) {
        return FIELD_OUT_OF_RANGE;
    }
    return put_frames(&value, address, bytes, frames) << 8;
}
