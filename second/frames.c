/* Frames: the reader, the writer and the composers. */
#include "frames.h"

#include "unit.h"

enum {
    COMMAND_BIT = 0x010000,    /* bit 16 set means command, clear means event */
    POWER_CYCLE_BITS = 0xFEE000, /* bits 23..17 and 15, 14, 13 all ones */
    FRAME_LIMIT = 0x1000000    /* a frame is a number below 16,777,216 */
};

/* For non-special commands the 256 instance bytes stand as one printed table
   of kinds. */
static const uint8_t table_of_kinds[256] = {
    /* 0x00-0x1F instance number */
    1, 1, 1, 1, 1, 1, 1, 1, 1, 1, 1, 1, 1, 1, 1, 1,
    1, 1, 1, 1, 1, 1, 1, 1, 1, 1, 1, 1, 1, 1, 1, 1,
    /* 0x20-0x3F feature at number */
    4, 4, 4, 4, 4, 4, 4, 4, 4, 4, 4, 4, 4, 4, 4, 4,
    4, 4, 4, 4, 4, 4, 4, 4, 4, 4, 4, 4, 4, 4, 4, 4,
    /* 0x40-0x5F reserved */
    0, 0, 0, 0, 0, 0, 0, 0, 0, 0, 0, 0, 0, 0, 0, 0,
    0, 0, 0, 0, 0, 0, 0, 0, 0, 0, 0, 0, 0, 0, 0, 0,
    /* 0x60-0x7F feature at type */
    6, 6, 6, 6, 6, 6, 6, 6, 6, 6, 6, 6, 6, 6, 6, 6,
    6, 6, 6, 6, 6, 6, 6, 6, 6, 6, 6, 6, 6, 6, 6, 6,
    /* 0x80-0x9F instance group */
    2, 2, 2, 2, 2, 2, 2, 2, 2, 2, 2, 2, 2, 2, 2, 2,
    2, 2, 2, 2, 2, 2, 2, 2, 2, 2, 2, 2, 2, 2, 2, 2,
    /* 0xA0-0xBF feature at group */
    5, 5, 5, 5, 5, 5, 5, 5, 5, 5, 5, 5, 5, 5, 5, 5,
    5, 5, 5, 5, 5, 5, 5, 5, 5, 5, 5, 5, 5, 5, 5, 5,
    /* 0xC0-0xDF instance type */
    3, 3, 3, 3, 3, 3, 3, 3, 3, 3, 3, 3, 3, 3, 3, 3,
    3, 3, 3, 3, 3, 3, 3, 3, 3, 3, 3, 3, 3, 3, 3, 3,
    /* 0xE0-0xEF reserved */
    0, 0, 0, 0, 0, 0, 0, 0, 0, 0, 0, 0, 0, 0, 0, 0,
    /* 0xF9 feature broadcast, 0xFC device feature, 0xFD feature at instance
       broadcast, 0xFE device, 0xFF instance broadcast */
    0, 0, 0, 0, 0, 0, 0, 0, 0, 7, 0, 0, 8, 9, 10, 11};

/* The first instance byte of each kind; the reserved ones have none. */
static const uint8_t first_byte_of_kind[12] = {
    0x00, 0x00, 0x80, 0xC0, 0x20, 0xA0, 0x60, 0xF9, 0xFC, 0xFD, 0xFE, 0xFF};

/* The number in bits high..low of a frame, at most 8 of them. */
static uint8_t bits(uint32_t frame, unsigned high, unsigned low)
{
    return (uint8_t)((frame >> low) & ((1u << (high - low + 1u)) - 1u));
}

static Message refused(uint8_t number)
{
    Message message = {0};
    message.refusal = number;
    return message;
}

/* The kinds that hold a number 0..31; the others have none. */
static bool target_has_number(uint8_t kind)
{
    return kind >= INSTANCE_NUMBER && kind <= FEATURE_AT_TYPE;
}

/* By address byte: 0aaaaaa1 short address; 10ggggg1 device group; 0xFD
   broadcast unaddressed; 0xFF broadcast. False: a reserved byte. */
static bool read_address(uint32_t frame, Message *message)
{
    uint8_t byte = bits(frame, 23, 16);
    if ((byte & 0x80) == 0) {
        message->address_kind = SHORT_ADDRESS;
        message->address_number = bits(frame, 22, 17);
    } else if ((byte & 0xC0) == 0x80) {
        message->address_kind = DEVICE_GROUP;
        message->address_number = bits(frame, 21, 17);
    } else if (byte == 0xFD) {
        message->address_kind = UNADDRESSED;
    } else if (byte == 0xFF) {
        message->address_kind = BROADCAST;
    } else {
        return false;
    }
    return true;
}

/* 110ssss1 special, with two free bytes. */
static Message read_special(uint32_t frame)
{
    Message message = {0};
    message.kind = SPECIAL;
    message.special = bits(frame, 20, 17);
    message.first_free = bits(frame, 15, 8);
    message.second_free = bits(frame, 7, 0);
    return message;
}

static Message read_command(uint32_t frame)
{
    Message message = {0};
    if (bits(frame, 23, 21) == 6) {
        return read_special(frame);
    }
    message.kind = COMMAND;
    if (!read_address(frame, &message)) {
        return refused(RESERVED_ADDRESS);
    }
    message.target_kind = table_of_kinds[bits(frame, 15, 8)];
    if (message.target_kind == RESERVED_TARGET) {
        return refused(RESERVED_INSTANCE);
    }
    if (target_has_number(message.target_kind)) {
        message.target_number = bits(frame, 12, 8);
    }
    message.opcode = bits(frame, 7, 0);
    return message;
}

/* Bit 12 says that 11..7 hold the lowest device group, bit 6 that 5..0 hold
   the short address; a field whose bit is clear is zero. */
static Message read_power_cycle(uint32_t frame)
{
    Message message = {0};
    message.kind = POWER_CYCLE;
    message.group_present = bits(frame, 12, 12);
    message.group = bits(frame, 11, 7);
    message.short_present = bits(frame, 6, 6);
    message.short_address = bits(frame, 5, 0);
    if (message.group_present == 0 && message.group != 0) {
        return refused(MALFORMED_POWER);
    }
    if (message.short_present == 0 && message.short_address != 0) {
        return refused(MALFORMED_POWER);
    }
    return message;
}

/* Bits 9..0 are the event information. */
static Message read_scheme(uint32_t frame, uint8_t scheme)
{
    Message message = {0};
    bool has_short = scheme == 1 || scheme == 2;
    message.kind = (uint8_t)(EVENT + scheme);
    message.high_field = bits(frame, has_short ? 22 : 21, 17);
    message.low_field = bits(frame, 14, 10);
    message.information = (uint16_t)(frame & 0x3FF);
    return message;
}

/* Events, by bits 23, 22 and 15. */
static Message read_event(uint32_t frame)
{
    bool bit15 = bits(frame, 15, 15) == 1;
    if (bits(frame, 23, 23) == 0) {
        return read_scheme(frame, bit15 ? 2 : 1);
    }
    if (bits(frame, 22, 22) == 0) {
        return read_scheme(frame, bit15 ? 0 : 3);
    }
    if (!bit15) {
        return read_scheme(frame, 4);
    }
    if ((frame & POWER_CYCLE_BITS) == POWER_CYCLE_BITS) {
        return read_power_cycle(frame);
    }
    return refused(RESERVED_EVENT);
}

/* The reader tests 1, 2, 3, 4, 5. */
Message message_of_frame(uint32_t frame)
{
    if (frame >= FRAME_LIMIT) {
        return refused(FRAME_TOO_LARGE);
    }
    if ((frame & COMMAND_BIT) != 0) {
        return read_command(frame);
    }
    return read_event(frame);
}

/* Eight bytes from high to low. */
static uint64_t word_of_bytes(const uint8_t bytes[8])
{
    uint64_t word = 0;
    for (size_t i = 0; i < 8; i++) {
        word = word << 8 | bytes[i];
    }
    return word;
}

static uint64_t word_of_command(const Message *message)
{
    const uint8_t bytes[8] = {0, COMMAND,
                              message->address_kind, message->address_number,
                              message->target_kind, message->target_number,
                              message->opcode, 0};
    return word_of_bytes(bytes);
}

static uint64_t word_of_special(const Message *message)
{
    const uint8_t bytes[8] = {0, SPECIAL, message->special, message->first_free,
                              message->second_free, 0, 0, 0};
    return word_of_bytes(bytes);
}

static uint64_t word_of_event(const Message *message)
{
    const uint8_t bytes[8] = {0, message->kind,
                              message->high_field, message->low_field,
                              (uint8_t)(message->information >> 8),
                              (uint8_t)(message->information & 0xFF), 0, 0};
    return word_of_bytes(bytes);
}

static uint64_t word_of_power_cycle(const Message *message)
{
    const uint8_t bytes[8] = {0, POWER_CYCLE,
                              message->group_present, message->group,
                              message->short_present, message->short_address,
                              0, 0};
    return word_of_bytes(bytes);
}

uint64_t second_read(uint32_t frame)
{
    Message message = message_of_frame(frame);
    if (message.refusal != 0) {
        return message.refusal;
    }
    switch (message.kind) {
    case COMMAND:
        return word_of_command(&message);
    case SPECIAL:
        return word_of_special(&message);
    case POWER_CYCLE:
        return word_of_power_cycle(&message);
    default:
        return word_of_event(&message);
    }
}

/* number | frame << 8, of a frame and of a refusal */
static uint32_t written(uint32_t frame)
{
    return frame << 8;
}

static uint32_t out_of_range(void)
{
    return FIELD_OUT_OF_RANGE;
}

/* The address byte of an address; false: 6. */
static bool write_address(uint8_t kind, uint8_t number, uint32_t *byte)
{
    switch (kind) {
    case SHORT_ADDRESS:
        *byte = 0x01u | (uint32_t)number << 1;
        return number <= 63;
    case DEVICE_GROUP:
        *byte = 0x81u | (uint32_t)number << 1;
        return number <= 31;
    case UNADDRESSED:
        *byte = 0xFD;
        return number == 0;
    case BROADCAST:
        *byte = 0xFF;
        return number == 0;
    default:
        return false;
    }
}

/* The instance byte of a target; false: 6. */
static bool write_target(uint8_t kind, uint8_t number, uint32_t *byte)
{
    if (kind < INSTANCE_NUMBER || kind > INSTANCE_BROADCAST) {
        return false;
    }
    *byte = (uint32_t)first_byte_of_kind[kind] + number;
    return number <= (target_has_number(kind) ? 31 : 0);
}

static uint32_t write_command(const uint8_t bytes[8])
{
    uint32_t address = 0;
    uint32_t target = 0;
    if (!write_address(bytes[2], bytes[3], &address)
        || !write_target(bytes[4], bytes[5], &target) || bytes[7] != 0) {
        return out_of_range();
    }
    return written(address << 16 | target << 8 | bytes[6]);
}

static uint32_t write_special(const uint8_t bytes[8])
{
    if (bytes[2] > 15 || bytes[5] != 0 || bytes[6] != 0 || bytes[7] != 0) {
        return out_of_range();
    }
    return written(0xC10000u | (uint32_t)bytes[2] << 17
                   | (uint32_t)bytes[3] << 8 | bytes[4]);
}

/* The event of a scheme, its fields in range. */
static uint32_t written_event(uint32_t scheme, uint32_t high_field,
                              uint32_t low_field, uint32_t information)
{
    static const uint32_t scheme_bits[5] = {
        0x808000, /* 10 and 1: type and instance number */
        0x000000, /* bit 23=0, bit 15=0: short address and type */
        0x008000, /* bit 23=0, bit 15=1: short address and instance number */
        0x800000, /* 10 and 0: device group and type */
        0xC00000  /* 11 and 0: instance group and type */
    };
    return written(scheme_bits[scheme] | high_field << 17 | low_field << 10
                   | information);
}

static uint32_t write_event(const uint8_t bytes[8])
{
    uint32_t scheme = (uint32_t)bytes[1] - EVENT;
    uint32_t high_limit = (scheme == 1 || scheme == 2) ? 63 : 31;
    uint32_t information = (uint32_t)bytes[4] << 8 | bytes[5];
    if (bytes[2] > high_limit || bytes[3] > 31 || information > 1023
        || bytes[6] != 0 || bytes[7] != 0) {
        return out_of_range();
    }
    return written_event(scheme, bytes[2], bytes[3], information);
}

/* A field that is present has its limit; one that is not is zero. */
static bool present_field(uint8_t present, uint8_t number, uint8_t limit)
{
    return present <= 1 && number <= (present == 1 ? limit : 0);
}

static uint32_t write_power_cycle(const uint8_t bytes[8])
{
    if (!present_field(bytes[2], bytes[3], 31)
        || !present_field(bytes[4], bytes[5], 63) || bytes[6] != 0
        || bytes[7] != 0) {
        return out_of_range();
    }
    return written((uint32_t)POWER_CYCLE_BITS | (uint32_t)bytes[2] << 12
                   | (uint32_t)bytes[3] << 7 | (uint32_t)bytes[4] << 6
                   | bytes[5]);
}

uint32_t second_write(uint64_t word)
{
    uint8_t bytes[8];
    for (size_t i = 0; i < 8; i++) {
        bytes[i] = (uint8_t)(word >> (8 * (7 - i)) & 0xFF);
    }
    if (bytes[0] != 0 || bytes[1] > POWER_CYCLE) {
        return out_of_range();
    }
    switch (bytes[1]) {
    case COMMAND:
        return write_command(bytes);
    case SPECIAL:
        return write_special(bytes);
    case POWER_CYCLE:
        return write_power_cycle(bytes);
    default:
        return write_event(bytes);
    }
}

/* The lowest member group of at least one. */
static uint32_t lowest_group(uint32_t groups)
{
    uint32_t group = 0;
    while ((groups >> group & 1u) == 0) {
        group++;
    }
    return group;
}

/* A limit, or 255. */
static bool within_or_none(uint32_t number, uint32_t limit)
{
    return number <= limit || number == 255;
}

/* 255 is "as shipped", which is 2. A scheme whose field is missing (255, or
   no group) falls back to 0. */
static uint32_t scheme_in_use(uint32_t scheme, uint32_t primary,
                              uint32_t short_address, uint32_t groups)
{
    uint32_t meant = scheme == 255 ? 2 : scheme;
    bool missing = ((meant == 1 || meant == 2) && short_address == 255)
                   || (meant == 3 && groups == 0)
                   || (meant == 4 && primary == 255);
    return missing ? 0 : meant;
}

uint32_t second_compose_event(uint32_t type, uint32_t number, uint32_t primary,
                              uint32_t short_address, uint32_t groups,
                              uint32_t information, uint32_t scheme)
{
    if (type > 31 || number > 31 || !within_or_none(primary, 31)
        || !within_or_none(short_address, 63) || information > 1023
        || !within_or_none(scheme, 4)) {
        return out_of_range();
    }
    switch (scheme_in_use(scheme, primary, short_address, groups)) {
    case 1: /* short address and type */
        return written_event(1, short_address, type, information);
    case 2: /* short address and number */
        return written_event(2, short_address, number, information);
    case 3: /* lowest device group and type */
        return written_event(3, lowest_group(groups), type, information);
    case 4: /* primary group and type */
        return written_event(4, primary, type, information);
    default: /* type and number */
        return written_event(0, type, number, information);
    }
}

/* A power event is composed from a short address and 32 group bits. */
uint32_t second_compose_power(uint32_t short_address, uint32_t groups)
{
    uint32_t frame = POWER_CYCLE_BITS;
    if (!within_or_none(short_address, 63)) {
        return out_of_range();
    }
    if (groups != 0) {
        frame |= 1u << 12 | lowest_group(groups) << 7;
    }
    if (short_address != 255) {
        frame |= 1u << 6 | short_address;
    }
    return written(frame);
}
