/* State and clock, start, power-on, and the commands obeyed. */
#include "unit.h"

#include "banks.h"
#include "frames.h"
#include "memory.h"
#include "tally.h"

enum { PAIR_LIMIT = 100 }; /* at most 100 (house) milliseconds */

/* The listed commands. */
typedef enum Listed {
    RESET_MEMORY_BANK,
    SET_SHORT_ADDRESS,
    ENABLE_WRITE_MEMORY,
    ADD_TO_DEVICE_GROUPS_0_15,
    ADD_TO_DEVICE_GROUPS_16_31,
    REMOVE_FROM_0_15,
    REMOVE_FROM_16_31,
    QUERY_MISSING_SHORT_ADDRESS,
    QUERY_CONTENT_DTR0,
    QUERY_CONTENT_DTR1,
    QUERY_CONTENT_DTR2,
    READ_MEMORY_LOCATION,
    QUERY_DEVICE_GROUPS_0_7,
    QUERY_DEVICE_GROUPS_8_15,
    QUERY_DEVICE_GROUPS_16_23,
    QUERY_DEVICE_GROUPS_24_31,
    WRITE_MEMORY_LOCATION,
    WRITE_WITHOUT_REPLY,
    DIRECT_WRITE_MEMORY,
    DTR0,
    DTR1,
    DTR2,
    DTR1_DTR0,
    DTR2_DTR1,
    NOT_LISTED
} Listed;

/* With instance byte 0xFE. */
static Listed device_command(uint8_t opcode)
{
    switch (opcode) {
    case 0x11: return RESET_MEMORY_BANK;
    case 0x14: return SET_SHORT_ADDRESS;
    case 0x15: return ENABLE_WRITE_MEMORY;
    case 0x19: return ADD_TO_DEVICE_GROUPS_0_15;
    case 0x1A: return ADD_TO_DEVICE_GROUPS_16_31;
    case 0x1B: return REMOVE_FROM_0_15;
    case 0x1C: return REMOVE_FROM_16_31;
    case 0x33: return QUERY_MISSING_SHORT_ADDRESS;
    case 0x36: return QUERY_CONTENT_DTR0;
    case 0x37: return QUERY_CONTENT_DTR1;
    case 0x38: return QUERY_CONTENT_DTR2;
    case 0x3C: return READ_MEMORY_LOCATION;
    case 0x41: return QUERY_DEVICE_GROUPS_0_7;
    case 0x42: return QUERY_DEVICE_GROUPS_8_15;
    case 0x43: return QUERY_DEVICE_GROUPS_16_23;
    case 0x44: return QUERY_DEVICE_GROUPS_24_31;
    default: return NOT_LISTED;
    }
}

/* Special: 0xC1 with its first free byte. */
static Listed special_c1(uint8_t first_free)
{
    switch (first_free) {
    case 0x20: return WRITE_MEMORY_LOCATION;
    case 0x21: return WRITE_WITHOUT_REPLY;
    case 0x30: return DTR0;
    case 0x31: return DTR1;
    case 0x32: return DTR2;
    default: return NOT_LISTED;
    }
}

static Listed special_command(const Message *message)
{
    switch (0xC1 | message->special << 1) {
    case 0xC1: return special_c1(message->first_free);
    case 0xC5: return DIRECT_WRITE_MEMORY;
    case 0xC7: return DTR1_DTR0;
    case 0xC9: return DTR2_DTR1;
    default: return NOT_LISTED;
    }
}

static Listed listed_command(const Message *message)
{
    if (message->kind == SPECIAL) {
        return special_command(message);
    }
    if (message->kind == COMMAND && message->target_kind == DEVICE) {
        return device_command(message->opcode);
    }
    return NOT_LISTED;
}

/* All needing a pair. */
static bool needs_pair(Listed command)
{
    return command <= REMOVE_FROM_16_31;
}

/* The eleven that keep write-enable: the three writes, the five DTR commands
   and QUERY CONTENT DTR0..2. */
static bool keeps_write_enable(Listed command)
{
    return (command >= WRITE_MEMORY_LOCATION && command <= DTR2_DTR1)
           || (command >= QUERY_CONTENT_DTR0 && command <= QUERY_CONTENT_DTR2);
}

/* A command is for the unit if its short address or group matches, if
   broadcast, if broadcast unaddressed while its address is 255, or if
   special. */
static bool for_the_unit(const Unit *unit, const Message *message)
{
    if (message->kind == SPECIAL) {
        return true;
    }
    if (message->kind != COMMAND) {
        return false;
    }
    switch (message->address_kind) {
    case SHORT_ADDRESS:
        return message->address_number == unit->address;
    case DEVICE_GROUP:
        return (unit->groups >> message->address_number & 1u) == 1u;
    case UNADDRESSED:
        return unit->address == NO_ADDRESS;
    default:
        return true;
    }
}

static bool address_in_range(uint32_t address)
{
    return address <= 63 || address == NO_ADDRESS;
}

/* The bytes from the given one on, up to the count, are zero. */
static bool all_zero(const uint8_t *bytes, size_t from, size_t count)
{
    for (size_t i = from; i < count; i++) {
        if (bytes[i] != 0) {
            return false;
        }
    }
    return true;
}

/* A waiting frame is a pair command for the unit, and write-enable is then
   closed. */
static bool waiting_rule_holds(const Unit *unit)
{
    if (unit->waiting == 0) {
        return unit->waiting_frame == 0 && unit->waiting_clock == 0;
    }
    Message message = message_of_frame(unit->waiting_frame);
    return unit->waiting == 1 && message.refusal == 0
           && needs_pair(listed_command(&message))
           && for_the_unit(unit, &message) && unit->write_enable == 0;
}

/* Staged bytes exist only while enabled: at least one, not all, of a writable
   value of width 2 or more, its lock byte 0x55 if it is lockable. */
static bool staged_rule_holds(const Lent *lent, const Unit *unit)
{
    Value value;
    if (unit->staged == 0) {
        return unit->staged_bank == 0 && unit->staged_first == 0
               && all_zero(unit->staged_bytes, 0, VALUE_LIMIT);
    }
    return unit->write_enable == 1
           && value_beginning(lent, unit->staged_bank, unit->staged_first,
                              &value)
           && writable(&value) && unit->staged < value.width
           && (value.lockable == 0 || bank_unlocked(lent, value.bank))
           && all_zero(unit->staged_bytes, unit->staged, VALUE_LIMIT);
}

/* Latched bytes, whatever they are, belong to a mapped value of width 2 or
   more. */
static bool latched_rule_holds(const Lent *lent, const Unit *unit)
{
    Value value;
    if (unit->latched == 0) {
        return unit->latched_bank == 0 && unit->latched_first == 0
               && all_zero(unit->latched_bytes, 0, VALUE_LIMIT);
    }
    return unit->latched == 1
           && value_beginning(lent, unit->latched_bank, unit->latched_first,
                              &value)
           && value.width >= 2
           && all_zero(unit->latched_bytes, value.width, VALUE_LIMIT);
}

/* Rules of a state. Whatever is not in use is zero. */
static bool state_rules_hold(const Lent *lent, const Unit *unit)
{
    return address_in_range(unit->address) && unit->write_enable <= 1
           && waiting_rule_holds(unit) && staged_rule_holds(lent, unit)
           && latched_rule_holds(lent, unit);
}

static void clear_waiting(Unit *unit)
{
    unit->waiting = 0;
    unit->waiting_frame = 0;
    unit->waiting_clock = 0;
}

static void wait_for_second(Unit *unit, uint32_t frame, uint32_t clock)
{
    TALLY(TALLY_FIRST_HALF);
    unit->waiting = 1;
    unit->waiting_frame = frame;
    unit->waiting_clock = clock;
}

/* Closing drops staging. */
static void close_write_enable(Unit *unit)
{
    unit->write_enable = 0;
    drop_staging(unit);
}

/* Equal, accepted in direct succession, no power-on between, and second minus
   first, modulo 4,294,967,296, is at most 100. */
static bool makes_pair(const Unit *unit, uint32_t frame, uint32_t clock)
{
    return unit->waiting == 1 && unit->waiting_frame == frame
           && (uint32_t)(clock - unit->waiting_clock) <= PAIR_LIMIT;
}

/* SET SHORT ADDRESS takes DTR0 if below 0x40 or 255, else does nothing. */
static void set_short_address(Unit *unit)
{
    if (address_in_range(unit->dtr0)) {
        unit->address = unit->dtr0;
    }
}

/* Group commands take DTR2 as high byte, DTR1 as low. */
static uint32_t group_bits(const Unit *unit, Listed command)
{
    uint32_t sixteen = (uint32_t)unit->dtr2 << 8 | unit->dtr1;
    bool upper = command == ADD_TO_DEVICE_GROUPS_16_31
                 || command == REMOVE_FROM_16_31;
    return upper ? sixteen << 16 : sixteen;
}

static void execute_pair(const Lent *lent, Unit *unit, Listed command)
{
    TALLY(TALLY_PAIR + command);
    switch (command) {
    case RESET_MEMORY_BANK:
        reset_memory_bank(lent, unit->dtr0);
        break;
    case SET_SHORT_ADDRESS:
        set_short_address(unit);
        break;
    case ENABLE_WRITE_MEMORY:
        unit->write_enable = 1; /* the ENABLE pair opens it */
        break;
    case ADD_TO_DEVICE_GROUPS_0_15:
    case ADD_TO_DEVICE_GROUPS_16_31:
        unit->groups |= group_bits(unit, command);
        break;
    default: /* REMOVE FROM 0-15 and 16-31 */
        unit->groups &= ~group_bits(unit, command);
        break;
    }
}

static bool is_write(Listed command)
{
    return command == WRITE_MEMORY_LOCATION || command == WRITE_WITHOUT_REPLY
           || command == DIRECT_WRITE_MEMORY;
}

/* DIRECT WRITE sets DTR0 to its offset first, if it executes. A taken byte
   answers itself, except in the no-reply form. */
static uint32_t execute_write(const Lent *lent, Unit *unit, Listed command,
                              const Message *message)
{
    if (!write_executes(lent, unit)) {
        TALLY(TALLY_WRITE_NOT_EXECUTED);
        return 0;
    }
    if (command == DIRECT_WRITE_MEMORY) {
        unit->dtr0 = message->first_free;
    }
    uint32_t answer = write_memory(lent, unit, message->second_free);
    return command == WRITE_WITHOUT_REPLY ? 0 : answer;
}

/* The five DTR commands. */
static void execute_dtr(Unit *unit, Listed command, const Message *message)
{
    switch (command) {
    case DTR0:
        unit->dtr0 = message->second_free;
        break;
    case DTR1:
        unit->dtr1 = message->second_free;
        break;
    case DTR2:
        unit->dtr2 = message->second_free;
        break;
    case DTR1_DTR0:
        unit->dtr1 = message->first_free;
        unit->dtr0 = message->second_free;
        break;
    default: /* DTR2 then DTR1 */
        unit->dtr2 = message->first_free;
        unit->dtr1 = message->second_free;
        break;
    }
}

static uint32_t execute_query(const Unit *unit, Listed command)
{
    switch (command) {
    case QUERY_MISSING_SHORT_ADDRESS: /* 0xFF if address is 255, else none */
        return unit->address == NO_ADDRESS ? answer_with(0xFF) : 0;
    case QUERY_CONTENT_DTR0:
        return answer_with(unit->dtr0);
    case QUERY_CONTENT_DTR1:
        return answer_with(unit->dtr1);
    case QUERY_CONTENT_DTR2:
        return answer_with(unit->dtr2);
    case QUERY_DEVICE_GROUPS_0_7: /* low byte first */
        return answer_with((uint8_t)(unit->groups & 0xFF));
    case QUERY_DEVICE_GROUPS_8_15:
        return answer_with((uint8_t)(unit->groups >> 8 & 0xFF));
    case QUERY_DEVICE_GROUPS_16_23:
        return answer_with((uint8_t)(unit->groups >> 16 & 0xFF));
    default: /* QUERY DEVICE GROUPS 24-31 */
        return answer_with((uint8_t)(unit->groups >> 24 & 0xFF));
    }
}

/* A listed command for the unit that needs no pair. */
static uint32_t execute_single(const Lent *lent, Unit *unit, Listed command,
                               const Message *message)
{
    TALLY(TALLY_SINGLE);
    if (is_write(command)) {
        return execute_write(lent, unit, command, message);
    }
    if (command == READ_MEMORY_LOCATION) {
        return read_memory(lent, unit);
    }
    if (command >= DTR0) {
        execute_dtr(unit, command, message);
        return 0;
    }
    return execute_query(unit, command);
}

/* A listed command for the unit. A pair executes; otherwise a listed pair
   command waits itself. */
static uint32_t obey(const Lent *lent, Unit *unit, const Message *message,
                     bool pair, uint32_t frame, uint32_t clock)
{
    Listed command = listed_command(message);
    if (!needs_pair(command)) {
        return execute_single(lent, unit, command, message);
    }
    if (pair) {
        execute_pair(lent, unit, command);
    } else {
        wait_for_second(unit, frame, clock);
    }
    return 0;
}

/* A pair executes and clears. Otherwise any frame clears the waiting one, and
   a listed pair command for the unit then waits itself. */
static uint32_t step(const Lent *lent, Unit *unit, uint32_t frame,
                     uint32_t clock)
{
    Message message = message_of_frame(frame);
    bool pair = makes_pair(unit, frame, clock);
    clear_waiting(unit);
    if (message.refusal != 0) {
        TALLY(TALLY_RESERVED); /* 2 to 5: such a frame only clears */
        return 0;
    }
    if (message.kind >= EVENT) {
        TALLY(TALLY_EVENT);
        return 0;
    }
    if (!for_the_unit(unit, &message)) {
        TALLY(TALLY_FOREIGN);
        return 0;
    }
    if (!keeps_write_enable(listed_command(&message))) {
        /* Every command for the unit closes it, except the eleven that keep
           it, on its first hearing too. */
        close_write_enable(unit);
    }
    if (listed_command(&message) == NOT_LISTED) {
        TALLY(TALLY_UNLISTED); /* read, not obeyed; it never waits */
        return 0;
    }
    return obey(lent, unit, &message, pair, frame, clock);
}

/* Acts as a power-on: DTRs 0; nothing waiting, enabled, staged or latched. */
static Unit fresh_unit(uint8_t address, uint32_t groups)
{
    Unit unit = {0};
    unit.address = address;
    unit.groups = groups;
    return unit;
}

/* Start tests 7 to 11, then 6. A refused start's state is all zeros. */
uint32_t second_start(const uint8_t *map, size_t map_len, uint8_t *store,
                      size_t store_len, const uint8_t *image, size_t image_len,
                      uint32_t address, uint32_t groups, Unit *unit)
{
    const Lent lent = {map, map_len, store, store_len, image, store};
    uint32_t number = second_check(map, map_len, store, store_len, image_len);
    *unit = fresh_unit(0, 0);
    if (number != 0) {
        return number;
    }
    if (!address_in_range(address)) {
        return FIELD_OUT_OF_RANGE;
    }
    power_on_store(&lent);
    *unit = fresh_unit((uint8_t)address, groups);
    return 0;
}

/* A later power-on does the same and keeps address and groups. */
uint32_t second_power_on(const uint8_t *map, size_t map_len, uint8_t *store,
                         size_t store_len, const uint8_t *image,
                         size_t image_len, Unit *unit)
{
    const Lent lent = {map, map_len, store, store_len, image, store};
    uint32_t number = second_check(map, map_len, store, store_len, image_len);
    if (number != 0) {
        return number;
    }
    if (!state_rules_hold(&lent, unit)) {
        return STATE_RULE;
    }
    TALLY(TALLY_POWER_ON);
    power_on_store(&lent);
    *unit = fresh_unit(unit->address, unit->groups);
    return 0;
}

/* A frame step tests 7 to 12, each over everything, then 1. */
uint32_t second_frame(const uint8_t *map, size_t map_len, uint8_t *store,
                      size_t store_len, const uint8_t *image, size_t image_len,
                      Unit *unit, uint32_t frame, uint32_t clock)
{
    const Lent lent = {map, map_len, store, store_len, image, store};
    uint32_t number = second_check(map, map_len, store, store_len, image_len);
    if (number != 0) {
        return number;
    }
    if (!state_rules_hold(&lent, unit)) {
        return STATE_RULE;
    }
    if (message_of_frame(frame).refusal == FRAME_TOO_LARGE) {
        return FRAME_TOO_LARGE;
    }
    return step(&lent, unit, frame, clock);
}
