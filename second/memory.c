/* Writing, reading and resetting memory banks. */
#include "memory.h"

#include "tally.h"

uint32_t answer_with(uint8_t byte)
{
    return 1u << 8 | (uint32_t)byte << 16;
}

/* Whatever is not in use is zero. */
static void clear_staging(Unit *unit)
{
    unit->staged = 0;
    unit->staged_bank = 0;
    unit->staged_first = 0;
    for (size_t i = 0; i < VALUE_LIMIT; i++) {
        unit->staged_bytes[i] = 0;
    }
}

void drop_staging(Unit *unit)
{
    TALLY(unit->staged > 0 ? TALLY_STAGING_DROPPED : TALLY_NOTHING_DROPPED);
    clear_staging(unit);
}

static void end_latch(Unit *unit)
{
    unit->latched = 0;
    unit->latched_bank = 0;
    unit->latched_first = 0;
    for (size_t i = 0; i < VALUE_LIMIT; i++) {
        unit->latched_bytes[i] = 0;
    }
}

/* DTR0 rises by one unless 0xFF. */
static void raise_dtr0(Unit *unit)
{
    if (unit->dtr0 != 0xFF) {
        unit->dtr0++;
    }
}

/* A write executes only if enabled and bank DTR1 is mapped. */
bool write_executes(const Lent *lent, const Unit *unit)
{
    return unit->write_enable == 1 && bank_mapped(lent, unit->dtr1);
}

static bool is_next_staged(const Unit *unit, const Value *value,
                           uint8_t location)
{
    return unit->staged > 0 && unit->staged_bank == value->bank
           && unit->staged_first == value->first
           && location - value->first == unit->staged;
}

/* The location is in a writable value, and the bank's lock byte is 0x55 where
   the value is lockable. */
static bool may_be_written(const Lent *lent, const Value *value)
{
    return writable(value)
           && (value->lockable == 0 || bank_unlocked(lent, value->bank));
}

/* A last byte puts the whole value in the store. Values of width 1 store at
   once. */
static void stage_byte(const Lent *lent, Unit *unit, const Value *value,
                       uint8_t byte)
{
    unit->staged_bank = value->bank;
    unit->staged_first = value->first;
    unit->staged_bytes[unit->staged] = byte;
    unit->staged++;
    if (unit->staged == value->width) {
        put_value(lent, value, unit->staged_bytes);
        clear_staging(unit);
        TALLY(TALLY_COMPLETE + value->width - 1);
    }
}

/* The byte is taken if it may be written and it is a first byte or the next
   one staged. A taken byte answers itself. */
uint32_t write_memory(const Lent *lent, Unit *unit, uint8_t byte)
{
    uint8_t location = unit->dtr0;
    Value value;
    bool mapped = value_holding(lent, unit->dtr1, location, &value);
    bool next = mapped && is_next_staged(unit, &value, location);
    raise_dtr0(unit);
    if (!next) {
        /* An executed write that isn't the next staged byte drops staging
           first. */
        drop_staging(unit);
    }
    if (!mapped || !may_be_written(lent, &value)
        || !(next || location == value.first)) {
        TALLY(TALLY_WRITE_NOT_TAKEN);
        return 0;
    }
    TALLY(TALLY_WRITE_TAKEN);
    stage_byte(lent, unit, &value, byte);
    return answer_with(byte);
}

/* A first byte of width 2 or more latches that value's bytes. */
static void latch_value(const Lent *lent, Unit *unit, const Value *value)
{
    unit->latched = 1;
    unit->latched_bank = value->bank;
    unit->latched_first = value->first;
    copy_bytes(unit->latched_bytes, lent->store + value->offset, value->width);
}

static bool value_is_latched(const Unit *unit, const Value *value)
{
    return unit->latched == 1 && unit->latched_bank == value->bank
           && unit->latched_first == value->first;
}

/* Its later bytes are answered from the latch. */
static uint32_t read_later_byte(const Lent *lent, const Unit *unit,
                                const Value *value, uint8_t location)
{
    if (value_is_latched(unit, value)) {
        TALLY(TALLY_LATCHED_READ);
        return answer_with(unit->latched_bytes[location - value->first]);
    }
    TALLY(TALLY_STORED_READ);
    return answer_with(stored_byte(lent, value, location));
}

uint32_t read_memory(const Lent *lent, Unit *unit)
{
    uint8_t location = unit->dtr0;
    Value value;
    if (!bank_mapped(lent, unit->dtr1)) {
        /* Unmapped bank, no answer, DTR0 stays. */
        TALLY(TALLY_READ_UNMAPPED_BANK);
        return 0;
    }
    raise_dtr0(unit);
    if (!value_holding(lent, unit->dtr1, location, &value)) {
        TALLY(TALLY_READ_UNMAPPED_LOCATION);
        return 0;
    }
    if (location != value.first) {
        return read_later_byte(lent, unit, &value, location);
    }
    /* Reading a first or single byte ends any latch. */
    end_latch(unit);
    if (value.width >= 2) {
        latch_value(lent, unit, &value);
    }
    TALLY(TALLY_STORED_READ);
    return answer_with(stored_byte(lent, &value, location));
}

/* Its other writable values take the reset image, its lock byte 0xFF. */
static void reset_bank(const Lent *lent, uint8_t bank)
{
    for (size_t i = 0; i < record_count(lent); i++) {
        Value value = record_at(lent, i);
        if (value.bank != bank || !writable(&value)) {
            continue;
        }
        if (is_lock_byte(&value)) {
            lock_bank(lent, &value);
        } else {
            take_reset_image(lent, &value);
        }
    }
    TALLY(TALLY_BANKS_RESET);
}

/* DTR0=0 means each mapped bank 1..199, else bank DTR0; only a bank whose lock
   byte is 0x55. */
void reset_memory_bank(const Lent *lent, uint8_t dtr0)
{
    bool acts = false;
    for (unsigned bank = 1; bank <= 199; bank++) {
        bool selected = dtr0 == 0 || bank == dtr0;
        if (selected && bank_unlocked(lent, (uint8_t)bank)) {
            reset_bank(lent, (uint8_t)bank);
            acts = true;
        }
    }
    TALLY(acts ? TALLY_RESET_ACTS : TALLY_RESET_IDLE);
}

/* Lock bytes 0xFF; other RAM-RW values from the reset image. */
void power_on_store(const Lent *lent)
{
    for (size_t i = 0; i < record_count(lent); i++) {
        Value value = record_at(lent, i);
        if (value.kind != RAM_RW) {
            continue;
        }
        if (is_lock_byte(&value)) {
            lock_bank(lent, &value);
        } else {
            take_reset_image(lent, &value);
        }
    }
}
