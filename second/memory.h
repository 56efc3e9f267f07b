/* The commands that work on memory banks, for the library's own use. */
#ifndef SECOND_MEMORY_H
#define SECOND_MEMORY_H

#include "banks.h"
#include "unit.h"

/* answered << 8 | answer << 16; the number is 0. */
uint32_t answer_with(uint8_t byte);

void drop_staging(Unit *unit);

/* A write of a byte to the location DTR0 of the bank DTR1. */
bool write_executes(const Lent *lent, const Unit *unit);
uint32_t write_memory(const Lent *lent, Unit *unit, uint8_t byte);

uint32_t read_memory(const Lent *lent, Unit *unit);
void reset_memory_bank(const Lent *lent, uint8_t dtr0);

/* What a power-on does to the store. */
void power_on_store(const Lent *lent);

#endif
