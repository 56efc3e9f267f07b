/* Counters of what happened; compiled in for the tally only. */
#ifndef SECOND_TALLY_H
#define SECOND_TALLY_H

enum {
    TALLY_PAIR = 0,       /* seven pair commands, in the paper's order */
    TALLY_COMPLETE = 7,   /* complete writings of width 1..8 */
    TALLY_RESET_ACTS = 15,
    TALLY_RESET_IDLE,
    TALLY_BANKS_RESET,
    TALLY_LATCHED_READ,
    TALLY_STORED_READ,
    TALLY_READ_UNMAPPED_BANK,
    TALLY_READ_UNMAPPED_LOCATION,
    TALLY_WRITE_NOT_EXECUTED,
    TALLY_WRITE_NOT_TAKEN,
    TALLY_WRITE_TAKEN,
    TALLY_POWER_ON,
    TALLY_EVENT,
    TALLY_RESERVED,
    TALLY_FOREIGN,
    TALLY_UNLISTED,
    TALLY_SINGLE,
    TALLY_FIRST_HALF,
    TALLY_STAGING_DROPPED,
    TALLY_NOTHING_DROPPED,
    TALLY_COUNT
};

#ifdef SECOND_TALLY
#include <stdint.h>
extern uint64_t second_tally[TALLY_COUNT];
#define TALLY(what) (second_tally[(what)]++)
#else
#define TALLY(what) ((void)(what))
#endif

#endif
