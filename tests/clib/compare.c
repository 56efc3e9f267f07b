/* Every call of the C library against the second program, on random inputs.
 *
 *   compare [SEED [INPUTS]]     INPUTS: at least so many for each call, 200,000 where it is left out
 *
 * Most inputs keep the rules, so that writings, resets and latched reads come about: a unit goes through long lists of
 * frames. Beside each step map, store, image or state are damaged in a copy, and the calls are tried on that. A refused
 * call must leave state and store as they were. Counted is how often each call was made, each number given, each damage
 * refused by its number, and each thing seen; what never came is a failure. The unit's calls are made by turns with all
 * that is lent to them, and over an mf_unit. Of some maps every bank and location is tried. */
#include "inputs.h"

#include "capture.h"
#include "unit.h"

#include <inttypes.h>
#include <stdio.h>
#include <stdlib.h>
#include <string.h>

/* ---- counting ---- */

enum Call {
    CHECK, LOOK, FIND, COMPARE, SESSION, READ, WRITE, EVENT_COMPOSER, POWER_COMPOSER, CENSUS, START, STEP, POWER_ON, RUN, CALLS
};

static const struct {
    const char *name;
    uint32_t expected; /* a bit for each number that has to come */
    bool changes;      /* state and store */
} calls[CALLS] = {
    [CHECK] = {"mf_check", 0x0F81, false},
    [LOOK] = {"mf_look", 0x4F81, false},
    [FIND] = {"mf_find", 0x03C1, false},
    [COMPARE] = {"mf_compare", 0x8F81, false},
    [SESSION] = {"mf_session", 0x143C1, false},
    [READ] = {"mf_read", 0x003F, false},
    [WRITE] = {"mf_write", 0x0041, false},
    [EVENT_COMPOSER] = {"mf_compose_event", 0x0041, false},
    [POWER_COMPOSER] = {"mf_compose_power", 0x0041, false},
    [CENSUS] = {"mf_census", 0x2001, false},
    [START] = {"mf_start", 0x0FC1, true},
    [STEP] = {"mf_frame", 0x1F83, true},
    [POWER_ON] = {"mf_power_on", 0x1F81, true},
    [RUN] = {"mf_run", 0x3F81, true},
};

static uint64_t inputs[CALLS], numbers[CALLS][256], unchanged_refused[CALLS], damaged[DAMAGES], passed, failed;

static void expect(const char *whose, const char *what, uint64_t input, bool holds) {
    if (holds) {
        passed++;
        return;
    }
    if (failed++ < 20) printf("failed: %s: %s (input %" PRIu64 ")\n", whose, what, input);
}

static void expect_call(enum Call call, const char *what, bool holds) {
    expect(calls[call].name, what, inputs[call], holds);
}

static void same(enum Call call, uint64_t ours, uint64_t theirs, uint32_t number) {
    inputs[call]++;
    numbers[call][number & 0xFF]++;
    expect_call(call, "another answer", ours == theirs);
}

/* ---- what is seen to happen ---- */

enum Seen {
    EMPTY_MAP, MAP_OF_64, EMPTY_STORE, STORE_OF_4096, BANK_0, BANK_199, LAST_0XFE,
    ANSWERED, STORED, STORED_WHOLE, RESET, WAITED, OPENED, CLOSED, STAGES, DROPPED, LATCHES, LATCH_ENDED,
    NEW_ADDRESS, NEW_GROUPS,
    INSTANCE_CLOSED, UNLISTED_CLOSED, SPECIAL_CLOSED, UNLISTED_DROPPED, RESERVED_KEPT, FOREIGN_KEPT, EVENT_KEPT,
    RUN_WHOLE, RUN_OF_NONE, RUN_BY_ROOM, RUN_ENDED,
    START_NOT_CUT, LOOK_NOT_CUT, FIND_BANK_NOT_CUT, FIND_LOCATION_NOT_CUT, FIND_MAP_FIRST,
    FOUND_FIRST, FOUND_INSIDE, FOUND_ABSENT, FOUND_HOLE, HOLE_BEFORE_ALL, FOUND_PAST, PAST_BELOW_A_BANK,
    FOUND_BY_MAP_ALONE, EXAMINED_NONE, EXAMINED_ONE, EXAMINED_7, EVERY_PLACE,
    ALIKE, ALL_64, ROOM_EXACT, ROOM_SHORT, PAST_STAYS, ONE_BUFFER, UNDER_NO_RECORD, LOCK_LISTED, READ_ONLY_LISTED,
    OLD_HEAD_REFUSED, NEW_HEAD_REFUSED, NO_OUTPUT,
    OF_13_FRAMES, OF_THE_LOCK_BYTE, SESSION_NOT_CUT, SESSION_ADDRESS_NOT_CUT, SESSION_BY_MAP_ALONE,
    RAN, RAN_WRAPPED, RAN_WAITING, RAN_OPEN, RAN_STAGED, RAN_UNLOCKED, RAN_LATCHED, RAN_OVER, RAN_SAME,
    SHIPPED_WITH_ADDRESS, SHIPPED_WITHOUT_ADDRESS,
    COUNTED_NONE, COUNTED_ALL, TAIL_ENDED, UNKNOWN_ENDED, COUNT_RAN_OVER, CUT_BETWEEN, CUT_BEHIND_13,
    SEEN
};

static const char *const seen_names[SEEN] = {
    [EMPTY_MAP] = "units with no record",
    [MAP_OF_64] = "units with 64 records",
    [EMPTY_STORE] = "units with an empty store",
    [STORE_OF_4096] = "units with a store of 4,096 bytes",
    [BANK_0] = "units with bank 0",
    [BANK_199] = "units with bank 199",
    [LAST_0XFE] = "units with a value that ends at 0xFE",
    [ANSWERED] = "frames answered",
    [STORED] = "frames that changed the store",
    [STORED_WHOLE] = "frames that stored a value of width 2 or more",
    [RESET] = "pairs that reset a bank",
    [WAITED] = "frames that wait",
    [OPENED] = "frames that opened write-enable",
    [CLOSED] = "frames that closed it",
    [STAGES] = "frames that staged a byte",
    [DROPPED] = "frames that dropped staged bytes, nothing stored",
    [LATCHES] = "frames that latched a value",
    [LATCH_ENDED] = "frames that ended a latch",
    [NEW_ADDRESS] = "frames that changed the address",
    [NEW_GROUPS] = "frames that changed the groups",
    [INSTANCE_CLOSED] = "instance and feature commands that closed write-enable",
    [UNLISTED_CLOSED] = "unlisted device commands that closed it",
    [SPECIAL_CLOSED] = "unlisted special commands that closed it",
    [UNLISTED_DROPPED] = "of these three, such that dropped staged bytes",
    [RESERVED_KEPT] = "reserved frames that left it open",
    [FOREIGN_KEPT] = "unlisted commands for others that left it open",
    [EVENT_KEPT] = "events that left it open",
    [RUN_WHOLE] = "runs of all their records",
    [RUN_OF_NONE] = "runs without a whole record, or without room",
    [RUN_BY_ROOM] = "runs that ended where the output was full",
    [RUN_ENDED] = "runs that 13 ended",
    [START_NOT_CUT] = "starts with an address over 255, refused by 6",
    [LOOK_NOT_CUT] = "looks at a value by a bank or location over 255, refused by 14",
    [FIND_BANK_NOT_CUT] = "finds by a bank over 255, refused by 6",
    [FIND_LOCATION_NOT_CUT] = "finds by a location over 255, refused by 6",
    [FIND_MAP_FIRST] = "finds by a bank or location over 255, refused by 7 to 9",
    [FOUND_FIRST] = "finds of a value at its first location",
    [FOUND_INSIDE] = "finds of a value inside it",
    [FOUND_ABSENT] = "finds in an absent bank",
    [FOUND_HOLE] = "finds in a hole",
    [HOLE_BEFORE_ALL] = "finds in a hole before all records of its bank",
    [FOUND_PAST] = "finds past the bank's last location",
    [PAST_BELOW_A_BANK] = "finds past the bank's last location, and a higher bank follows",
    [FOUND_BY_MAP_ALONE] = "finds accepted where mf_check gives 10 or 11",
    [EXAMINED_NONE] = "finds that examine no record",
    [EXAMINED_ONE] = "finds that examine one record",
    [EXAMINED_7] = "finds that examine 7 records",
    [EVERY_PLACE] = "finds at every bank and location of some maps",
    [ALIKE] = "comparisons that list no value",
    [ALL_64] = "comparisons that list 64 values",
    [ROOM_EXACT] = "comparisons with room of exactly the list",
    [ROOM_SHORT] = "comparisons with room one byte short, refused by 15",
    [PAST_STAYS] = "comparisons with bytes past the list",
    [ONE_BUFFER] = "comparisons of one buffer with itself",
    [UNDER_NO_RECORD] = "comparisons of stores that differ only in bytes under no record",
    [LOCK_LISTED] = "comparisons that list a lock byte",
    [READ_ONLY_LISTED] = "comparisons that list a value that is not writable",
    [OLD_HEAD_REFUSED] = "comparisons with a byte at 0x00 damaged in the old store, refused by 11",
    [NEW_HEAD_REFUSED] = "comparisons with a byte at 0x00 damaged in the new store, refused by 11",
    [NO_OUTPUT] = "comparisons of alike stores without any output",
    [OF_13_FRAMES] = "sessions of 13 frames",
    [OF_THE_LOCK_BYTE] = "sessions that write a lock byte itself",
    [SESSION_NOT_CUT] = "sessions by a bank or location over 255, refused by 14",
    [SESSION_ADDRESS_NOT_CUT] = "sessions by an address over 255, refused by 6",
    [SESSION_BY_MAP_ALONE] = "sessions where mf_check gives 10 or 11",
    [RAN] = "sessions run",
    [RAN_WRAPPED] = "sessions run for a lockable value",
    [RAN_WAITING] = "sessions run where their very ENABLE waits and would pair",
    [RAN_OPEN] = "sessions run where write-enable is open",
    [RAN_STAGED] = "sessions run where bytes are staged",
    [RAN_UNLOCKED] = "sessions run where the bank is unlocked",
    [RAN_LATCHED] = "sessions run where a value is latched",
    [RAN_OVER] = "sessions run while the clock runs over",
    [RAN_SAME] = "sessions run that leave every byte of the store as it was",
    [SHIPPED_WITH_ADDRESS] = "events composed as shipped, with a short address",
    [SHIPPED_WITHOUT_ADDRESS] = "events composed as shipped, without a short address",
    [COUNTED_NONE] = "censuses of no record",
    [COUNTED_ALL] = "censuses of all their records",
    [TAIL_ENDED] = "censuses that an unfinished record ended",
    [UNKNOWN_ENDED] = "censuses that a record of unknown kind ended, with more behind it",
    [COUNT_RAN_OVER] = "counts that ran over 2^64 in a census",
    [CUT_BETWEEN] = "censuses in two slices, both with records",
    [CUT_BEHIND_13] = "censuses in two slices, of which the first gave 13",
};

static uint64_t seen[SEEN];

static void see(enum Seen what, bool happened) { seen[what] += happened; }

static void see_unit(Lent *l) {
    bool first = false, last = false, end = false;
    for (size_t i = 0; i < records(l); i++) {
        const uint8_t *r = record(l, i);
        first |= r[0] == 0, last |= r[0] == 199, end |= r[1] + r[2] == 255;
    }
    see(EMPTY_MAP, l->map_length == 0), see(MAP_OF_64, l->map_length == 512);
    see(EMPTY_STORE, l->store_length == 0), see(STORE_OF_4096, l->store_length == 4096);
    see(BANK_0, first), see(BANK_199, last), see(LAST_0XFE, end);
}

static bool is_listed(uint32_t opcode) {
    return (opcode >= 0x36 && opcode <= 0x38) || (opcode >= 0x41 && opcode <= 0x44) || (opcode >= 0x19 && opcode <= 0x1C)
        || opcode == 0x11 || opcode == 0x14 || opcode == 0x15 || opcode == 0x33 || opcode == 0x3C;
}

/* What met an open door, by the frame's bytes: a listed special command keeps it, so one that closed it is not listed. */
static void see_door(const uint8_t *b, const uint8_t *a, uint32_t frame) {
    uint32_t instance = frame >> 8 & 0xFF;
    bool open = b[17] == 1, closed = open && a[17] == 0, event = (frame >> 16 & 1) == 0;
    bool special = !event && frame >> 21 == 6, addressed = !event && !special, reserved = mf_number(mf_read(frame)) != 0;
    bool unlisted = special || instance != 0xFE || !is_listed(frame & 0xFF);
    see(INSTANCE_CLOSED, closed && addressed && instance != 0xFE);
    see(UNLISTED_CLOSED, closed && addressed && instance == 0xFE && unlisted), see(SPECIAL_CLOSED, closed && special);
    see(UNLISTED_DROPPED, closed && unlisted && b[18] > 0);
    see(RESERVED_KEPT, open && !closed && reserved), see(EVENT_KEPT, open && !closed && event && !reserved);
    see(FOREIGN_KEPT, open && !closed && addressed && !reserved && unlisted);
}

/* By the state's bytes (mirtofalko.h). */
static void see_frame(const Kept *before, const Kept *after, uint32_t answer) {
    const uint8_t *b = before->state, *a = after->state;
    bool stored = memcmp(before->store, after->store, sizeof after->store) != 0;
    see(ANSWERED, mf_answered(answer)), see(WAITED, a[8] == 1);
    see(STORED, stored), see(STORED_WHOLE, stored && b[18] > a[18]), see(RESET, stored && b[8] == 1);
    see(OPENED, a[17] > b[17]), see(CLOSED, a[17] < b[17]);
    see(STAGES, a[18] > b[18]), see(DROPPED, a[18] < b[18] && !stored);
    see(LATCHES, a[29] == 1 && memcmp(a + 29, b + 29, 11) != 0), see(LATCH_ENDED, a[29] < b[29]);
    see(NEW_ADDRESS, a[0] != b[0]), see(NEW_GROUPS, memcmp(a + 1, b + 1, 4) != 0);
}

/* By the answer, and by the map's records for what it does not say. */
static void see_find(Lent *l, uint32_t bank, uint32_t at, uint64_t answer) {
    uint32_t number = mf_number(answer), what = mf_what(answer);
    bool before = false, higher = false;
    see(FIND_BANK_NOT_CUT, bank > 255 && number == MF_BAD_FIELD);
    see(FIND_LOCATION_NOT_CUT, bank <= 255 && at > 255 && number == MF_BAD_FIELD);
    see(FIND_MAP_FIRST, (bank > 255 || at > 255) && number > MF_BAD_FIELD);
    if (number != MF_OK) return;
    for (size_t i = 0; i < records(l); i++) {
        const uint8_t *r = record(l, i);
        before |= r[0] == bank && r[1] < at, higher |= r[0] > bank;
    }
    see(FOUND_FIRST, what == MF_FOUND && mf_place(answer) == at);
    see(FOUND_INSIDE, what == MF_FOUND && mf_place(answer) < at);
    see(FOUND_ABSENT, what == MF_ABSENT);
    see(FOUND_HOLE, what == MF_HOLE), see(HOLE_BEFORE_ALL, what == MF_HOLE && !before);
    see(FOUND_PAST, what == MF_PAST), see(PAST_BELOW_A_BANK, what == MF_PAST && higher);
    see(EXAMINED_NONE, mf_count(answer) == 0), see(EXAMINED_ONE, mf_count(answer) == 1);
    see(EXAMINED_7, mf_count(answer) == 7);
}

/* ---- the calls of the unit ---- */

static bool unchanged(const Kept *before, const Kept *after) { return memcmp(before, after, sizeof *before) == 0; }

static void refused(enum Call call, const Kept *before, const Kept *after) {
    expect_call(call, "refused, and changed", unchanged(before, after));
    unchanged_refused[call]++;
}

/* The answers, what was left, and that a refusal left everything. */
static void compare(enum Call call, uint32_t ours, uint32_t theirs, const Kept *mine, const Kept *other,
                    const Kept *before) {
    same(call, ours, theirs, ours);
    expect_call(call, "another state or store", unchanged(mine, other));
    if (mf_number(ours) == 0) return;
    expect_call(call, "refused, and answered", ours < 256);
    refused(call, before, mine);
}

/* What is lent, as one thing; an empty part may be null there. */
static mf_unit unit_of(const Lent *l, Kept *kept) {
    mf_unit unit = {0};
    unit.map_length = l->map_length, unit.store_length = l->store_length, unit.image_length = l->image_length;
    if (l->map_length > 0) unit.map = l->map;
    if (l->store_length > 0) unit.store = kept->store;
    if (l->image_length > 0) unit.image = l->image;
    unit.state = kept->state;
    return unit;
}

static uint32_t our_frame(const Lent *l, Kept *kept, uint32_t frame, uint32_t clock) {
    const mf_unit unit = unit_of(l, kept);
    if (once_in(2)) return mf_unit_hear(&unit, frame, clock);
    return mf_frame(l->map, l->map_length, kept->store, l->store_length, l->image, l->image_length, kept->state, frame,
                    clock);
}

static void frame_call(const Lent *l, Kept *kept, uint32_t frame, uint32_t clock) {
    Kept mine = *kept, other = *kept;
    uint32_t ours = our_frame(l, &mine, frame, clock);
    uint32_t theirs = second_frame_bytes(l->map, l->map_length, other.store, l->store_length, l->image,
                                         l->image_length, other.state, frame, clock);
    compare(STEP, ours, theirs, &mine, &other, kept);
    if (mf_number(ours) == 0) see_frame(kept, &mine, ours), see_door(kept->state, mine.state, frame);
    *kept = mine;
}

static uint32_t our_power_on(const Lent *l, Kept *kept) {
    const mf_unit unit = unit_of(l, kept);
    if (once_in(2)) return mf_unit_power_on(&unit);
    return mf_power_on(l->map, l->map_length, kept->store, l->store_length, l->image, l->image_length, kept->state);
}

/* It answers the number. */
static uint32_t power_on_call(const Lent *l, Kept *kept) {
    Kept mine = *kept, other = *kept;
    uint32_t ours = our_power_on(l, &mine);
    uint32_t theirs = second_power_on_bytes(l->map, l->map_length, other.store, l->store_length, l->image,
                                            l->image_length, other.state);
    compare(POWER_ON, ours, theirs, &mine, &other, kept);
    *kept = mine;
    return mf_number(ours);
}

static uint32_t our_start(const Lent *l, Kept *kept, uint32_t address, uint32_t groups) {
    const mf_unit unit = unit_of(l, kept);
    if (once_in(2)) return mf_unit_start(&unit, address, groups);
    return mf_start(l->map, l->map_length, kept->store, l->store_length, l->image, l->image_length, address, groups,
                    kept->state);
}

/* It answers the number. Whatever stands in the state is not looked at; a refused one writes zeros. */
static uint32_t start_call(const Lent *l, Kept *kept, uint32_t address) {
    uint32_t groups = once_in(4) ? any() : any() & any() & any();
    Kept mine = *kept, other = *kept, before = *kept;
    for (size_t i = 0; i < MF_STATE_BYTES; i++) mine.state[i] = byte();
    uint32_t ours = our_start(l, &mine, address, groups);
    uint32_t theirs = second_start_bytes(l->map, l->map_length, other.store, l->store_length, l->image,
                                         l->image_length, address, groups, other.state);
    memset(before.state, 0, sizeof before.state);
    compare(START, ours, theirs, &mine, &other, &before);
    see(START_NOT_CUT, address > 255 && mf_number(ours) == MF_BAD_FIELD);
    *kept = mine;
    return mf_number(ours);
}

/* It answers the number. */
static uint32_t check_call(const Lent *l, Kept *kept) {
    const mf_unit unit = unit_of(l, kept);
    uint32_t ours = once_in(2) ? mf_unit_check(&unit)
                               : mf_check(l->map, l->map_length, kept->store, l->store_length, l->image,
                                          l->image_length);
    same(CHECK, ours, second_check(l->map, l->map_length, kept->store, l->store_length, l->image_length), ours);
    return ours;
}

/* A bank and a location, now and then too large for a byte that would name a value. */
static void look_call(Lent *l, Kept *kept) {
    const uint8_t *r = records(l) > 0 && !once_in(4) ? record(l, below((uint32_t)records(l))) : NULL;
    uint32_t bank = r ? r[0] : once_in(3) ? byte() : below(20), at = r ? r[1] : below(16);
    if (once_in(20)) bank |= any() << 8;
    if (once_in(20)) at |= any() << 8;
    const mf_unit unit = unit_of(l, kept);
    uint32_t ours = once_in(2) ? mf_unit_look(&unit, bank, at)
                               : mf_look(l->map, l->map_length, kept->store, l->store_length, bank, at);
    same(LOOK, ours, second_look(l->map, l->map_length, kept->store, l->store_length, bank, at), ours);
    see(LOOK_NOT_CUT, r && (bank > 255 || at > 255) && ours == MF_BAD_LOCATION);
    if (mf_number(ours) != MF_OK) return;
    expect_call(LOOK, "bytes outside the store", mf_offset(ours) + mf_width(ours) <= l->store_length);
    expect_call(LOOK, "other bytes", mf_unit_bytes(&unit, ours) == kept->store + mf_offset(ours));
}

/* The answer that the header's names for its parts make. */
static uint64_t answer_of_parts(uint64_t answer) {
    return (uint64_t)mf_number(answer) | (uint64_t)mf_what(answer) << 8 | (uint64_t)mf_place(answer) << 16
           | (uint64_t)mf_place_width(answer) << 24 | (uint64_t)mf_count(answer) << 32;
}

/* What makes a byte too large for one; often by the least that does. */
static uint32_t too_large(void) { return once_in(2) ? 256 : any() << 8; }

/* It answers the number. A bank and a location before, in or behind a value; now and then anywhere, or too large. */
static uint32_t find_call(Lent *l, Kept *kept) {
    const uint8_t *r = records(l) > 0 && !once_in(6) ? record(l, below((uint32_t)records(l))) : NULL;
    uint32_t bank = r ? r[0] : once_in(3) ? byte() : below(20);
    uint32_t at = r && !once_in(4) ? (r[1] + 255u + below(r[2] + 3u)) & 0xFF : once_in(2) ? byte() : below(4);
    if (once_in(20)) bank |= too_large();
    if (once_in(20)) at |= too_large();
    const mf_unit unit = unit_of(l, kept);
    uint64_t ours = once_in(2) ? mf_unit_find(&unit, bank, at) : mf_find(l->map, l->map_length, bank, at);
    same(FIND, ours, second_find(l->map, l->map_length, bank, at), mf_number(ours));
    expect_call(FIND, "its parts are not the answer", answer_of_parts(ours) == ours);
    see_find(l, bank, at, ours);
    return mf_number(ours);
}

/* ---- two stores, compared ---- */

enum { LIST = 64 * MF_DIFFERENCE_BYTES, LIST_ROOM = LIST + 40, PAINT = 0xA5 };

static bool is_head(const uint8_t *r) { return r[1] == 0 && r[2] == 1 && r[3] == 0; }

/* Each byte of the store now and then, or each; the bytes at 0x00 only to 254, which every bank takes. */
static void change(Lent *l, uint8_t *store, bool all) {
    for (size_t i = 0; i < l->store_length; i++)
        if (all || once_in(9)) store[i] = (uint8_t)(store[i] + 1 + below(255));
    for (size_t i = 0; i < records(l); i++)
        if (is_head(record(l, i)) && place_of(record(l, i)) < l->store_length) store[place_of(record(l, i))] = 254;
}

/* The places under no record, all of them. */
static void change_unmapped(Lent *l, uint8_t *store) {
    static bool mapped[ROOM];
    memset(mapped, 0, sizeof mapped);
    for (size_t i = 0; i < records(l); i++)
        for (size_t k = 0; k < record(l, i)[2]; k++)
            if (place_of(record(l, i)) + k < ROOM) mapped[place_of(record(l, i)) + k] = true;
    for (size_t i = 0; i < l->store_length; i++)
        if (!mapped[i]) store[i] = (uint8_t)(store[i] + 1);
}

/* The byte at 0x00 of some bank, below what every bank takes. False where this map has none. */
static bool spoil_head(Lent *l, uint8_t *store) {
    for (size_t i = 0; i < records(l); i++)
        if (is_head(record(l, i)) && place_of(record(l, i)) < l->store_length && !once_in(3))
            return store[place_of(record(l, i))] = (uint8_t)(once_in(2) ? 255 : below(3)), true;
    return false;
}

static uint32_t our_compare(const Lent *l, Kept *kept, const uint8_t *new_store, size_t new_length, uint8_t *out, size_t room) {
    const mf_unit unit = unit_of(l, kept);
    if (once_in(2)) return mf_unit_compare(&unit, new_length > 0 ? new_store : NULL, new_length, room > 0 ? out : NULL, room);
    return mf_compare(l->map, l->map_length, kept->store, l->store_length, new_store, new_length, out, room);
}

/* By the list, and by the stores for what it does not say. */
static void see_compare(Lent *l, const uint8_t *old, const uint8_t *new, uint32_t answer, const uint8_t *list, size_t room) {
    uint32_t count = mf_differing(answer);
    bool lock = false, read_only = false;
    if (mf_number(answer) != MF_OK) return;
    for (const uint8_t *d = list; d < list + count * MF_DIFFERENCE_BYTES; d += MF_DIFFERENCE_BYTES)
        lock |= d[0] > 0 && d[1] == 2, read_only |= d[3] != 2 && d[3] != 4;
    see(ALIKE, count == 0), see(ALL_64, count == 64), see(ONE_BUFFER, old == new);
    see(ROOM_EXACT, count > 0 && room == count * MF_DIFFERENCE_BYTES), see(PAST_STAYS, room > count * MF_DIFFERENCE_BYTES);
    see(UNDER_NO_RECORD, count == 0 && memcmp(old, new, l->store_length) != 0);
    see(LOCK_LISTED, lock), see(READ_ONLY_LISTED, read_only), see(NO_OUTPUT, room == 0);
}

/* Of these two stores, in a room about as long as the list. It answers the number. */
static uint32_t compare_stores(Lent *l, Kept *kept, const uint8_t *new_store, size_t new_length) {
    static uint8_t mine[LIST_ROOM], other[LIST_ROOM], untouched[LIST_ROOM];
    memset(mine, PAINT, sizeof mine), memset(other, PAINT, sizeof other), memset(untouched, PAINT, sizeof untouched);
    uint32_t whole = second_compare(l->map, l->map_length, kept->store, l->store_length, new_store, new_length, other, LIST);
    size_t list = (whole >> 8) * MF_DIFFERENCE_BYTES, room = list;
    if (once_in(4)) room = list > 0 ? list - 1 : 0;
    else if (once_in(3)) room = list + below(40);
    else if (once_in(6)) room = below(LIST);
    memset(other, PAINT, sizeof other);
    uint32_t theirs = second_compare(l->map, l->map_length, kept->store, l->store_length, new_store, new_length, other, room);
    uint32_t ours = our_compare(l, kept, new_store, new_length, mine, room);
    same(COMPARE, ours, theirs, ours);
    expect_call(COMPARE, "another output", memcmp(mine, other, sizeof mine) == 0);
    if (mf_number(ours) != MF_OK) {
        expect_call(COMPARE, "refused, and counted", ours < 256);
        expect_call(COMPARE, "refused, and the output changed", memcmp(mine, untouched, sizeof mine) == 0);
    }
    see(ROOM_SHORT, ours == MF_BAD_ROOM && room + 1 == list);
    see_compare(l, kept->store, new_store, ours, mine, room);
    return mf_number(ours);
}

/* Two stores: one buffer, or the unit's and another: the same bytes, others under no record, some others or all; now and then a
 * byte at 0x00 is damaged in one of them, or the second is a byte longer or shorter. */
static void compare_call(Lent *l, const Kept *kept) {
    static uint8_t new_store[ROOM];
    Kept old = *kept;
    size_t length = l->store_length;
    if (once_in(12)) {
        compare_stores(l, &old, old.store, length);
        return;
    }
    memcpy(new_store, old.store, sizeof new_store);
    if (once_in(8)) change_unmapped(l, new_store);
    else if (!once_in(6)) change(l, new_store, once_in(3));
    bool new_spoiled = once_in(10) && spoil_head(l, new_store);
    bool old_spoiled = !new_spoiled && once_in(10) && spoil_head(l, old.store);
    if (once_in(30)) length = length > 0 && once_in(2) ? length - 1 : length + 1;
    uint32_t number = compare_stores(l, &old, new_store, length);
    see(NEW_HEAD_REFUSED, new_spoiled && number == MF_BAD_BANK);
    see(OLD_HEAD_REFUSED, old_spoiled && number == MF_BAD_BANK);
}

/* ---- a session ---- */

static uint32_t legal_address(void) { return once_in(6) ? (uint32_t)MF_NO_ADDRESS : below(64); }
static uint32_t any_address(void) {
    if (once_in(8)) return legal_address() | any() << 8; /* legal if it were cut */
    return once_in(4) ? byte() : legal_address();
}

enum { FRAMES = MF_SESSION_FRAMES };

/* What is asked for. */
typedef struct Asked {
    uint32_t address, bank, location;
    uint8_t bytes[12];
    size_t length;
} Asked;

static uint32_t our_session(const Lent *l, Kept *kept, const Asked *a, uint32_t frames[FRAMES]) {
    const mf_unit unit = unit_of(l, kept);
    if (once_in(2)) return mf_unit_session(&unit, a->address, a->bank, a->location, a->length > 0 ? a->bytes : NULL, a->length, frames);
    return mf_session(l->map, l->map_length, a->address, a->bank, a->location, a->bytes, a->length, frames);
}

static uint32_t enable_to(uint32_t address) { return (address << 17 | 0x10000) + 0xFE15; }

/* The record of the map that lies at a bank and location; NULL where none does. */
static const uint8_t *record_of(Lent *l, uint32_t bank, uint32_t location) {
    for (size_t i = 0; i < records(l); i++)
        if (record(l, i)[0] == bank && record(l, i)[1] == location) return record(l, i);
    return NULL;
}

static void see_run(const Kept *from, const Asked *a, uint32_t clock, uint32_t count, const uint8_t *r, const uint8_t *lock) {
    const uint8_t *s = from->state;
    uint32_t waits = (uint32_t)s[9] << 24 | (uint32_t)s[10] << 16 | (uint32_t)s[11] << 8 | s[12];
    uint32_t since = clock - ((uint32_t)s[13] << 24 | (uint32_t)s[14] << 16 | (uint32_t)s[15] << 8 | s[16]);
    see(RAN, true), see(RAN_WRAPPED, r[4] == 1), see(RAN_OVER, clock + (count - 1) < clock);
    see(RAN_WAITING, s[8] == 1 && waits == enable_to(a->address) && since <= 100);
    see(RAN_OPEN, s[17] == 1), see(RAN_STAGED, s[18] > 0), see(RAN_LATCHED, s[29] == 1);
    see(RAN_UNLOCKED, r[4] == 1 && from->store[place_of(lock)] == 0x55);
}

/* Our frames through the second program's unit, 1 ms apart: each is accepted, each write is answered by its byte, and the store is
 * the old one with the value's bytes and, for a lockable value, the lock byte 0xFF. */
static void run_session(Lent *l, Kept from, const Asked *a, const uint32_t *frames, uint32_t count, uint32_t clock) {
    const uint8_t *r = record_of(l, a->bank, a->location), *lock = record_of(l, a->bank, 2);
    uint32_t enable = enable_to(a->address);
    if (once_in(3)) /* a first half of the session's own pair waits */
        second_frame_bytes(l->map, l->map_length, from.store, l->store_length, l->image, l->image_length, from.state, enable,
                           clock - below(100));
    Kept after = from, expected = from;
    bool accepted = true, answered = true;
    memcpy(expected.store + place_of(r), a->bytes, a->length);
    if (r[4] == 1) expected.store[place_of(lock)] = 0xFF;
    for (uint32_t i = 0; i < count; i++) {
        uint32_t answer = second_frame_bytes(l->map, l->map_length, after.store, l->store_length, l->image, l->image_length,
                                             after.state, frames[i], clock + i);
        accepted &= mf_number(answer) == MF_OK;
        answered &= i < 3 ? answer == 0 : mf_answered(answer) && mf_answer(answer) == (frames[i] & 0xFF);
    }
    expect_call(SESSION, "run, and a step refused", accepted);
    expect_call(SESSION, "run, and a write not answered by its byte, or another frame answered", answered);
    expect_call(SESSION, "run, and another store", memcmp(after.store, expected.store, sizeof after.store) == 0);
    see_run(&from, a, clock, count, r, lock);
    see(RAN_SAME, memcmp(after.store, from.store, sizeof after.store) == 0);
}

/* Mostly a writable value and as many bytes as it has, by the unit's own address; now and then another place, too large a number,
 * another count. */
static Asked any_session(Lent *l, const Kept *kept) {
    Asked a = {kept->state[0], below(20), below(16), {0}, below(10)};
    const uint8_t *r = records(l) > 0 && !once_in(12) ? record(l, below((uint32_t)records(l))) : NULL;
    for (uint32_t tries = 0; r && !is_writable(r) && tries < 8; tries++) r = record(l, below((uint32_t)records(l)));
    if (r) a.bank = r[0], a.location = r[1], a.length = r[2] < sizeof a.bytes ? r[2] : sizeof a.bytes;
    for (size_t i = 0; i < sizeof a.bytes; i++) a.bytes[i] = byte();
    if (r && once_in(6) && place_of(r) + a.length <= ROOM) memcpy(a.bytes, kept->store + place_of(r), a.length);
    if (once_in(10)) a.length = below(sizeof a.bytes + 1);
    if (once_in(10)) a.address = once_in(2) ? 64 : any_address();
    if (once_in(20)) a.location = once_in(2) ? a.location + 1 : byte();
    if (once_in(30)) a.bank |= too_large();
    if (once_in(30)) a.location |= too_large();
    return a;
}

/* It answers the number. The frames are run where `runs` says so and the unit has the address. */
static uint32_t session_call(Lent *l, const Kept *kept, uint32_t clock, bool runs) {
    static const uint32_t zeros[FRAMES];
    uint32_t mine[FRAMES], other[FRAMES];
    Kept copy = *kept;
    Asked a = any_session(l, kept);
    const uint8_t *r = record_of(l, a.bank & 0xFF, a.location & 0xFF);
    memset(mine, 0xA5, sizeof mine), memset(other, 0x5A, sizeof other);
    uint32_t ours = our_session(l, &copy, &a, mine);
    same(SESSION, ours, second_session(l->map, l->map_length, a.address, a.bank, a.location, a.bytes, a.length, other), ours);
    expect_call(SESSION, "other frames", memcmp(mine, other, sizeof mine) == 0);
    see(SESSION_NOT_CUT, r && is_writable(r) && (a.bank > 255 || a.location > 255) && ours == MF_BAD_LOCATION);
    see(SESSION_ADDRESS_NOT_CUT, a.address > 255 && ours == MF_BAD_FIELD);
    if (mf_number(ours) != MF_OK) {
        expect_call(SESSION, "refused, and counted or with a frame", ours < 256 && memcmp(mine, zeros, sizeof mine) == 0);
        return mf_number(ours);
    }
    uint32_t count = mf_frames(ours);
    expect_call(SESSION, "another count than the value's", count == 3 + a.length + 2u * r[4]);
    see(OF_13_FRAMES, count == FRAMES), see(OF_THE_LOCK_BYTE, a.location == 2 && count == 4);
    if (once_in(8)) clock = 0xFFFFFFFF - below(14); /* it runs over, mostly inside */
    if (runs && a.address == kept->state[0]) run_session(l, *kept, &a, mine, count, clock);
    return MF_OK;
}

/* ---- a run of records, against the second program's calls one after the other ---- */

enum { RECORDS = 8, OUTPUT = 4 * RECORDS + 4 };

static uint32_t later(uint32_t clock) {
    if (once_in(60)) return any();
    if (once_in(60)) return 0xFFFFFFFF - below(100); /* it soon runs over */
    return clock + (once_in(12) ? 99 + below(3) : below(60));
}

static size_t our_run(const Lent *l, Kept *kept, const uint8_t *bytes, size_t length, uint8_t *out, size_t room) {
    const mf_unit unit = unit_of(l, kept);
    if (once_in(2)) return mf_unit_run(&unit, length > 0 ? bytes : NULL, length, room > 0 ? out : NULL, room);
    return mf_run(l->map, l->map_length, kept->store, l->store_length, l->image, l->image_length, kept->state, bytes,
                  length, out, room);
}

static uint32_t make_records(Plan *plan, Lent *lent, const Kept *kept, uint32_t clock, uint8_t *to) {
    for (size_t i = 0; i < RECORDS; i++, to += 8) {
        uint32_t frame = next_frame(plan, lent, kept);
        clock = later(clock);
        uint8_t fields[8] = {(uint8_t)(clock >> 24), (uint8_t)(clock >> 16), (uint8_t)(clock >> 8), (uint8_t)clock,
                             once_in(20), (uint8_t)(frame >> 16), (uint8_t)(frame >> 8), (uint8_t)frame};
        if (once_in(60)) fields[4] = byte();
        memcpy(to, fields, 8);
    }
    return clock;
}

/* One record; false where it is of unknown kind. */
static bool one_record(const Lent *l, Kept *other, const uint8_t *r, uint8_t *output) {
    uint32_t clock = (uint32_t)r[0] << 24 | (uint32_t)r[1] << 16 | (uint32_t)r[2] << 8 | r[3];
    uint32_t frame = (uint32_t)r[5] << 16 | (uint32_t)r[6] << 8 | r[7], answer = MF_BAD_TRACE_RECORD;
    if (r[4] == MF_RECORD_FRAME)
        answer = second_frame_bytes(l->map, l->map_length, other->store, l->store_length, l->image, l->image_length,
                                    other->state, frame, clock);
    if (r[4] == MF_RECORD_POWER_ON)
        answer = second_power_on_bytes(l->map, l->map_length, other->store, l->store_length, l->image,
                                       l->image_length, other->state);
    output[0] = (uint8_t)answer, output[1] = (uint8_t)(answer >> 8), output[2] = (uint8_t)(answer >> 16);
    output[3] = 0;
    numbers[RUN][output[0]]++;
    return r[4] < 2;
}

static void run_call(const Lent *l, Kept *kept, const uint8_t *bytes) {
    size_t length = once_in(3) ? below(8 * RECORDS + 1) : 8 * RECORDS, room = once_in(3) ? below(OUTPUT + 1) : OUTPUT;
    size_t most = length / 8 < room / 4 ? length / 8 : room / 4, count = 0;
    uint8_t mine_out[OUTPUT + 4], other_out[OUTPUT + 4];
    bool on = true, refusals = true;
    Kept mine = *kept, other = *kept;
    memset(mine_out, 0xA5, sizeof mine_out), memset(other_out, 0xA5, sizeof other_out);
    size_t ours = our_run(l, &mine, bytes, length, mine_out, room);
    for (; on && count < most; count++) {
        on = one_record(l, &other, bytes + 8 * count, other_out + 4 * count);
        refusals &= other_out[4 * count] != 0;
    }
    inputs[RUN]++;
    expect_call(RUN, "another count", ours == count);
    expect_call(RUN, "another output", memcmp(mine_out, other_out, sizeof mine_out) == 0);
    expect_call(RUN, "another state or store", unchanged(&mine, &other));
    if (refusals && count > 0) refused(RUN, kept, &mine);
    see(RUN_WHOLE, on && count == RECORDS), see(RUN_OF_NONE, most == 0), see(RUN_ENDED, !on);
    see(RUN_BY_ROOM, on && count > 0 && count < length / 8);
    *kept = mine;
}

/* ---- units ---- */

/* The calls on a damaged copy, and whether the damage gave its number. */
static void try_damaged(const Lent *lent, const Kept *kept, uint32_t clock, const uint8_t *bytes) {
    enum Damage which = (enum Damage)below(DAMAGES);
    Lent other = *lent;
    Kept copy = *kept, again;
    bool done = damage(which, &other, &copy);
    again = copy;
    frame_call(&other, &again, any_frame(kept), clock);
    again = copy;
    uint32_t number = power_on_call(&other, &again);
    again = copy;
    run_call(&other, &again, bytes);
    again = copy;
    start_call(&other, &again, any_address());
    uint32_t checked = check_call(&other, &copy);
    look_call(&other, &copy);
    uint32_t found = find_call(&other, &copy);
    if (once_in(4)) compare_call(&other, &copy);
    uint32_t written = session_call(&other, &copy, clock, false);
    see(SESSION_BY_MAP_ALONE, (checked == MF_BAD_PLACES || checked == MF_BAD_BANK) && written == MF_OK);
    see(FOUND_BY_MAP_ALONE, (checked == MF_BAD_PLACES || checked == MF_BAD_BANK) && found == MF_OK);
    if (!done) return;
    damaged[which]++;
    if (damages[which].number == ANY_NUMBER) return;
    expect(damages[which].name, "not its number", damaged[which], number == damages[which].number);
    expect(damages[which].name, "mf_check gave another", damaged[which], checked == (number == 12 ? 0 : number));
}

/* A unit that keeps all rules, through so many frames. Its start must be accepted. */
static void one_unit(uint32_t steps) {
    static Lent lent, lent_before;
    static Kept kept;
    uint8_t bytes[8 * RECORDS];
    Plan plan = {{0}, 0, 0}, aside = plan;
    uint32_t clock = once_in(3) ? 0xFFFFFF00 : any();
    make_lent(&lent, &kept);
    lent_before = lent;
    see_unit(&lent);
    expect_call(CHECK, "a map, store and image that keep the rules", check_call(&lent, &kept) == 0);
    expect_call(START, "a start that keeps the rules", start_call(&lent, &kept, legal_address()) == 0);
    for (uint32_t i = 0; i < steps; i++) {
        uint32_t frame = next_frame(&plan, &lent, &kept);
        clock = later(clock);
        frame_call(&lent, &kept, frame, clock);
        if (once_in(50)) power_on_call(&lent, &kept);
        look_call(&lent, &kept);
        find_call(&lent, &kept);
        compare_call(&lent, &kept);
        session_call(&lent, &kept, clock, once_in(3));
        if (once_in(25)) clock = make_records(&plan, &lent, &kept, clock, bytes), run_call(&lent, &kept, bytes);
        make_records(&aside, &lent, &kept, clock, bytes);
        try_damaged(&lent, &kept, clock, bytes);
    }
    expect_call(STEP, "map or image changed", memcmp(&lent, &lent_before, sizeof lent) == 0);
}

/* ---- every place of a map ---- */

/* The smallest k with n < 2^k. */
static uint32_t bound(size_t n) { return n == 0 ? 0 : 1 + bound(n / 2); }

/* Every bank and location that a byte holds. The map keeps 7 to 9. No place takes more records than the bound, and one as many. */
static void every_place(const char *whose, const Lent *l) {
    uint32_t most = 0;
    expect(whose, "refused by mf_find", 0, mf_number(mf_find(l->map, l->map_length, 0, 0)) == MF_OK);
    for (uint32_t place = 0; place < 65536; place++) {
        uint64_t ours = mf_find(l->map, l->map_length, place >> 8, place & 255);
        uint64_t theirs = second_find(l->map, l->map_length, place >> 8, place & 255);
        expect(whose, "mf_find has another answer at 256 x bank + location", place, ours == theirs);
        if (mf_count(ours) > most) most = mf_count(ours);
        see(EVERY_PLACE, true);
    }
    expect(whose, "the highest count is not the bound", most, most == bound(records(l)));
}

/* 64 records, so many to a bank, before each a hole; each bank has them a location further on than the one below it. */
static void make_64(Lent *l, uint32_t to_a_bank) {
    l->map_length = 512;
    for (uint32_t i = 0; i < 64; i++) {
        uint32_t bank = 1 + 3 * (i / to_a_bank), first = 2 + 3 * (i % to_a_bank) + i / to_a_bank;
        uint8_t fields[8] = {(uint8_t)bank, (uint8_t)first, (uint8_t)(1 + i % 2), 0, 0, 0, 0, 0};
        memcpy(record(l, i), fields, 8);
    }
}

/* Of the random maps every second one lacks a bank's record at 0x00, where a bank has more than that. */
static void every_place_of_some(void) {
    static const uint8_t sheet[24] = {2, 0, 1, 0, 0, 0, 0, 0, 2, 2, 1, 2, 0, 0, 0, 1, 2, 3, 4, 4, 1, 0, 0, 2};
    static Lent lent;
    static Kept kept;
    every_place("an empty map", &lent);
    memcpy(lent.map, sheet, sizeof sheet), lent.map_length = sizeof sheet;
    every_place("the bench sheet's map", &lent);
    make_64(&lent, 64), every_place("64 records of one bank", &lent);
    make_64(&lent, 8), every_place("64 records of 8 banks", &lent);
    make_64(&lent, 1), every_place("64 records of 64 banks", &lent);
    for (uint32_t i = 0; i < 6; i++) {
        make_lent(&lent, &kept);
        if (i % 2 == 1) damage(NO_HEAD, &lent, &kept);
        every_place("a random map", &lent);
    }
}

/* ---- frames without a unit ---- */

/* The word that the header's names for its parts make. */
static uint64_t word_of_parts(uint64_t word) {
    uint64_t of[7] = {mf_kind(word), 0, 0, 0, 0, 0, 0}, made = 0;
    switch (mf_kind(word)) {
    case MF_COMMAND:
        of[1] = mf_address_kind(word), of[2] = mf_address_number(word);
        of[3] = mf_target_kind(word), of[4] = mf_target_number(word), of[5] = mf_opcode(word);
        break;
    case MF_SPECIAL:
        of[1] = mf_special_number(word), of[2] = mf_special_first(word), of[3] = mf_special_second(word);
        break;
    case MF_POWER_CYCLE:
        of[1] = mf_power_has_group(word), of[2] = mf_power_group(word);
        of[3] = mf_power_has_short(word), of[4] = mf_power_short(word);
        break;
    default:
        of[1] = mf_event_first(word), of[2] = mf_event_second(word);
        of[3] = mf_information(word) >> 8, of[4] = mf_information(word) & 0xFF;
    }
    for (size_t i = 0; i < 7; i++) made = made << 8 | of[i];
    return made;
}

static void read_and_write(void) {
    static const Kept nobody;
    uint32_t frame = once_in(3) ? any() >> 8 : any_frame(&nobody);
    if (once_in(50)) frame |= any() << 24;
    uint64_t word = mf_read(frame);
    same(READ, word, second_read(frame), mf_number(word));
    if (mf_number(word) == MF_OK) {
        uint32_t back = mf_write(word);
        expect_call(WRITE, "what reads does not write back", mf_number(back) == MF_OK && mf_frame_of(back) == frame);
        expect_call(READ, "its parts are not the word", word_of_parts(word) == word);
    }
    if (once_in(3)) word ^= (uint64_t)1 << below(64);
    if (once_in(20)) word = (uint64_t)any() << 32 | any();
    uint32_t ours = mf_write(word);
    same(WRITE, ours, second_write(word), mf_number(ours));
}

/* Mostly in range, sometimes at its limit or far out. */
static uint32_t field(uint32_t limit) { return once_in(25) ? limit : once_in(60) ? any() : below(limit); }
static uint32_t or_missing(uint32_t limit) { return once_in(5) ? 255 : field(limit); }

static void compose(void) {
    uint32_t sort = field(32), number = field(32), primary = or_missing(32), address = or_missing(64);
    uint32_t groups = once_in(3) ? 0 : any() << below(32), information = field(1024), scheme = or_missing(5);
    uint32_t ours = mf_compose_event(sort, number, primary, address, groups, information, scheme);
    same(EVENT_COMPOSER, ours, second_compose_event(sort, number, primary, address, groups, information, scheme),
         mf_number(ours));
    bool shipped = scheme == MF_AS_SHIPPED && mf_number(ours) == MF_OK;
    see(SHIPPED_WITH_ADDRESS, shipped && address != MF_NO_ADDRESS);
    see(SHIPPED_WITHOUT_ADDRESS, shipped && address == MF_NO_ADDRESS);
    ours = mf_compose_power(address, groups);
    same(POWER_COMPOSER, ours, second_compose_power(address, groups), mf_number(ours));
}

/* ---- a census of trace records ---- */

enum { CAPTURE = 40 };

static uint64_t counted[MF_COUNTS];

/* A frame of any class: power events too, good and malformed. */
static uint32_t wire_frame(void) {
    static const Kept nobody;
    if (once_in(8)) return 0xFEE000 | below(8192);
    return once_in(3) ? any() >> 8 : any_frame(&nobody) & 0xFFFFFF;
}

/* Records, mostly of known kind; the last one may be unfinished. */
static size_t make_capture(uint8_t bytes[8 * CAPTURE]) {
    size_t count = once_in(20) ? 0 : 1 + below(CAPTURE);
    for (size_t i = 0; i < count; i++) {
        uint32_t clock = any(), frame = wire_frame();
        uint8_t fields[8] = {(uint8_t)(clock >> 24), (uint8_t)(clock >> 16), (uint8_t)(clock >> 8), (uint8_t)clock,
                             once_in(10), (uint8_t)(frame >> 16), (uint8_t)(frame >> 8), (uint8_t)frame};
        if (once_in(100)) fields[4] = byte();
        memcpy(bytes + 8 * i, fields, 8);
    }
    return 8 * count - (count > 0 && once_in(4) ? 1 + below(7) : 0);
}

/* How many were added, in all and of frames: the records before the end. The count behind the last stays. */
static void see_counts(const uint8_t *bytes, size_t length, const uint64_t *before, const uint64_t *after, uint32_t number) {
    uint64_t frames = 0, added = 0, end = 0, known = 0;
    for (size_t k = 0; k < MF_COUNTS; k++) {
        added += after[k] - before[k], frames += k < MF_CLASSES ? after[k] - before[k] : 0;
        counted[k] += after[k] - before[k];
        see(COUNT_RAN_OVER, after[k] < before[k]);
    }
    while (8 * end + 8 <= length && bytes[8 * end + 4] < 2) known += bytes[8 * end++ + 4] == MF_RECORD_FRAME;
    expect_call(CENSUS, "the counts are not the records before the end", added == end && frames == known);
    expect_call(CENSUS, "not 13 exactly if a record is left", (number == MF_BAD_TRACE_RECORD) == (8 * end < length));
    expect_call(CENSUS, "what stands behind the counts changed", after[MF_COUNTS] == before[MF_COUNTS]);
    see(COUNTED_NONE, length == 0), see(COUNTED_ALL, length > 0 && number == MF_OK);
    see(TAIL_ENDED, number != MF_OK && length - 8 * end < 8), see(UNKNOWN_ENDED, number != MF_OK && length - 8 * end > 8);
}

/* Once in one piece, by both, and once in two slices of whole records. */
static void census_call(void) {
    uint8_t bytes[8 * CAPTURE];
    uint64_t before[MF_COUNTS + 1], mine[MF_COUNTS + 1], other[MF_COUNTS + 1], sliced[MF_COUNTS + 1];
    size_t length = make_capture(bytes), cut = 8 * below((uint32_t)(length / 8) + 1);
    for (size_t k = 0; k <= MF_COUNTS; k++) before[k] = once_in(4) ? UINT64_MAX - below(3) : (uint64_t)any() << 32 | any();
    memcpy(mine, before, sizeof mine), memcpy(other, before, sizeof other), memcpy(sliced, before, sizeof sliced);
    uint32_t ours = mf_census(bytes, length, mine);
    same(CENSUS, ours, second_census(bytes, length, other), ours);
    expect_call(CENSUS, "other counts", memcmp(mine, other, sizeof mine) == 0);
    see_counts(bytes, length, before, mine, ours);
    uint32_t number = mf_census(bytes, cut, sliced);
    see(CUT_BETWEEN, number == MF_OK && cut > 0 && cut < length), see(CUT_BEHIND_13, number != MF_OK && cut < length);
    if (number == MF_OK) number = mf_census(bytes + cut, length - cut, sliced);
    expect_call(CENSUS, "in two slices another census", number == ours && memcmp(mine, sliced, sizeof mine) == 0);
}

/* ---- what came ---- */

static void show_call(enum Call call, uint64_t least) {
    printf("%-17s%8" PRIu64 " inputs; by number", calls[call].name, inputs[call]);
    for (uint32_t n = 0; n < 256; n++) {
        bool wanted = n < 32 && calls[call].expected >> n & 1;
        if (wanted || numbers[call][n] > 0) printf(" %" PRIu32 ": %" PRIu64 ";", n, numbers[call][n]);
        expect(calls[call].name, wanted ? "this number never came" : "this number may not come", n,
               wanted == (numbers[call][n] > 0));
    }
    printf("\n");
    if (calls[call].changes)
        printf("%-17s%8" PRIu64 " refused, state and store as before\n", "", unchanged_refused[call]);
    expect(calls[call].name, "too few inputs", inputs[call], inputs[call] >= least);
    expect(calls[call].name, "no refusal left all as it was", 0, !calls[call].changes || unchanged_refused[call] > 0);
}

static void show_damage(enum Damage which) {
    if (damages[which].number == ANY_NUMBER) printf("any");
    else printf("%3" PRIu32, damages[which].number);
    printf(" %8" PRIu64 " x %s\n", damaged[which], damages[which].name);
    expect(damages[which].name, "never tried", 0, damaged[which] > 0);
}

static void show_counted(size_t k) {
    printf("%12" PRIu64 " records counted: %s\n", counted[k], count_names[k]);
    expect(count_names[k], "never counted", 0, counted[k] > 0);
}

static void show_seen(enum Seen what) {
    printf("%12" PRIu64 " %s\n", seen[what], seen_names[what]);
    expect(seen_names[what], "never seen", 0, seen[what] > 0);
}

int main(int argc, char **argv) {
    uint64_t seed = argc > 1 ? strtoull(argv[1], NULL, 0) : 1, least = argc > 2 ? strtoull(argv[2], NULL, 0) : 200000;
    enum { STEPS = 200 };
    begin(seed);
    printf("seed %" PRIu64 "\n", seed);
    for (uint64_t i = 0; i < least; i += STEPS) one_unit(STEPS);
    every_place_of_some();
    for (uint64_t i = 0; i < least; i++) read_and_write(), compose(), census_call();
    for (enum Call call = CHECK; call < CALLS; call++) show_call(call, least);
    printf("number and times a damage was tried and gave it\n");
    for (enum Damage which = 0; which < DAMAGES; which++) show_damage(which);
    for (enum Seen what = 0; what < SEEN; what++) show_seen(what);
    for (size_t k = 0; k < MF_COUNTS; k++) show_counted(k);
    printf("%" PRIu64 " passed, %" PRIu64 " failed\n", passed, failed);
    return failed > 0;
}
