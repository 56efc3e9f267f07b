/* Maps, stores and images that keep the rules, and lists of frames that mean something. */
#include "inputs.h"

#include <string.h>

/* ---- random numbers (splitmix64) ---- */

static uint64_t place;

void begin(uint64_t seed) { place = seed; }

uint32_t any(void) {
    uint64_t z = place += 0x9E3779B97F4A7C15u;
    z = (z ^ z >> 30) * 0xBF58476D1CE4E5B9u;
    z = (z ^ z >> 27) * 0x94D049BB133111EBu;
    return (uint32_t)((z ^ z >> 31) >> 16);
}

uint32_t below(uint32_t n) { return any() % n; }
bool once_in(uint32_t n) { return below(n) == 0; }
uint8_t byte(void) { return (uint8_t)any(); }

/* A byte at the limit of something. */
static uint8_t edge(void) {
    static const uint8_t edges[] = {0, 1, 2, 3, 5, 8, 9, 63, 64, 199, 200, 254, 255};
    return edges[below(sizeof edges)];
}

/* ---- map, store and image ---- */

enum { MOST_RECORDS = 64, MOST_STORE = 4096 };

static const uint32_t read_only[] = {0, 1, 3};

static void add_record(Lent *lent, uint32_t bank, uint32_t first, uint32_t width, uint32_t kind) {
    bool lockable = (kind == 2 || kind == 4) && first > 2 && !once_in(3);
    uint8_t fields[8] = {(uint8_t)bank, (uint8_t)first, (uint8_t)width, (uint8_t)kind, lockable, 0,
                         (uint8_t)(lent->store_length >> 8), (uint8_t)lent->store_length};
    memcpy(record(lent, records(lent)), fields, 8);
    lent->map_length += 8;
    lent->store_length += width + (once_in(5) ? below(4) : 0);
}

/* Values from a location on, as long as bank and map have room; now and then one that ends at 0xFE. It answers the
 * last location in use. */
static uint32_t add_values(Lent *lent, uint32_t bank, uint32_t next, uint32_t values) {
    uint32_t last = next - 1;
    for (uint32_t i = 0; i < values && records(lent) < MOST_RECORDS; i++) {
        uint32_t width = once_in(3) ? 1 : 2 + below(7), kind = bank == 0 ? read_only[below(3)] : below(5);
        next += once_in(4) ? below(once_in(9) ? 200 : 5) : 0;
        if (i + 1 == values && once_in(6) && next + width < 255) next = 255 - width;
        if (next + width > 255) break;
        add_record(lent, bank, next, width, kind);
        next += width, last = next - 1;
    }
    return last;
}

/* A bank needs room for up to three records. */
static void add_bank(Lent *lent, Kept *kept, uint32_t bank, uint32_t values) {
    size_t head = lent->store_length;
    uint32_t last;
    add_record(lent, bank, 0, 1, 0);
    if (once_in(4)) add_record(lent, bank, 1, 1, read_only[below(3)]);
    if (bank > 0) add_record(lent, bank, 2, 1, 2);
    last = add_values(lent, bank, bank > 0 || once_in(2) ? 3 : 2, values);
    if (last < 3) last = 3;
    kept->store[head] = (uint8_t)(last + (once_in(2) ? below(255 - last) : 0));
}

/* The places of the store in the other direction. */
static void turn_places(Lent *lent, Kept *kept) {
    uint8_t old[ROOM];
    memcpy(old, kept->store, sizeof old);
    for (size_t i = 0; i < records(lent); i++) {
        uint8_t *r = record(lent, i);
        size_t at = place_of(r), to = lent->store_length - at - r[2];
        memcpy(kept->store + to, old + at, r[2]);
        r[6] = (uint8_t)(to >> 8), r[7] = (uint8_t)to;
    }
}

void make_lent(Lent *lent, Kept *kept) {
    bool full = once_in(8);
    uint32_t bank = once_in(3) ? 0 : 1 + below(8), banks = full ? 4 : once_in(10) ? 0 : 1 + below(4);
    memset(lent, 0, sizeof *lent);
    for (size_t i = 0; i < ROOM; i++) kept->store[i] = byte(), lent->image[i] = byte();
    for (uint32_t i = 0; i < banks && bank < 200 && records(lent) + 3 <= MOST_RECORDS; i++) {
        add_bank(lent, kept, bank, full ? MOST_RECORDS : 1 + below(6));
        bank = bank < 199 && once_in(9) ? 199 : bank + 1 + below(9);
    }
    if (once_in(8)) lent->store_length = MOST_STORE;
    if (once_in(2)) turn_places(lent, kept);
    lent->image_length = lent->store_length;
}

/* ---- frames ---- */

static const uint8_t opcodes[] = {0x11, 0x14, 0x15, 0x19, 0x1A, 0x1B, 0x1C, 0x33, 0x36,
                                  0x37, 0x38, 0x3C, 0x41, 0x42, 0x43, 0x44};

/* An address byte that often reaches the unit. */
static uint32_t address_byte(const Kept *kept) {
    uint32_t address = kept->state[0];
    if (address < 64 && !once_in(3)) return address * 2 + 1;
    if (once_in(4)) return 0x81 + below(32) * 2;
    if (once_in(4)) return 0xFD;
    return once_in(6) ? byte() : 0xFF;
}

static uint32_t command(const Kept *kept, uint32_t opcode) { return address_byte(kept) << 16 | 0xFE00 | opcode; }
static uint32_t special(uint32_t address, uint32_t first, uint32_t second) {
    return address << 16 | first << 8 | second;
}

uint32_t any_frame(const Kept *kept) {
    switch (below(8)) {
    case 0: return any() >> 8;
    case 1: return any() >> 8 & 0xFEFFFF;
    case 2: return once_in(4) ? any() : once_in(9) ? 0xFFFFFF + below(2) : 0xFEE000 | below(0x2000);
    case 3: return address_byte(kept) << 16 | (once_in(2) ? 0xFE : byte()) << 8 | byte();
    case 4: return special(0xC1 + 2 * below(6), once_in(2) ? 0x20 + below(2) : byte(), byte());
    case 5: return special(0xC1, 0x30 + below(3), once_in(3) ? 0xFF : byte());
    default: return command(kept, opcodes[below(sizeof opcodes)]);
    }
}

/* A plan has room for the longest list that is made below, 59 frames. */
static void then(Plan *plan, uint32_t frame) {
    if (plan->length < sizeof plan->frames / sizeof *plan->frames) plan->frames[plan->length++] = frame;
}

static void then_twice(Plan *plan, uint32_t frame) { then(plan, frame), then(plan, frame); }

/* Writes from a location on, by offset or by DTR0, with a reply or without. */
static void then_bytes(Plan *plan, uint32_t location, uint32_t count, uint32_t form) {
    for (uint32_t i = 0; i < count; i++)
        then(plan, form == 0 ? special(0xC5, location + i, byte()) : special(0xC1, form == 1 ? 0x21 : 0x20, byte()));
}

/* The value's bytes, first to last; now and then from the first again, or astray in another bank. */
static void then_write(Plan *plan, const uint8_t *r, uint32_t other_bank) {
    uint32_t form = below(4), first = r[1], width = r[2], straight = once_in(5) ? below(width) : width;
    then(plan, special(0xC1, 0x30, first));
    if (once_in(6)) then_bytes(plan, first, below(width), form), then(plan, special(0xC1, 0x30, first));
    then_bytes(plan, first, straight, form);
    if (straight == width) return;
    then(plan, special(0xC1, 0x31, other_bank));
    then_bytes(plan, first + straight, 1, form);
    if (once_in(2)) then(plan, special(0xC1, 0x31, r[0]));
    then_bytes(plan, first + straight, width - straight, form);
}

static void then_read(Plan *plan, const Kept *kept, uint32_t location, uint32_t count) {
    then(plan, special(0xC1, 0x30, location));
    for (uint32_t i = 0; i < count; i++) then(plan, command(kept, 0x3C));
}

/* Mostly a value of several bytes that can be written; one that is not there where the map is empty. */
static const uint8_t *value_of(Lent *lent) {
    static const uint8_t nowhere[8] = {3, 5, 4};
    uint32_t n = (uint32_t)records(lent);
    const uint8_t *r = n > 0 ? record(lent, below(n)) : nowhere;
    for (uint32_t i = 0; i < 4 && n > 0 && !(is_writable(r) && r[2] > 1); i++) r = record(lent, below(n));
    return r;
}

static void make_plan(Plan *plan, Lent *lent, const Kept *kept) {
    const uint8_t *r = value_of(lent), *other = value_of(lent);
    uint32_t from = once_in(3) ? below(r[2]) : 0;
    plan->length = plan->next = 0;
    if (once_in(6)) then(plan, special(0xC1, 0x30, edge())), then_twice(plan, command(kept, 0x14));
    if (once_in(6)) then(plan, special(0xC1, 0x30, once_in(2) ? 0 : r[0])), then_twice(plan, command(kept, 0x11));
    then(plan, special(0xC7, r[0], r[1]));
    if (once_in(3)) then(plan, special(0xC9, byte(), r[0]));
    if (once_in(3)) then_read(plan, kept, r[1], 1 + below(r[2]));
    if (!once_in(4)) {
        then_twice(plan, command(kept, 0x15));
        if (!once_in(4)) then(plan, special(0xC5, 2, once_in(9) ? byte() : 0x55));
        if (once_in(9)) then_twice(plan, command(kept, opcodes[below(7)]));
        then_write(plan, r, once_in(3) ? edge() : other[0]);
    }
    if (once_in(2)) then_read(plan, kept, r[1] + from, r[2] - from);
}

uint32_t next_frame(Plan *plan, Lent *lent, const Kept *kept) {
    if (plan->next == plan->length) make_plan(plan, lent, kept);
    if (once_in(40)) plan->next = plan->length;
    if (once_in(20) || plan->next == plan->length) return any_frame(kept);
    return plan->frames[plan->next++];
}
