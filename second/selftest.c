/* Checks the bench sheet, the readings and the rules over the library. */
#include <stdio.h>
#include <stdlib.h>
#include <string.h>

#include "capture.h"
#include "files.h"
#include "unit.h"

static unsigned passed;
static unsigned failed;

static void expect(bool holds, const char *what)
{
    if (holds) {
        passed++;
    } else {
        failed++;
        printf("failed: %s\n", what);
    }
}

/* The same, said of something that has a name. */
static void expect_of(bool holds, const char *said, const char *name)
{
    char what[80];
    (void)snprintf(what, sizeof what, "%s %s", said, name);
    expect(holds, what);
}

/* A unit with what it was lent. */
typedef struct Bench {
    uint8_t map[MAP_LIMIT];
    size_t map_len;
    uint8_t store[512];
    size_t store_len;
    uint8_t image[512];
    Unit unit;
    uint32_t clock;
} Bench;

/* The map, store and image of the bench sheet. */
static const uint8_t sheet_map[24] = {2, 0, 1, 0, 0, 0, 0, 0, 2, 2, 1, 2,
                                      0, 0, 0, 1, 2, 3, 4, 4, 1, 0, 0, 2};
static const uint8_t sheet_store[6] = {0x06, 0xFF, 0, 0, 0, 0x64};
static const uint8_t sheet_image[6] = {0x06, 0xFF, 0, 0, 0, 0x32};

/* A map with three banks: bank 0, one of many kinds, one up to 0xFE. */
static const uint8_t wide_map[] = {
    0, 0x00, 1, 0, 0, 0, 0, 0,  0, 0x02, 2, 3, 0, 0, 0, 1,
    2, 0x00, 1, 0, 0, 0, 0, 3,  2, 0x02, 1, 2, 0, 0, 0, 4,
    2, 0x03, 4, 4, 1, 0, 0, 5,  2, 0x07, 1, 4, 0, 0, 0, 9,
    2, 0x08, 2, 2, 0, 0, 0, 10, 2, 0x0B, 3, 4, 0, 0, 0, 12,
    2, 0x10, 2, 1, 0, 0, 0, 15, 9, 0x00, 1, 0, 0, 0, 0, 17,
    9, 0x02, 1, 2, 0, 0, 0, 18, 9, 0x03, 8, 4, 1, 0, 0, 19,
    9, 0xFD, 2, 4, 0, 0, 0, 27};
enum { WIDE_STORE = 29 };

static uint32_t start_bench(Bench *bench, uint32_t address, uint32_t groups)
{
    bench->clock = 1000;
    return second_start(bench->map, bench->map_len, bench->store,
                        bench->store_len, bench->image, bench->store_len,
                        address, groups, &bench->unit);
}

static Bench sheet_bench(void)
{
    Bench bench = {0};
    memcpy(bench.map, sheet_map, sizeof sheet_map);
    memcpy(bench.store, sheet_store, sizeof sheet_store);
    memcpy(bench.image, sheet_image, sizeof sheet_image);
    bench.map_len = sizeof sheet_map;
    bench.store_len = sizeof sheet_store;
    (void)start_bench(&bench, 5, 0);
    return bench;
}

static Bench wide_bench(void)
{
    Bench bench = {0};
    memcpy(bench.map, wide_map, sizeof wide_map);
    bench.map_len = sizeof wide_map;
    bench.store_len = WIDE_STORE;
    for (size_t i = 0; i < WIDE_STORE; i++) {
        bench.store[i] = (uint8_t)(0x40 + i);
        bench.image[i] = (uint8_t)(0x80 + i);
    }
    bench.store[0] = 0x03;
    bench.store[3] = 0x11;
    bench.store[17] = 0xFE;
    (void)start_bench(&bench, 5, 0x00010004);
    return bench;
}

static uint32_t step_at(Bench *bench, uint32_t frame, uint32_t clock)
{
    return second_frame(bench->map, bench->map_len, bench->store,
                        bench->store_len, bench->image, bench->store_len,
                        &bench->unit, frame, clock);
}

/* A frame some time later. */
static uint32_t step(Bench *bench, uint32_t frame)
{
    bench->clock += 10;
    return step_at(bench, frame, bench->clock);
}

static void pair(Bench *bench, uint32_t frame)
{
    (void)step(bench, frame);
    (void)step(bench, frame);
}

static uint32_t power_on(Bench *bench)
{
    return second_power_on(bench->map, bench->map_len, bench->store,
                           bench->store_len, bench->image, bench->store_len,
                           &bench->unit);
}

/* number | answered << 8 | answer << 16 */
static uint32_t answered(uint8_t byte)
{
    return 0x100u | (uint32_t)byte << 16;
}

static bool stores(const Bench *bench, size_t offset, size_t count,
                   const uint8_t *bytes)
{
    return memcmp(bench->store + offset, bytes, count) == 0;
}

static bool same_state(const Unit *one, const Unit *other)
{
    uint8_t one_bytes[STATE_BYTES];
    uint8_t other_bytes[STATE_BYTES];
    second_pack(one, one_bytes);
    second_pack(other, other_bytes);
    return memcmp(one_bytes, other_bytes, STATE_BYTES) == 0;
}

/* DTR1 then DTR0, then the ENABLE pair. */
static void enable_at(Bench *bench, uint8_t bank, uint8_t location)
{
    (void)step(bench, 0xC70000u | (uint32_t)bank << 8 | location);
    pair(bench, 0xFFFE15);
}

/* ---- the bench sheet ---- */

static void bench_reader(void)
{
    expect(second_read(0x0BFE15) == UINT64_C(0x000000050A001500),
           "P1 ENABLE to short 5");
    expect(second_read(0xFFFE3C) == UINT64_C(0x000003000A003C00),
           "P2 broadcast READ");
    expect(second_read(0xFEE001) == 5, "P10 refusal 5");
    expect(second_read(0xFEF1C5) == UINT64_C(0x0007010301050000),
           "P8 reads back");
    expect(second_read(0xFEE000) == UINT64_C(0x0007000000000000),
           "P9 reads back");
}

/* number | frame << 8 */
static void bench_composer(void)
{
    expect(second_compose_event(1, 2, 255, 255, 0, 5, 0) == 0x82880500,
           "P3 scheme 0");
    expect(second_compose_event(3, 0, 255, 5, 0, 0x155, 1) == 0x0A0D5500,
           "P4 scheme 1");
    expect(second_compose_event(0, 31, 255, 63, 0, 1023, 2) == 0x7EFFFF00,
           "P5 scheme 2");
    expect(second_compose_event(4, 0, 255, 255, 0x280, 0, 3) == 0x8E100000,
           "P6 scheme 3");
    expect(second_compose_event(0, 0, 31, 255, 0, 1, 4) == 0xFE000100,
           "P7 scheme 4");
    expect(second_compose_power(5, 1u << 3) == 0xFEF1C500, "P8 power");
    expect(second_compose_power(255, 0) == 0xFEE00000, "P9 neither");
}

static const uint32_t p11_frames[9] = {0x0BFE15, 0x0BFE15, 0xC13102,
                                       0xC13002, 0xC12055, 0xC12000,
                                       0xC12000, 0xC12001, 0xC1202C};

/* P11's list with the second ENABLE at a given clock; counts what differs. */
static unsigned run_sheet(Bench *bench, size_t count, uint32_t second_clock,
                          const uint32_t *results)
{
    unsigned unlike = 0;
    for (size_t i = 0; i < count; i++) {
        uint32_t clock = i == 0 ? 0 : second_clock;
        if (step_at(bench, p11_frames[i], clock) != results[i]) {
            unlike++;
        }
    }
    return unlike;
}

static void bench_writing(void)
{
    static const uint32_t p11_results[9] = {0,          0,          0,
                                            0,          0x00550100, 0x00000100,
                                            0x00000100, 0x00010100, 0x002C0100};
    static const uint32_t nothing[9] = {0};
    static const uint8_t whole[6] = {0x06, 0x55, 0, 0, 1, 0x2C};
    static const uint8_t part[6] = {0x06, 0x55, 0, 0, 0, 0x64};
    Bench bench = sheet_bench();
    expect(run_sheet(&bench, 9, 100, p11_results) == 0, "P11 outputs");
    expect(stores(&bench, 0, 6, whole), "P11 store");
    expect(bench.unit.dtr0 == 7 && bench.unit.dtr1 == 2, "P11 DTRs");
    bench = sheet_bench();
    expect(run_sheet(&bench, 8, 100, p11_results) == 0, "P12 outputs");
    expect(stores(&bench, 0, 6, part), "P12 store");
    bench = sheet_bench();
    expect(run_sheet(&bench, 9, 101, nothing) == 0, "101: no answers");
    expect(stores(&bench, 0, 6, sheet_store), "101: store unchanged");
    expect(bench.unit.dtr0 == 2 && bench.unit.dtr1 == 2, "101: DTR0 2, DTR1 2");
    bench = sheet_bench();
    (void)step_at(&bench, 0x0BFE15, 4294967250u);
    (void)step_at(&bench, 0x0BFE15, 50);
    expect(bench.unit.write_enable == 1, "difference 96, a pair");
}

/* ---- reader, writer, composers ---- */

/* Every frame that reads writes back to itself. */
static void read_and_write(void)
{
    unsigned unlike = 0;
    for (uint32_t frame = 0; frame < 0x1000000; frame++) {
        uint64_t word = second_read(frame);
        uint32_t back = second_write(word);
        uint32_t wanted = (word & 0xFF) == 0 ? frame << 8 : 6;
        if (back != wanted) {
            unlike++;
        }
    }
    expect(unlike == 0, "every frame that reads writes back to itself");
    expect(second_read(0x1000000) == 1, "reader 1");
    expect(second_read(0xFFFFFFFF) == 1, "reader 1, largest");
    expect(second_read(0xE1FE15) == 2, "reader 2");
    expect(second_read(0xFB4000) == 2, "reader 2 before 3");
    expect(second_read(0x014000) == 3, "reader 3");
    expect(second_read(0xC08000) == 4, "reader 4");
    expect(second_read(0xFEC000) == 4, "bit 13 clear: 4");
    expect(second_read(0xFEE080) == 5, "blank group: 5");
}

/* Writer (6): any number in the message beyond its field's width. */
static void writer_ranges(void)
{
    static const uint64_t refused[] = {
        UINT64_C(0x0000004001000000), /* short 64 */
        UINT64_C(0x0000012001000000), /* group 32 */
        UINT64_C(0x0000020101000000), /* unaddressed has no number */
        UINT64_C(0x0000030101000000), /* broadcast has no number */
        UINT64_C(0x0000040001000000), /* address kind 4 */
        UINT64_C(0x0000000000000000), /* reserved target */
        UINT64_C(0x000000000C000000), /* target kind 12 */
        UINT64_C(0x0000000001200000), /* instance number 32 */
        UINT64_C(0x0000000006200000), /* feature at type 32 */
        UINT64_C(0x000000000A010000), /* device has no number */
        UINT64_C(0x0000000001000001), /* unused byte */
        UINT64_C(0x0001100000000000), /* special 16 */
        UINT64_C(0x0001000000000100), /* unused byte of a special */
        UINT64_C(0x0002200000000000), /* type 32 */
        UINT64_C(0x0003400000000000), /* short 64 */
        UINT64_C(0x0004002000000000), /* number 32 */
        UINT64_C(0x0005200000000000), /* device group 32 */
        UINT64_C(0x0006200000000000), /* instance group 32 */
        UINT64_C(0x0002000004000000), /* information 1024 */
        UINT64_C(0x0002000000000001), /* unused byte of an event */
        UINT64_C(0x0007020000000000), /* present is 0/1 */
        UINT64_C(0x0007000100000000), /* absent group is 0 */
        UINT64_C(0x0007012000000000), /* group 32 */
        UINT64_C(0x0007000001400000), /* short 64 */
        UINT64_C(0x0007000000010000), /* absent short address is 0 */
        UINT64_C(0x0007000000000001), /* unused byte of a power cycle */
        UINT64_C(0x0008000000000000), /* kind 8 */
        UINT64_C(0x0100000001000000), /* the highest byte is 0 */
        UINT64_C(0x0000000000000001), /* a refusal */
        UINT64_C(0xFFFFFFFFFFFFFFFF), /* no message */
    };
    for (size_t i = 0; i < sizeof refused / sizeof refused[0]; i++) {
        char what[40];
        (void)snprintf(what, sizeof what, "writer refusal %zu", i);
        expect(second_write(refused[i]) == 6, what);
    }
}

/* Composer ranges (6): every field tested, also those the scheme won't use. */
static void composer_ranges(void)
{
    const uint32_t six = 6;
    expect(second_compose_event(32, 0, 0, 0, 0, 0, 2) == six, "type 32");
    expect(second_compose_event(0, 32, 0, 0, 0, 0, 1) == six, "number 32");
    expect(second_compose_event(0, 0, 32, 0, 0, 0, 0) == six, "primary 32");
    expect(second_compose_event(0, 0, 254, 0, 0, 0, 0) == six, "primary 254");
    expect(second_compose_event(0, 0, 0, 64, 0, 0, 0) == six, "short 64");
    expect(second_compose_event(0, 0, 0, 254, 0, 0, 0) == six, "short 254");
    expect(second_compose_event(0, 0, 0, 0, 0, 1024, 0) == six, "info 1024");
    expect(second_compose_event(0, 0, 0, 0, 0, 0, 5) == six, "scheme 5");
    expect(second_compose_event(0, 0, 0, 0, 0, 0, 254) == six, "scheme 254");
    expect(second_compose_power(64, 0) == six, "power, short 64");
    expect(second_compose_power(256, 0) == six, "power, short 256");
    expect(second_compose_event(1, 2, 0, 0, 1, 5, 0) == 0x82880500,
           "scheme 0 is type and number");
    expect(second_compose_event(1, 2, 0, 255, 1, 5, 1) == 0x82880500,
           "scheme 1 falls back");
    expect(second_compose_event(1, 2, 0, 255, 1, 5, 2) == 0x82880500,
           "scheme 2 falls back");
    expect(second_compose_event(1, 2, 0, 0, 0, 5, 3) == 0x82880500,
           "scheme 3 falls back");
    expect(second_compose_event(1, 2, 255, 0, 1, 5, 4) == 0x82880500,
           "scheme 4 falls back");
    expect(second_compose_power(63, 1u << 31) == 0xFEFFFF00, "highest power");
}

/* 255 is "as shipped", which is 2: short address and number. Type 1, number 2,
   primary group 7, short address 9 and device group 3 give each of the schemes
   0 to 4 a frame of its own. */
static void as_shipped(void)
{
    unsigned unlike = 0;
    expect(second_compose_event(1, 2, 7, 9, 1u << 3, 5, 255) == 0x12880500,
           "as shipped is 2");
    expect(second_compose_event(1, 2, 7, 63, 1u << 3, 5, 255) == 0x7E880500,
           "as shipped, short 63");
    expect(second_compose_event(1, 2, 7, 0, 1u << 3, 5, 255) == 0x00880500,
           "as shipped, short 0");
    expect(second_compose_event(1, 2, 7, 255, 1u << 3, 5, 255) == 0x82880500,
           "as shipped falls back to 0");
    expect(second_compose_event(1, 2, 7, 64, 1u << 3, 5, 255) == 6,
           "as shipped, short 64");
    expect(second_compose_event(32, 2, 7, 9, 1u << 3, 5, 255) == 6,
           "as shipped, type 32");
    for (uint32_t address = 0; address <= 255; address++) {
        if (second_compose_event(1, 2, 7, address, 1u << 3, 5, 255)
            != second_compose_event(1, 2, 7, address, 1u << 3, 5, 2)) {
            unlike++;
        }
    }
    expect(unlike == 0, "as shipped is 2 whatever the short address");
}

/* ---- map, store, reset image ---- */

static uint32_t check(const Bench *bench)
{
    return second_check(bench->map, bench->map_len, bench->store,
                        bench->store_len, bench->store_len);
}

/* The bench with one byte of its map changed. */
static uint32_t check_map_byte(size_t index, uint8_t byte)
{
    Bench bench = wide_bench();
    bench.map[index] = byte;
    return check(&bench);
}

/* Number 8: a record's own fields. */
static void check_fields(void)
{
    expect(check_map_byte(9 * 8, 200) == RECORD_FIELDS, "bank 200");
    expect(check_map_byte(4 * 8 + 2, 0) == RECORD_FIELDS, "width 0");
    expect(check_map_byte(11 * 8 + 2, 9) == RECORD_FIELDS, "width 9");
    expect(check_map_byte(12 * 8 + 2, 3) == RECORD_FIELDS, "last 0xFF");
    expect(check_map_byte(4 * 8 + 3, 5) == RECORD_FIELDS, "kind 5");
    expect(check_map_byte(4 * 8 + 4, 2) == RECORD_FIELDS, "lockable 2");
    expect(check_map_byte(8 * 8 + 4, 1) == RECORD_FIELDS, "lockable RAM-RO");
    expect(check_map_byte(1 * 8 + 4, 1) == RECORD_FIELDS, "lockable NVM-RO");
    expect(check_map_byte(0 * 8 + 4, 1) == RECORD_FIELDS, "lockable ROM");
    expect(check_map_byte(4 * 8 + 5, 1) == RECORD_FIELDS, "byte 5 not zero");
    expect(check_map_byte(6 * 8 + 4, 1) == 0, "lockable RAM-RW");
}

/* 9 and 10: overlap of locations is 9; overlap of store places is 10. */
static void check_places(void)
{
    Bench bench = wide_bench();
    expect(check_map_byte(4 * 8 + 2, 5) == RECORD_ORDER, "overlap by one");
    expect(check_map_byte(5 * 8 + 1, 3) == RECORD_ORDER, "equal firsts");
    expect(check_map_byte(9 * 8, 1) == RECORD_ORDER, "bank falls");
    expect(check_map_byte(12 * 8 + 7, 26) == STORE_PLACES, "shared by one");
    expect(check_map_byte(12 * 8 + 7, 28) == STORE_PLACES, "outside by one");
    expect(check_map_byte(12 * 8 + 6, 0xFF) == STORE_PLACES, "far outside");
    expect(second_check(bench.map, bench.map_len, bench.store, WIDE_STORE,
                        WIDE_STORE + 1)
               == STORE_PLACES,
           "lengths differ");
}

/* 7: map not a multiple of 8 bytes, or over 512; 10: over 4,096. */
static void check_lengths(void)
{
    static const uint8_t long_map[520] = {0};
    static const uint8_t long_store[4097] = {0};
    expect(second_check(long_map, 513, NULL, 0, 0) == MAP_LENGTH, "513");
    expect(second_check(long_map, 520, NULL, 0, 0) == MAP_LENGTH, "520");
    expect(second_check(long_map, 7, NULL, 0, 0) == MAP_LENGTH, "7");
    expect(second_check(NULL, 0, NULL, 0, 0) == 0, "nothing at all");
    expect(second_check(NULL, 0, long_store, 4096, 4096) == 0, "4,096");
    expect(second_check(NULL, 0, long_store, 4097, 4097) == STORE_PLACES,
           "4,097");
}

/* Number 11: the stored byte at 0x00, the record there, the lock record. */
static void check_bank_rules(void)
{
    Bench bench = wide_bench();
    expect(check_map_byte(0 * 8 + 3, 1) == BANK_RULE, "0x00 not ROM");
    expect(check_map_byte(2 * 8 + 1, 1) == BANK_RULE, "no record at 0x00");
    expect(check_map_byte(3 * 8 + 3, 4) == BANK_RULE, "lock byte NVM-RW");
    expect(check_map_byte(3 * 8 + 4, 1) == BANK_RULE, "lock byte lockable");
    expect(check_map_byte(3 * 8 + 1, 1) == BANK_RULE, "no lock byte");
    expect(check_map_byte(1 * 8 + 3, 4) == BANK_RULE, "bank 0 NVM-RW");
    expect(check_map_byte(1 * 8 + 3, 2) == BANK_RULE, "bank 0 RAM-RW");
    expect(check_map_byte(1 * 8 + 3, 1) == 0, "bank 0 RAM-RO");
    bench.store[0] = 2;
    expect(check(&bench) == BANK_RULE, "0x00 holds 2");
    bench.store[0] = 254;
    expect(check(&bench) == 0, "0x00 holds 254");
    bench.store[0] = 255;
    expect(check(&bench) == BANK_RULE, "0x00 holds 255");
    bench.store[0] = 3;
    bench.store[3] = 0x10;
    expect(check(&bench) == BANK_RULE, "0x00 below the highest location");
    bench.store[3] = 0x11;
    bench.image[3] = 0;
    expect(start_bench(&bench, 5, 0) == 0, "the image's byte is not tested");
}

/* Each over everything: 8 at the last record before 9 at the first, and so
   on. */
static void check_order(void)
{
    Bench bench = wide_bench();
    bench.store[0] = 2;
    expect(check(&bench) == BANK_RULE, "11 alone");
    bench.map[1 * 8 + 7] = 0;
    expect(check(&bench) == STORE_PLACES, "10 before 11");
    bench.map[5 * 8 + 1] = 3;
    expect(check(&bench) == RECORD_ORDER, "9 before 10");
    bench.map[12 * 8 + 3] = 9;
    expect(check(&bench) == RECORD_FIELDS, "8 before 9");
    bench.map_len--;
    expect(check(&bench) == MAP_LENGTH, "7 before 8");
}

static uint32_t look(const Bench *bench, uint32_t bank, uint32_t location)
{
    return second_look(bench->map, bench->map_len, bench->store,
                       bench->store_len, bank, location);
}

/* A place inside a value but not at its first location is 14. */
static void look_calls(void)
{
    Bench bench = wide_bench();
    expect(look(&bench, 2, 3) == (4u << 8 | 5u << 16), "look at a value");
    expect(look(&bench, 9, 0xFD) == (2u << 8 | 27u << 16), "look at the last");
    expect(look(&bench, 2, 4) == NO_VALUE, "look inside a value");
    expect(look(&bench, 2, 10) == NO_VALUE, "look at a hole");
    expect(look(&bench, 200, 0) == NO_VALUE, "look at bank 200");
    expect(look(&bench, 0x102, 3) == NO_VALUE, "a bank is not cut");
    expect(look(&bench, 2, 0x103) == NO_VALUE, "a location is not cut");
    bench.store[0] = 0;
    expect(look(&bench, 2, 4) == BANK_RULE, "look tests 11 before 14");
}

/* ---- the find call ---- */

/* Two banks side by side; none of them has a record at 0x00. */
static const uint8_t beside_map[] = {
    4, 0x05, 2, 0, 0, 0, 0, 0, 4, 0x10, 1, 0, 0, 0, 0, 2,
    5, 0x08, 1, 0, 0, 0, 0, 3, 5, 0xF7, 8, 0, 0, 0, 0, 4};

static Bench beside_bench(void)
{
    Bench bench = {0};
    memcpy(bench.map, beside_map, sizeof beside_map);
    bench.map_len = sizeof beside_map;
    return bench;
}

/* A map of 0 to 64 records, eight of them in every third bank: position p has
   first location 0x20 * (p % 8) + 8 and width p % 8 + 1. */
static Bench rising_bench(uint8_t records)
{
    Bench bench = {0};
    bench.map_len = records * 8u;
    for (uint8_t p = 0; p < records; p++) {
        bench.map[p * 8] = (uint8_t)(p / 8 * 3);
        bench.map[p * 8 + 1] = (uint8_t)(p % 8 * 0x20 + 8);
        bench.map[p * 8 + 2] = (uint8_t)(p % 8 + 1);
    }
    return bench;
}

/* An answer, from high to low: width, location, what, number. */
enum { ABSENT_ANSWER = 0x00000100, PAST_ANSWER = 0x00000300 };

/* A place, its answer and how many records are visited for it. */
typedef struct Find {
    uint32_t bank;
    uint32_t location;
    uint64_t answer;
    uint64_t count;
    const char *what;
} Find;

static uint64_t find(const Bench *bench, uint32_t bank, uint32_t location)
{
    return second_find(bench->map, bench->map_len, bank, location);
}

static void expect_finds(const Bench *bench, const Find *finds, size_t count)
{
    for (size_t i = 0; i < count; i++) {
        expect(find(bench, finds[i].bank, finds[i].location)
                   == (finds[i].count << 32 | finds[i].answer),
               finds[i].what);
    }
}

/* Three records: position 1 is visited, then 0 or 2. */
static void find_in_sheet(void)
{
    static const Find finds[] = {
        {2, 0x00, 0x01000000, 2, "find 0x00"},
        {2, 0x01, 0x00020200, 2, "a hole, the next is 0x02"},
        {2, 0x02, 0x01020000, 1, "find 0x02"},
        {2, 0x03, 0x04030000, 2, "find a first location"},
        {2, 0x04, 0x04030000, 2, "find inside a value"},
        {2, 0x05, 0x04030000, 2, "find further inside"},
        {2, 0x06, 0x04030000, 2, "find a last location"},
        {2, 0x07, PAST_ANSWER, 2, "past the bank's last one"},
        {2, 0xFF, PAST_ANSWER, 2, "0xFF is past"},
        {1, 0x00, ABSENT_ANSWER, 2, "bank 1 is absent"},
        {3, 0x03, ABSENT_ANSWER, 2, "bank 3 is absent"},
        {0, 0x02, ABSENT_ANSWER, 2, "bank 0 is absent"},
        {200, 0x00, ABSENT_ANSWER, 2, "bank 200 is absent"},
        {255, 0xFF, ABSENT_ANSWER, 2, "bank 255 is absent"},
    };
    Bench bench = sheet_bench();
    expect_finds(&bench, finds, sizeof finds / sizeof finds[0]);
}

/* A hole names no record of another bank, and what follows in another bank is
   past too. Four records: position 2 is visited, then 1 and perhaps 0, or 3. */
static void find_beside_banks(void)
{
    static const Find finds[] = {
        {4, 0x00, 0x00050200, 3, "a hole before all records"},
        {4, 0x04, 0x00050200, 3, "just before all records"},
        {4, 0x06, 0x02050000, 3, "inside the lower bank's value"},
        {4, 0x07, 0x00100200, 3, "not the higher bank's 0x08"},
        {4, 0x0F, 0x00100200, 3, "just before the bank's last"},
        {4, 0x10, 0x01100000, 2, "the lower bank's last value"},
        {4, 0x11, PAST_ANSWER, 2, "past, while a higher bank follows"},
        {4, 0xFE, PAST_ANSWER, 2, "mapped in the higher bank only"},
        {5, 0x00, 0x00080200, 2, "before the higher bank's all"},
        {5, 0x05, 0x00080200, 2, "mapped in the lower bank only"},
        {5, 0x08, 0x01080000, 1, "the higher bank's first value"},
        {5, 0x09, 0x00F70200, 2, "a hole up to 0xF7"},
        {5, 0xFE, 0x08F70000, 2, "the last location of all"},
        {5, 0xFF, PAST_ANSWER, 2, "past the last location of all"},
        {3, 0x05, ABSENT_ANSWER, 3, "absent below"},
        {6, 0x08, ABSENT_ANSWER, 2, "absent above"},
    };
    Bench bench = beside_bench();
    expect_finds(&bench, finds, sizeof finds / sizeof finds[0]);
}

/* 64 records. Positions 32, 16, 8, 4, 2, 1, 0 are visited down to the first,
   32, 48, 56, 60, 62, 63 up to the last; 32, 16, 24, 20, 22, 21 for 21, and
   32, 16, 8, 4, 6, 7 for what lies between 7 and 8. */
static void find_among_64(void)
{
    static const Find finds[] = {
        {0, 0x00, 0x00080200, 7, "before the first of 64"},
        {0, 0x08, 0x01080000, 7, "the first of 64"},
        {0, 0x09, 0x00280200, 7, "between the first two"},
        {0, 0x29, 0x02280000, 6, "inside the second of 64"},
        {0, 0xFF, PAST_ANSWER, 6, "past the eighth of 64"},
        {1, 0x08, ABSENT_ANSWER, 6, "absent between two of 64"},
        {6, 0x8D, 0x00A80200, 6, "between those of 20 and 21"},
        {6, 0xA8, 0x06A80000, 6, "the record at 21"},
        {12, 0x08, 0x01080000, 1, "the record at 32"},
        {21, 0xE8, 0x08E80000, 6, "the last of 64"},
        {21, 0xEF, 0x08E80000, 6, "the last location of 64"},
        {21, 0xF0, PAST_ANSWER, 6, "past the last of 64"},
        {22, 0x00, ABSENT_ANSWER, 6, "absent above 64"},
    };
    Bench bench = rising_bench(64);
    expect_finds(&bench, finds, sizeof finds / sizeof finds[0]);
}

/* A place by a table of its bank's locations: the first location and the width
   of the value at each. */
static uint64_t find_by_table(const Bench *bench, uint8_t bank,
                              uint8_t location)
{
    uint64_t first[256] = {0};
    uint64_t width[256] = {0};
    bool present = false;
    for (const uint8_t *r = bench->map; r < bench->map + bench->map_len;
         r += 8) {
        for (unsigned i = 0; r[0] == bank && i < r[2]; i++) {
            first[r[1] + i] = r[1];
            width[r[1] + i] = r[2];
            present = true;
        }
    }
    if (!present) {
        return ABSENT_ANSWER;
    }
    if (width[location] != 0) {
        return width[location] << 24 | first[location] << 16;
    }
    for (uint64_t next = location; next < 256; next++) {
        if (width[next] != 0) {
            return next << 16 | 0x200;
        }
    }
    return PAST_ANSWER;
}

/* The turn at which each position is visited, if it is: the middle one at the
   first, those in the middle of its two sides at the next, and so on. */
static void lay_turns(size_t low, size_t high, uint64_t turn, uint64_t *turns)
{
    if (low < high) {
        size_t middle = (low + high) / 2;
        turns[middle] = turn;
        lay_turns(low, middle, turn + 1, turns);
        lay_turns(middle + 1, high, turn + 1, turns);
    }
}

/* The count by the turns: that of the record that holds the place. If none
   does, both neighbours are visited, the later one last. */
static uint64_t count_by_turns(const Bench *bench, uint8_t bank,
                               uint8_t location)
{
    uint64_t turns[66] = {0}; /* position p at p + 1; 0 at both ends */
    size_t before = 0;        /* records that begin there or before */
    lay_turns(0, bench->map_len / 8, 1, turns + 1);
    for (const uint8_t *r = bench->map; r < bench->map + bench->map_len;
         r += 8) {
        if (r[0] < bank || (r[0] == bank && r[1] <= location)) {
            before++;
        }
        if (r[0] == bank && r[1] <= location && location < r[1] + r[2]) {
            return turns[before];
        }
    }
    return turns[before] > turns[before + 1] ? turns[before]
                                             : turns[before + 1];
}

/* Every bank and location that a byte holds. */
static unsigned places_unlike(const Bench *bench)
{
    unsigned unlike = 0;
    for (unsigned i = 0; i < 0x10000; i++) {
        uint8_t bank = (uint8_t)(i >> 8);
        uint8_t location = (uint8_t)i;
        if (find(bench, bank, location)
            != (count_by_turns(bench, bank, location) << 32
                | find_by_table(bench, bank, location))) {
            unlike++;
        }
    }
    return unlike;
}

static void find_every_place(void)
{
    Bench bench = sheet_bench();
    expect(places_unlike(&bench) == 0, "every place of the bench sheet");
    bench = wide_bench();
    expect(places_unlike(&bench) == 0, "every place of three banks");
    bench = beside_bench();
    expect(places_unlike(&bench) == 0, "every place of banks side by side");
    bench = rising_bench(64);
    expect(places_unlike(&bench) == 0, "every place of 64 records");
    bench = rising_bench(0);
    expect(places_unlike(&bench) == 0, "every place of an empty map");
    expect(second_find(NULL, 0, 0, 0) == ABSENT_ANSWER,
           "an empty map has no bank, and no record is visited");
    expect(second_find(NULL, 0, 256, 0) == FIELD_OUT_OF_RANGE,
           "bank 256 of an empty map");
}

/* The least and the greatest count over all places. */
typedef struct Counts {
    uint64_t least;
    uint64_t most;
} Counts;

static Counts counts_of(uint8_t records)
{
    Bench bench = rising_bench(records);
    Counts counts = {UINT64_MAX, 0};
    for (uint32_t i = 0; i < 0x10000; i++) {
        uint64_t count = find(&bench, i >> 8, i & 0xFF) >> 32;
        counts.least = count < counts.least ? count : counts.least;
        counts.most = count > counts.most ? count : counts.most;
    }
    return counts;
}

/* The smallest k with n < 2^k. */
static uint64_t bound_of(size_t records)
{
    uint64_t k = 0;
    while (records >= (size_t)1 << k) {
        k++;
    }
    return k;
}

/* At most 7 with 64 records and 0 with none; each bound is reached. */
static void find_bounds(void)
{
    unsigned unlike = 0;
    Counts counts = counts_of(0);
    expect(counts.least == 0 && counts.most == 0, "no record: 0 always");
    counts = counts_of(1);
    expect(counts.least == 1 && counts.most == 1, "one record: 1 always");
    expect(counts_of(32).most == 6, "32 records: at most 6");
    expect(counts_of(63).most == 6, "63 records: at most 6");
    expect(counts_of(64).most == 7, "64 records: at most 7");
    for (uint8_t records = 0; records <= 64; records++) {
        if (counts_of(records).most != bound_of(records)) {
            unlike++;
        }
    }
    expect(unlike == 0, "0 to 64 records: the smallest k with n < 2^k");
}

/* 7 to 9, then 6. Of 13 records 6, 10 and 12 are visited for the last. */
static void find_refusals(void)
{
    static const uint8_t long_map[520] = {0};
    Bench bench = wide_bench();
    expect(find(&bench, 256, 0) == FIELD_OUT_OF_RANGE, "find in bank 256");
    expect(find(&bench, 2, 256) == FIELD_OUT_OF_RANGE, "find at 256");
    expect(find(&bench, 0x102, 3) == FIELD_OUT_OF_RANGE, "a bank not cut");
    expect(find(&bench, 2, 0x103) == FIELD_OUT_OF_RANGE, "a location not cut");
    expect(find(&bench, UINT32_MAX, UINT32_MAX) == FIELD_OUT_OF_RANGE,
           "the largest of both");
    bench.store[0] = 0;
    bench.map[0 * 8 + 3] = 4;
    bench.map[12 * 8 + 7] = 0;
    expect(check(&bench) == STORE_PLACES
               && find(&bench, 9, 0xFD) == (UINT64_C(3) << 32 | 0x02FD0000),
           "10 and 11 are not tested");
    bench.map[5 * 8 + 1] = 3;
    expect(find(&bench, 2, 3) == RECORD_ORDER, "find: 9");
    expect(find(&bench, 256, 3) == RECORD_ORDER, "find: 9 before 6");
    bench.map[12 * 8 + 3] = 9;
    expect(find(&bench, 2, 3) == RECORD_FIELDS, "find: 8 before 9");
    expect(find(&bench, 2, 256) == RECORD_FIELDS, "find: 8 before 6");
    bench.map_len--;
    expect(find(&bench, 2, 3) == MAP_LENGTH, "find: 7 before 8");
    expect(find(&bench, 256, 256) == MAP_LENGTH, "find: 7 before 6");
    expect(second_find(long_map, 513, 0, 0) == MAP_LENGTH, "find: map of 513");
    expect(second_find(long_map, 520, 0, 0) == MAP_LENGTH, "find: map of 520");
}

/* ---- the compare call ---- */

/* One map, two stores, and an output with bytes past the longest list. */
typedef struct Images {
    uint8_t map[MAP_LIMIT];
    size_t map_len;
    uint8_t old_store[512];
    size_t old_len;
    uint8_t new_store[512];
    size_t new_len;
    uint8_t output[64 * 24 + 8];
} Images;

enum { BEFORE = 0xA5 }; /* the output before a call, all over */

static uint32_t compare(Images *images, size_t room)
{
    memset(images->output, BEFORE, sizeof images->output);
    return second_compare(images->map, images->map_len, images->old_store,
                          images->old_len, images->new_store, images->new_len,
                          images->output, room);
}

/* The output has these bytes, and past them nothing was written. */
static bool outputs(const Images *images, const void *list, size_t count)
{
    const uint8_t *bytes = list;
    for (size_t i = 0; i < sizeof images->output; i++) {
        if (images->output[i] != (i < count ? bytes[i] : BEFORE)) {
            return false;
        }
    }
    return true;
}

/* A list of so many values, in a room of exactly its bytes. */
static bool lists(Images *images, const void *list, uint32_t count)
{
    return compare(images, count * 24) == count << 8
           && outputs(images, list, count * 24);
}

/* No value differs, which needs no room. */
static bool alike(Images *images)
{
    return lists(images, NULL, 0);
}

/* A refusal is its number alone and leaves the output untouched. */
static bool refuses(Images *images, size_t room, uint32_t number)
{
    return compare(images, room) == number && outputs(images, NULL, 0);
}

/* The bench sheet's store is the old one, its image the new one. */
static Images sheet_images(void)
{
    Images images = {0};
    memcpy(images.map, sheet_map, sizeof sheet_map);
    memcpy(images.old_store, sheet_store, sizeof sheet_store);
    memcpy(images.new_store, sheet_image, sizeof sheet_image);
    images.map_len = sizeof sheet_map;
    images.old_len = sizeof sheet_store;
    images.new_len = sizeof sheet_image;
    return images;
}

/* Two stores that are alike: 0x40 on, but the bytes at 0x00. */
static Images wide_images(void)
{
    Images images = {0};
    memcpy(images.map, wide_map, sizeof wide_map);
    images.map_len = sizeof wide_map;
    images.old_len = WIDE_STORE;
    images.new_len = WIDE_STORE;
    for (size_t i = 0; i < WIDE_STORE; i++) {
        images.old_store[i] = (uint8_t)(0x40 + i);
    }
    images.old_store[0] = 0x03;
    images.old_store[3] = 0x11;
    images.old_store[17] = 0xFE;
    memcpy(images.new_store, images.old_store, WIDE_STORE);
    return images;
}

static void compare_sheet(void)
{
    static const uint8_t value[24] = {
        2, 3, 4, 4, 0, 0, 0, 0, 0, 0, 0, 0x64, 0, 0, 0, 0, 0, 0, 0, 0x32};
    static const uint8_t back[24] = {
        2, 3, 4, 4, 0, 0, 0, 0, 0, 0, 0, 0x32, 0, 0, 0, 0, 0, 0, 0, 0x64};
    static const uint8_t three[3][24] = {
        {2, 0, 1, 0, 0, 0, 0, 0, 0x06, 0, 0, 0, 0, 0, 0, 0, 0xFE},
        {2, 2, 1, 2, 0, 0, 0, 0, 0xFF, 0, 0, 0, 0, 0, 0, 0, 0x55},
        {2, 3, 4, 4, 0, 0, 0, 0, 0, 0, 0, 0x64, 0, 0, 0, 0, 0, 0, 0, 0x32}};
    Images images = sheet_images();
    expect(lists(&images, value, 1), "the bench sheet differs in one value");
    memcpy(images.old_store, sheet_image, sizeof sheet_image);
    memcpy(images.new_store, sheet_store, sizeof sheet_store);
    expect(lists(&images, back, 1), "the first store is the old one");
    memcpy(images.old_store, sheet_store, sizeof sheet_store);
    expect(alike(&images), "the bench sheet's store is like itself");
    memcpy(images.new_store, sheet_image, sizeof sheet_image);
    images.new_store[0] = 0xFE;
    images.new_store[1] = 0x55;
    expect(lists(&images, three, 3), "ROM, lock byte and NVM-RW");
}

/* Every value but bank 9's byte at 0x00, which can only be 0xFE. */
static void compare_wide(void)
{
    static const uint8_t list[12][24] = {
        {0, 0x00, 1, 0, 0, 0, 0, 0, 0x03, 0, 0, 0, 0, 0, 0, 0, 0x04},
        {0, 0x02, 2, 3, 0, 0, 0, 0, 0x41, 0x42, 0, 0, 0, 0, 0, 0, 0x81, 0x82},
        {2, 0x00, 1, 0, 0, 0, 0, 0, 0x11, 0, 0, 0, 0, 0, 0, 0, 0x12},
        {2, 0x02, 1, 2, 0, 0, 0, 0, 0x44, 0, 0, 0, 0, 0, 0, 0, 0x84},
        {2, 0x03, 4, 4, 0, 0, 0, 0, 0x45, 0x46, 0x47, 0x48, 0, 0, 0, 0,
         0x85, 0x86, 0x87, 0x88},
        {2, 0x07, 1, 4, 0, 0, 0, 0, 0x49, 0, 0, 0, 0, 0, 0, 0, 0x89},
        {2, 0x08, 2, 2, 0, 0, 0, 0, 0x4A, 0x4B, 0, 0, 0, 0, 0, 0, 0x8A, 0x8B},
        {2, 0x0B, 3, 4, 0, 0, 0, 0, 0x4C, 0x4D, 0x4E, 0, 0, 0, 0, 0,
         0x8C, 0x8D, 0x8E},
        {2, 0x10, 2, 1, 0, 0, 0, 0, 0x4F, 0x50, 0, 0, 0, 0, 0, 0, 0x8F, 0x90},
        {9, 0x02, 1, 2, 0, 0, 0, 0, 0x52, 0, 0, 0, 0, 0, 0, 0, 0x92},
        {9, 0x03, 8, 4, 0, 0, 0, 0,
         0x53, 0x54, 0x55, 0x56, 0x57, 0x58, 0x59, 0x5A,
         0x93, 0x94, 0x95, 0x96, 0x97, 0x98, 0x99, 0x9A},
        {9, 0xFD, 2, 4, 0, 0, 0, 0, 0x5B, 0x5C, 0, 0, 0, 0, 0, 0, 0x9B, 0x9C},
    };
    Images images = wide_images();
    for (size_t i = 0; i < WIDE_STORE; i++) {
        images.new_store[i] = (uint8_t)(0x80 + i);
    }
    images.new_store[0] = 0x04;
    images.new_store[3] = 0x12;
    images.new_store[17] = 0xFE;
    expect(lists(&images, list, 12), "map order over three banks");
    memcpy(images.new_store, images.old_store, WIDE_STORE);
    expect(alike(&images), "three banks that are alike");
}

/* A byte of the new store, and the value that is listed for it. */
typedef struct Change {
    size_t place;
    uint8_t byte;
    uint8_t listed[24];
    const char *what;
} Change;

/* One byte of a value is enough, and only that value is listed. */
static void compare_one_byte(void)
{
    static const Change changes[] = {
        {0, 0xFE, {0, 0x00, 1, 0, 0, 0, 0, 0, 0x03, 0, 0, 0, 0, 0, 0, 0, 0xFE},
         "a ROM value is listed"},
        {2, 0x43, {0, 0x02, 2, 3, 0, 0, 0, 0, 0x41, 0x42, 0, 0, 0, 0, 0, 0,
                   0x41, 0x43},
         "an NVM-RO value is listed"},
        {15, 0x00, {2, 0x10, 2, 1, 0, 0, 0, 0, 0x4F, 0x50, 0, 0, 0, 0, 0, 0,
                    0x00, 0x50},
         "a RAM-RO value is listed"},
        {10, 0x00, {2, 0x08, 2, 2, 0, 0, 0, 0, 0x4A, 0x4B, 0, 0, 0, 0, 0, 0,
                    0x00, 0x4B},
         "a RAM-RW value is listed"},
        {18, 0xFF, {9, 0x02, 1, 2, 0, 0, 0, 0, 0x52, 0, 0, 0, 0, 0, 0, 0, 0xFF},
         "a lock byte is listed"},
        {9, 0x48, {2, 0x07, 1, 4, 0, 0, 0, 0, 0x49, 0, 0, 0, 0, 0, 0, 0, 0x48},
         "a value of width 1"},
        {19, 0x00, {9, 0x03, 8, 4, 0, 0, 0, 0, 0x53, 0x54, 0x55, 0x56, 0x57,
                    0x58, 0x59, 0x5A, 0x00, 0x54, 0x55, 0x56, 0x57, 0x58, 0x59,
                    0x5A},
         "the first byte of a value of width 8"},
        {23, 0x56, {9, 0x03, 8, 4, 0, 0, 0, 0, 0x53, 0x54, 0x55, 0x56, 0x57,
                    0x58, 0x59, 0x5A, 0x53, 0x54, 0x55, 0x56, 0x56, 0x58, 0x59,
                    0x5A},
         "a middle byte of a value of width 8"},
        {26, 0xDA, {9, 0x03, 8, 4, 0, 0, 0, 0, 0x53, 0x54, 0x55, 0x56, 0x57,
                    0x58, 0x59, 0x5A, 0x53, 0x54, 0x55, 0x56, 0x57, 0x58, 0x59,
                    0xDA},
         "the last byte of a value of width 8"},
        {28, 0x5D, {9, 0xFD, 2, 4, 0, 0, 0, 0, 0x5B, 0x5C, 0, 0, 0, 0, 0, 0,
                    0x5B, 0x5D},
         "the last byte of the store"},
    };
    for (size_t i = 0; i < sizeof changes / sizeof changes[0]; i++) {
        Images images = wide_images();
        images.new_store[changes[i].place] = changes[i].byte;
        expect(lists(&images, changes[i].listed, 1), changes[i].what);
    }
}

/* Store bytes under no record are never listed: behind all places, before
   them, and between them. */
static void compare_under_no_record(void)
{
    static const uint8_t listed[24] = {2, 3, 4, 4, 0, 0, 0, 0, 1, 2, 3, 4,
                                       0, 0, 0, 0, 1, 2, 3, 5};
    Images images = wide_images();
    images.old_len = WIDE_STORE + 3;
    images.new_len = WIDE_STORE + 3;
    memset(images.new_store + WIDE_STORE, 0x77, 3);
    expect(alike(&images), "bytes behind all places");
    images = sheet_images();
    images.map[7] = 2;
    images.map[15] = 4;
    images.map[23] = 6;
    images.old_len = 12;
    images.new_len = 12;
    memcpy(images.old_store, "\1\2\6\3\xFF\4\1\2\3\4\5\6", 12);
    memcpy(images.new_store, "\7\7\6\7\xFF\7\1\2\3\4\7\7", 12);
    expect(alike(&images), "bytes before and between places");
    images.new_store[9] = 5;
    expect(lists(&images, listed, 1), "they are not in a record either");
}

/* The list follows the map where the places in the store fall. */
static void compare_falling_places(void)
{
    static const uint8_t list[2][24] = {
        {2, 2, 1, 2, 0, 0, 0, 0, 0xFF, 0, 0, 0, 0, 0, 0, 0, 0x55},
        {2, 3, 4, 4, 0, 0, 0, 0, 1, 2, 3, 4, 0, 0, 0, 0, 1, 2, 3, 5}};
    Images images = sheet_images();
    images.map[7] = 5;
    images.map[15] = 4;
    images.map[23] = 0;
    memcpy(images.old_store, "\1\2\3\4\xFF\6", 6);
    memcpy(images.new_store, "\1\2\3\5\x55\6", 6);
    expect(lists(&images, list, 2), "map order, not store order");
}

/* A list that doesn't fit is 15; room of exactly the list is enough. */
static void compare_room(void)
{
    static const uint8_t list[2][24] = {
        {2, 2, 1, 2, 0, 0, 0, 0, 0xFF, 0, 0, 0, 0, 0, 0, 0, 0x00},
        {2, 3, 4, 4, 0, 0, 0, 0, 0, 0, 0, 0x64, 0, 0, 0, 0, 0, 0, 0, 0x32}};
    Images images = sheet_images();
    expect(refuses(&images, 23, ROOM_TOO_SMALL), "23 bytes for one value: 15");
    expect(refuses(&images, 0, ROOM_TOO_SMALL), "no room for one value: 15");
    expect(second_compare(sheet_map, 24, sheet_store, 6, sheet_image, 6, NULL,
                          0)
               == ROOM_TOO_SMALL,
           "no room and no output: 15");
    images.new_store[1] = 0;
    expect(refuses(&images, 47, ROOM_TOO_SMALL), "47 bytes for two: 15");
    expect(refuses(&images, 24, ROOM_TOO_SMALL), "24 bytes for two: 15");
    expect(lists(&images, list, 2), "48 bytes for two");
    expect(compare(&images, 49) == 0x200 && outputs(&images, list, 48),
           "49 bytes for two: the last stays");
    expect(compare(&images, sizeof images.output) == 0x200
               && outputs(&images, list, 48),
           "bytes past the list stay");
    memcpy(images.new_store, sheet_store, sizeof sheet_store);
    expect(compare(&images, sizeof images.output) == 0
               && outputs(&images, NULL, 0),
           "an empty list leaves all of the output");
    expect(second_compare(sheet_map, 24, sheet_store, 6, images.new_store, 6,
                          NULL, 0)
               == 0,
           "no difference needs no output");
}

/* 64 values, eight in each of eight banks, each at a place of 8 bytes, the
   last value's place first. All bytes of the two stores differ, also those
   between a value and the next place. */
static const uint8_t full_first[8] = {0, 2, 0x10, 0x20, 0x30, 0x40, 0x50, 0x60};
static const uint8_t full_width[8] = {1, 1, 8, 7, 6, 5, 3, 2};
static const uint8_t full_kind[8] = {0, 2, 0, 1, 2, 3, 4, 4};

static size_t full_place(size_t p)
{
    return 8 * (63 - p);
}

static Images full_images(void)
{
    Images images = {0};
    images.map_len = 512;
    images.old_len = 512;
    images.new_len = 512;
    for (size_t i = 0; i < 512; i++) {
        images.old_store[i] = (uint8_t)(i % 127 + 1);
        images.new_store[i] = (uint8_t)(i % 127 + 129);
    }
    for (size_t p = 0; p < 64; p++) {
        const uint8_t record[8] = {(uint8_t)(p / 8 * 20 + 1),
                                   full_first[p % 8],
                                   full_width[p % 8],
                                   full_kind[p % 8],
                                   0,
                                   0,
                                   (uint8_t)(full_place(p) >> 8),
                                   (uint8_t)(full_place(p) & 0xFF)};
        memcpy(images.map + p * 8, record, 8);
        if (p % 8 == 0) {
            images.old_store[full_place(p)] = 0x61;
            images.new_store[full_place(p)] = 0xFE;
        }
    }
    return images;
}

/* The record of one of the 64 values. */
static void full_record(const Images *images, size_t p, uint8_t record[24])
{
    memset(record, 0, 24);
    record[0] = (uint8_t)(1 + 20 * (p / 8));
    record[1] = full_first[p % 8];
    record[2] = full_width[p % 8];
    record[3] = full_kind[p % 8];
    for (size_t i = 0; i < full_width[p % 8]; i++) {
        record[8 + i] = images->old_store[8 * (63 - p) + i];
        record[16 + i] = images->new_store[8 * (63 - p) + i];
    }
}

static void compare_64(void)
{
    uint8_t list[64][24];
    Images images = full_images();
    for (size_t p = 0; p < 64; p++) {
        full_record(&images, p, list[p]);
    }
    expect(lists(&images, list, 64), "64 values in 1,536 bytes");
    expect(refuses(&images, 1535, ROOM_TOO_SMALL), "in 1,535: 15");
    memcpy(images.new_store + full_place(29), images.old_store + full_place(29),
           full_width[29 % 8]);
    memmove(&list[29], &list[30], sizeof list[0] * 34);
    expect(lists(&images, list, 63), "63 values, one of 64 is alike");
    expect(refuses(&images, 1511, ROOM_TOO_SMALL), "in 1,511: 15");
    memcpy(images.new_store, images.old_store, 512);
    expect(alike(&images), "64 values that are alike");
}

/* The bench sheet with one byte of its map changed, in more than enough
   room. */
static uint32_t compare_map_byte(size_t index, uint8_t byte)
{
    Images images = sheet_images();
    images.map[index] = byte;
    uint32_t answer = compare(&images, 100);
    return outputs(&images, NULL, 0) ? answer : UINT32_MAX;
}

/* 7 to 11 where the map is at fault. */
static void compare_map_refusals(void)
{
    static const uint8_t long_map[520] = {0};
    Images images = sheet_images();
    images.map_len = 23;
    expect(refuses(&images, 100, MAP_LENGTH), "compare: map of 23");
    expect(second_compare(long_map, 513, NULL, 0, NULL, 0, NULL, 0)
               == MAP_LENGTH,
           "compare: map of 513");
    expect(second_compare(long_map, 520, NULL, 0, NULL, 0, NULL, 0)
               == MAP_LENGTH,
           "compare: map of 520");
    expect(compare_map_byte(19, 5) == RECORD_FIELDS, "compare: kind 5");
    expect(compare_map_byte(18, 9) == RECORD_FIELDS, "compare: width 9");
    expect(compare_map_byte(17, 2) == RECORD_ORDER, "compare: equal firsts");
    expect(compare_map_byte(16, 1) == RECORD_ORDER, "compare: bank falls");
    expect(compare_map_byte(23, 3) == STORE_PLACES, "compare: place outside");
    expect(compare_map_byte(23, 1) == STORE_PLACES, "compare: place shared");
    expect(compare_map_byte(3, 1) == BANK_RULE, "compare: 0x00 not ROM");
    expect(compare_map_byte(11, 4) == BANK_RULE, "compare: lock byte NVM-RW");
    expect(compare_map_byte(12, 1) == BANK_RULE, "compare: lock byte lockable");
}

static Images images_of_lengths(size_t old_len, size_t new_len)
{
    Images images = sheet_images();
    images.old_len = old_len;
    images.new_len = new_len;
    return images;
}

/* 10 where the lengths are at fault: each is the image's for the other. */
static void compare_length_refusals(void)
{
    Images images = images_of_lengths(6, 5);
    expect(refuses(&images, 100, STORE_PLACES), "the second is shorter");
    images = images_of_lengths(5, 6);
    expect(refuses(&images, 100, STORE_PLACES), "the first is shorter");
    images = images_of_lengths(6, 7);
    expect(refuses(&images, 100, STORE_PLACES), "the second is longer");
    images = images_of_lengths(7, 6);
    expect(refuses(&images, 100, STORE_PLACES), "the first is longer");
    images = images_of_lengths(5, 5);
    expect(refuses(&images, 100, STORE_PLACES), "both are too short");
    images = images_of_lengths(0, 0);
    expect(refuses(&images, 100, STORE_PLACES), "both are empty");
    images = images_of_lengths(7, 7);
    expect(compare(&images, 100) == 0x100, "both are longer than the places");
}

/* The bench sheet's bytes at 0x00 as told; 6 is the highest location. */
static Images images_with_last(uint8_t old_byte, uint8_t new_byte)
{
    Images images = sheet_images();
    images.old_store[0] = old_byte;
    images.new_store[0] = new_byte;
    return images;
}

/* 11 where a store is at fault: both stores' bytes at 0x00 are tested. */
static void compare_store_refusals(void)
{
    Images images = images_with_last(5, 6);
    expect(refuses(&images, 100, BANK_RULE), "0x00 too low in the first");
    images = images_with_last(6, 5);
    expect(refuses(&images, 100, BANK_RULE), "0x00 too low in the second");
    images = images_with_last(5, 5);
    expect(refuses(&images, 100, BANK_RULE), "0x00 too low in both");
    images = images_with_last(255, 6);
    expect(refuses(&images, 100, BANK_RULE), "0x00 holds 255 in the first");
    images = images_with_last(6, 255);
    expect(refuses(&images, 100, BANK_RULE), "0x00 holds 255 in the second");
    images = images_with_last(254, 6);
    expect(compare(&images, 100) == 0x200, "254 in the first is sound");
    images = images_with_last(6, 254);
    expect(compare(&images, 100) == 0x200, "254 in the second is sound");
    images = wide_images();
    images.new_store[17] = 0xFD;
    expect(refuses(&images, 100, BANK_RULE), "the second's last bank");
    images = wide_images();
    images.old_store[17] = 0xFD;
    expect(refuses(&images, 100, BANK_RULE), "the first's last bank");
}

/* Each number stands before the next one; no room at all. */
static void compare_order(void)
{
    Images images = sheet_images();
    expect(refuses(&images, 0, ROOM_TOO_SMALL), "15 alone");
    images.new_store[0] = 5;
    expect(refuses(&images, 0, BANK_RULE), "the second's 11 before 15");
    images.new_store[0] = 6;
    images.old_store[0] = 5;
    expect(refuses(&images, 0, BANK_RULE), "the first's 11 before 15");
    images.new_len = 7;
    expect(refuses(&images, 0, STORE_PLACES), "10 before the first's 11");
    images.old_store[0] = 6;
    images.new_store[0] = 5;
    expect(refuses(&images, 0, STORE_PLACES), "10 before the second's 11");
    images.map[17] = 2;
    expect(refuses(&images, 0, RECORD_ORDER), "compare: 9 before 10");
    images.map[19] = 5;
    expect(refuses(&images, 0, RECORD_FIELDS), "compare: 8 before 9");
    images.map_len = 25;
    expect(refuses(&images, 0, MAP_LENGTH), "compare: 7 before 8");
}

/* Both stores may be one and the same buffer. */
static void compare_one_buffer(void)
{
    uint8_t store[6];
    uint8_t output[24] = {0};
    memcpy(store, sheet_store, sizeof store);
    expect(second_compare(sheet_map, 24, store, 6, store, 6, output, 0) == 0,
           "one buffer is like itself");
    expect(second_compare(sheet_map, 24, store, 6, store, 5, output, 24)
               == STORE_PLACES,
           "one buffer of two lengths: 10");
    store[0] = 5;
    expect(second_compare(sheet_map, 24, store, 6, store, 6, output, 24)
               == BANK_RULE,
           "one unsound buffer: 11");
}

/* An empty map has no value that could differ. */
static void compare_empty_map(void)
{
    static const uint8_t zeros[4097] = {0};
    static uint8_t ones[4097];
    uint8_t output[24] = {0};
    memset(ones, 1, sizeof ones);
    expect(second_compare(NULL, 0, NULL, 0, NULL, 0, NULL, 0) == 0,
           "nothing at all is alike");
    expect(second_compare(NULL, 0, zeros, 4096, ones, 4096, output, 0) == 0,
           "an empty map lists nothing");
    expect(second_compare(NULL, 0, zeros, 4097, ones, 4097, output, 24)
               == STORE_PLACES,
           "compare: stores of 4,097");
    expect(second_compare(NULL, 0, zeros, 4096, ones, 4095, output, 24)
               == STORE_PLACES,
           "an empty map, lengths differ");
    expect(second_compare(NULL, 0, NULL, 0, ones, 1, output, 24)
               == STORE_PLACES,
           "an empty map, no first store");
}

/* ---- the session call ---- */

/* What a session is asked for. */
typedef struct Ask {
    uint32_t address;
    uint32_t bank;
    uint32_t location;
    size_t bytes_len;
    uint8_t bytes[9];
} Ask;

/* An answer with its 13 places, and one behind them that no call writes. */
typedef struct Session {
    uint32_t answer;
    uint32_t places[14];
} Session;

enum { UNWRITTEN = 0x5A5A5A5A }; /* each place before a call */

static Session unwritten_session(void)
{
    Session made = {0, {0}};
    for (size_t i = 0; i < 14; i++) {
        made.places[i] = UNWRITTEN;
    }
    return made;
}

/* No bytes have no pointer either. */
static Session session(const uint8_t *map, size_t map_len, const Ask *ask)
{
    Session made = unwritten_session();
    made.answer = second_session(map, map_len, ask->address, ask->bank,
                                 ask->location,
                                 ask->bytes_len == 0 ? NULL : ask->bytes,
                                 ask->bytes_len, made.places);
    return made;
}

/* So many frames, and zeros behind them up to the 13th place. */
static bool places_are(const Session *made, const uint32_t *frames,
                       uint32_t count)
{
    bool same = made->places[13] == UNWRITTEN;
    for (uint32_t i = 0; i < 13; i++) {
        same = same && made->places[i] == (i < count ? frames[i] : 0);
    }
    return same;
}

static bool session_is(const Session *made, const uint32_t *frames,
                       uint32_t count)
{
    return made->answer == count << 8 && places_are(made, frames, count);
}

/* A refusal is its number alone, and all its places are 0. */
static bool session_refused(const Session *made, uint32_t number)
{
    return made->answer == number && places_are(made, NULL, 0);
}

/* The record of the value that begins at a place; NULL where none does. */
static const uint8_t *record_from(const uint8_t *map, size_t map_len,
                                  uint32_t bank, uint32_t location)
{
    for (size_t i = 0; i + 8 <= map_len; i += 8) {
        if (map[i] == bank && map[i + 1] == location) {
            return map + i;
        }
    }
    return NULL;
}

static bool record_writable(const uint8_t *record)
{
    return record[3] == 2 || record[3] == 4;
}

static size_t place_of(const uint8_t *record)
{
    return record[6] * 256u + record[7];
}

/* The frame that stands i-th in a session, by the record of its value. */
static uint32_t session_frame(const uint8_t *record, const Ask *ask, uint32_t i)
{
    uint32_t lead = 3u + record[4]; /* frames before the bytes */
    if (i == 0) {
        return 0xC13100 + ask->bank;
    }
    if (i <= 2) {
        return 0x01FE15 + ask->address * 0x20000;
    }
    if (i < lead) {
        return 0xC50255;
    }
    if (i < lead + record[2]) {
        return 0xC50000 + (ask->location + i - lead) * 0x100
               + ask->bytes[i - lead];
    }
    return 0xC502FF;
}

static bool session_by_record(const Session *made, const uint8_t *record,
                              const Ask *ask)
{
    uint32_t frames[13] = {0};
    uint32_t count = 3u + record[2] + 2u * record[4];
    for (uint32_t i = 0; i < count; i++) {
        frames[i] = session_frame(record, ask, i);
    }
    return session_is(made, frames, count);
}

/* The store is the old one with the value's bytes and, for a lockable value,
   lock byte 0xFF. */
static bool stored_by_session(const Bench *before, const Bench *after,
                              const uint8_t *record, const Ask *ask)
{
    uint8_t wanted[sizeof before->store];
    memcpy(wanted, before->store, sizeof wanted);
    memcpy(wanted + place_of(record), ask->bytes, record[2]);
    if (record[4] == 1) {
        wanted[place_of(record_from(before->map, before->map_len, record[0],
                                    2))] = 0xFF;
    }
    return memcmp(after->store, wanted, sizeof wanted) == 0;
}

/* Write-enable is left open and nothing is waiting or staged; DTR0 is behind
   the last write, and the latch is not touched. */
static bool left_by_session(const Bench *before, const Bench *after,
                            const uint8_t *record)
{
    Unit wanted = {0};
    wanted.address = before->unit.address;
    wanted.groups = before->unit.groups;
    wanted.dtr0 = (uint8_t)(record[4] == 1 ? 3 : record[1] + record[2]);
    wanted.dtr1 = record[0];
    wanted.dtr2 = before->unit.dtr2;
    wanted.write_enable = 1;
    wanted.latched = before->unit.latched;
    wanted.latched_bank = before->unit.latched_bank;
    wanted.latched_first = before->unit.latched_first;
    memcpy(wanted.latched_bytes, before->unit.latched_bytes,
           sizeof wanted.latched_bytes);
    return same_state(&after->unit, &wanted);
}

/* A session for the value of a record, run 1 ms apart from a clock on: each
   step is accepted, and each write answers its own byte. */
static bool session_holds(const Bench *before, const uint8_t *record,
                          const uint8_t *bytes, uint32_t clock)
{
    Bench after = *before;
    Ask ask = {before->unit.address, record[0], record[1], record[2], {0}};
    memcpy(ask.bytes, bytes, ask.bytes_len);
    Session made = session(before->map, before->map_len, &ask);
    bool holds = session_by_record(&made, record, &ask);
    for (uint32_t i = 0; holds && i < made.answer >> 8; i++) {
        uint8_t byte = (uint8_t)(made.places[i] & 0xFF);
        holds = step_at(&after, made.places[i], clock + i)
                == (i < 3 ? 0 : answered(byte));
    }
    return holds && stored_by_session(before, &after, record, &ask)
           && left_by_session(before, &after, record);
}

/* Frames 1 ms apart from clock 0; how many results differ. */
static unsigned results_unlike(Bench *bench, const uint32_t *frames,
                               const uint32_t *results, uint32_t count)
{
    unsigned unlike = 0;
    for (uint32_t i = 0; i < count; i++) {
        if (step_at(bench, frames[i], i) != results[i]) {
            unlike++;
        }
    }
    return unlike;
}

/* The bench sheet's value 300, run from its start. */
static void session_of_sheet(void)
{
    static const uint32_t frames[9] = {0xC13102, 0x0BFE15, 0x0BFE15,
                                       0xC50255, 0xC50300, 0xC50400,
                                       0xC50501, 0xC5062C, 0xC502FF};
    static const uint32_t results[9] = {
        0,          0,          0,          0x00550100, 0x00000100,
        0x00000100, 0x00010100, 0x002C0100, 0x00FF0100};
    static const uint32_t nothing[9] = {0};
    static const uint8_t whole[6] = {0x06, 0xFF, 0, 0, 1, 0x2C};
    static const uint8_t part[6] = {0x06, 0x55, 0, 0, 0, 0x64};
    Ask ask = {5, 2, 3, 4, {0, 0, 1, 0x2C}};
    Bench bench = sheet_bench();
    Session made = session(sheet_map, sizeof sheet_map, &ask);
    expect(session_is(&made, frames, 9), "the bench sheet's value: 9 frames");
    expect(results_unlike(&bench, made.places, results, 9) == 0,
           "each write is answered by its own byte");
    expect(stores(&bench, 0, 6, whole), "the value, and lock byte 0xFF");
    bench = sheet_bench();
    expect(results_unlike(&bench, made.places, results, 7) == 0
               && stores(&bench, 0, 6, part),
           "no byte is stored before the last");
    bench = sheet_bench();
    ask.address = 6;
    made = session(sheet_map, sizeof sheet_map, &ask);
    expect(made.answer == 0x900
               && results_unlike(&bench, made.places, nothing, 9) == 0
               && stores(&bench, 0, 6, sheet_store),
           "a session for another address");
}

/* A session over the wide map, with its frames. */
typedef struct Written {
    Ask ask;
    uint32_t count;
    uint32_t frames[13];
    const char *what;
} Written;

static void session_frames(void)
{
    static const Written sessions[] = {
        {{5, 2, 0x02, 1, {0x55}}, 4,
         {0xC13102, 0x0BFE15, 0x0BFE15, 0xC50255},
         "the lock byte itself as the value, 0x55"},
        {{5, 9, 0x02, 1, {0x00}}, 4,
         {0xC13109, 0x0BFE15, 0x0BFE15, 0xC50200},
         "the lock byte itself as the value, 0x00"},
        {{5, 2, 0x07, 1, {0x77}}, 4,
         {0xC13102, 0x0BFE15, 0x0BFE15, 0xC50777},
         "a session of width 1, not lockable"},
        {{5, 2, 0x08, 2, {0xFF, 0x55}}, 5,
         {0xC13102, 0x0BFE15, 0x0BFE15, 0xC508FF, 0xC50955},
         "a session for a RAM-RW value"},
        {{0, 2, 0x0B, 3, {1, 2, 3}}, 6,
         {0xC13102, 0x01FE15, 0x01FE15, 0xC50B01, 0xC50C02, 0xC50D03},
         "a session for address 0"},
        {{63, 2, 0x03, 4, {1, 2, 3, 4}}, 9,
         {0xC13102, 0x7FFE15, 0x7FFE15, 0xC50255, 0xC50301, 0xC50402, 0xC50503,
          0xC50604, 0xC502FF},
         "a session for address 63"},
        {{32, 9, 0x03, 8, {8, 7, 6, 5, 4, 3, 2, 1}}, 13,
         {0xC13109, 0x41FE15, 0x41FE15, 0xC50255, 0xC50308, 0xC50407, 0xC50506,
          0xC50605, 0xC50704, 0xC50803, 0xC50902, 0xC50A01, 0xC502FF},
         "a session of width 8, lockable: all 13 places"},
        {{5, 9, 0xFD, 2, {0xFD, 0xFE}}, 5,
         {0xC13109, 0x0BFE15, 0x0BFE15, 0xC5FDFD, 0xC5FEFE},
         "a session up to 0xFE"},
    };
    Bench bench = wide_bench();
    for (size_t i = 0; i < sizeof sessions / sizeof sessions[0]; i++) {
        Session made = session(bench.map, bench.map_len, &sessions[i].ask);
        expect(session_is(&made, sessions[i].frames, sessions[i].count),
               sessions[i].what);
    }
}

/* The bench sheet with another width, kind and lockable byte of its value. */
static Bench sheet_with_value(uint8_t width, uint8_t kind, uint8_t lockable)
{
    Bench bench = sheet_bench();
    bench.map[18] = width;
    bench.map[19] = kind;
    bench.map[20] = lockable;
    bench.store_len = 10;
    bench.store[0] = 10;
    (void)start_bench(&bench, 5, 0);
    return bench;
}

static void session_widths(void)
{
    static const uint8_t bytes[8] = {0xA1, 0x55, 0xFF, 0x00,
                                     0xA5, 0x02, 0xC5, 0xA8};
    static const uint32_t narrow[6] = {0xC13102, 0x0BFE15, 0x0BFE15,
                                       0xC50255, 0xC50355, 0xC502FF};
    static const uint32_t wide[11] = {0xC13102, 0x0BFE15, 0x0BFE15, 0xC50308,
                                      0xC50407, 0xC50506, 0xC50605, 0xC50704,
                                      0xC50803, 0xC50902, 0xC50A01};
    const Ask ask_narrow = {5, 2, 3, 1, {0x55}};
    const Ask ask_wide = {5, 2, 3, 8, {8, 7, 6, 5, 4, 3, 2, 1}};
    for (uint8_t i = 0; i < 32; i++) {
        Bench bench =
            sheet_with_value(i / 4 + 1, i / 2 % 2 == 0 ? 2 : 4, i % 2);
        char what[60];
        (void)snprintf(what, sizeof what,
                       "a session of width %u, kind %u, lockable %u",
                       bench.map[18], bench.map[19], bench.map[20]);
        expect(session_holds(&bench, bench.map + 16, bytes, 0), what);
    }
    Bench bench = sheet_with_value(1, 4, 1);
    Session made = session(bench.map, bench.map_len, &ask_narrow);
    expect(session_is(&made, narrow, 6), "width 1, lockable: 6 frames");
    bench = sheet_with_value(8, 4, 0);
    made = session(bench.map, bench.map_len, &ask_wide);
    expect(session_is(&made, wide, 11), "width 8, not lockable: 11 frames");
}

/* ---- its refusals ---- */

static bool refuses_ask(const Bench *bench, Ask ask, uint32_t number)
{
    Session made = session(bench->map, bench->map_len, &ask);
    return session_refused(&made, number);
}

/* What is asked of the wide map where its bytes don't matter. */
static Ask ask_of(uint32_t address, uint32_t bank, uint32_t location,
                  size_t bytes_len)
{
    Ask ask = {address, bank, location, bytes_len,
               {1, 2, 3, 4, 5, 6, 7, 8, 9}};
    return ask;
}

/* An ask and the number that it is refused with. */
typedef struct Refused {
    uint32_t address;
    uint32_t bank;
    uint32_t location;
    size_t bytes_len;
    uint32_t number;
    const char *what;
} Refused;

/* 14, then 16, then 6, over a sound map. */
static void session_refusals(void)
{
    static const Refused refused[] = {
        {5, 2, 0x04, 4, NO_VALUE, "a session inside a value"},
        {5, 2, 0x06, 1, NO_VALUE, "a session at a last location"},
        {5, 2, 0x0A, 1, NO_VALUE, "a session at a hole"},
        {5, 2, 0x01, 1, NO_VALUE, "a session just before the lock byte"},
        {5, 2, 0xFF, 1, NO_VALUE, "a session at 0xFF"},
        {5, 3, 0x03, 4, NO_VALUE, "a session in an absent bank"},
        {5, 200, 0x02, 1, NO_VALUE, "a session in bank 200"},
        {5, 255, 0x02, 1, NO_VALUE, "a session in bank 255"},
        {5, 258, 0x03, 4, NO_VALUE, "a session in bank 258, not 2"},
        {5, 2, 0x103, 4, NO_VALUE, "a session at 0x103, not 3"},
        {5, 2, 256, 1, NO_VALUE, "a session at 256, not 0"},
        {5, 0x10002, 0x03, 4, NO_VALUE, "a session in bank 0x10002"},
        {5, 2, 0x1000003, 4, NO_VALUE, "a session at 0x1000003"},
        {5, UINT32_MAX, UINT32_MAX, 4, NO_VALUE, "the largest place"},
        {5, 2, 0x00, 1, NOT_WRITABLE, "a session for a ROM value"},
        {5, 2, 0x10, 2, NOT_WRITABLE, "a session for a RAM-RO value"},
        {5, 0, 0x02, 2, NOT_WRITABLE, "a session for an NVM-RO value"},
        {64, 2, 0x03, 4, FIELD_OUT_OF_RANGE, "a session for address 64"},
        {127, 2, 0x03, 4, FIELD_OUT_OF_RANGE, "a session for address 127"},
        {254, 2, 0x03, 4, FIELD_OUT_OF_RANGE, "a session for address 254"},
        {255, 2, 0x03, 4, FIELD_OUT_OF_RANGE, "a session for address 255"},
        {0x105, 2, 0x03, 4, FIELD_OUT_OF_RANGE, "address 0x105, not 5"},
        {0xFFFFFFFF, 2, 0x03, 4, FIELD_OUT_OF_RANGE, "the largest address"},
        {5, 2, 0x03, 3, FIELD_OUT_OF_RANGE, "a byte too few"},
        {5, 2, 0x03, 5, FIELD_OUT_OF_RANGE, "a byte too many"},
        {5, 2, 0x03, 0, FIELD_OUT_OF_RANGE, "no bytes"},
        {5, 2, 0x02, 0, FIELD_OUT_OF_RANGE, "no byte for the lock byte"},
        {5, 2, 0x02, 2, FIELD_OUT_OF_RANGE, "two for the lock byte"},
        {5, 9, 0x03, 7, FIELD_OUT_OF_RANGE, "7 bytes of 8"},
        {5, 9, 0x03, 9, FIELD_OUT_OF_RANGE, "9 bytes of 8"},
        {5, 2, 0x03, 260, FIELD_OUT_OF_RANGE, "260 bytes, not 4"},
        {5, 2, 0x03, SIZE_MAX, FIELD_OUT_OF_RANGE, "the most bytes"},
        {5, 2, 0x03, SIZE_MAX / 2 + 5, FIELD_OUT_OF_RANGE,
         "a count is not cut"},
        {64, 2, 0x03, 3, FIELD_OUT_OF_RANGE, "address 64 and a byte too few"},
        {64, 2, 0x00, 1, NOT_WRITABLE, "16 before 6: address 64"},
        {255, 2, 0x00, 1, NOT_WRITABLE, "16 before 6: address 255"},
        {5, 2, 0x00, 0, NOT_WRITABLE, "16 before 6: no bytes"},
        {5, 2, 0x10, 3, NOT_WRITABLE, "16 before 6: a byte too many"},
        {5, 2, 0x11, 1, NO_VALUE, "14 before 16: inside a RAM-RO value"},
        {5, 258, 0x00, 1, NO_VALUE, "14 before 16: bank 258, not 2"},
        {5, 2, 0x110, 2, NO_VALUE, "14 before 16: location 0x110, not 0x10"},
        {64, 2, 0x04, 4, NO_VALUE, "14 before 6: address 64"},
        {5, 2, 0x04, 3, NO_VALUE, "14 before 6: a byte too few"},
        {255, 258, 0x03, 0, NO_VALUE, "14 before 6: bank 258 and no bytes"},
        {64, 0, 0x03, 1, NO_VALUE, "14 before 16 and 6"},
    };
    Bench bench = wide_bench();
    for (size_t i = 0; i < sizeof refused / sizeof refused[0]; i++) {
        expect(refuses_ask(&bench,
                           ask_of(refused[i].address, refused[i].bank,
                                  refused[i].location, refused[i].bytes_len),
                           refused[i].number),
               refused[i].what);
    }
}

/* The lengths of a map; an empty one has no pointer either. */
static void session_map_lengths(void)
{
    static const uint8_t zeros[520] = {0};
    const Ask ask = ask_of(5, 0, 0, 1);
    const Ask ask_outside = ask_of(64, 256, 256, 0);
    Session made = session(NULL, 0, &ask);
    expect(session_refused(&made, NO_VALUE), "an empty map has no value");
    made = session(NULL, 0, &ask_outside);
    expect(session_refused(&made, NO_VALUE), "an empty map and bank 256");
    made = session(zeros, 7, &ask);
    expect(session_refused(&made, MAP_LENGTH), "session: map of 7");
    made = session(zeros, 513, &ask);
    expect(session_refused(&made, MAP_LENGTH), "session: map of 513");
    made = session(zeros, 520, &ask);
    expect(session_refused(&made, MAP_LENGTH), "session: map of 520");
    made = session(zeros, 512, &ask);
    expect(session_refused(&made, RECORD_FIELDS), "session: map of 512");
}

/* The same number whatever else is at fault: nothing, 14, 16 or 6. */
static bool refuses_first(const Bench *bench, uint32_t number)
{
    return refuses_ask(bench, ask_of(5, 2, 0x03, 4), number)
           && refuses_ask(bench, ask_of(5, 2, 0x06, 4), number)
           && refuses_ask(bench, ask_of(5, 258, 0x03, 4), number)
           && refuses_ask(bench, ask_of(5, 0, 0x00, 1), number)
           && refuses_ask(bench, ask_of(64, 2, 0x03, 4), number)
           && refuses_ask(bench, ask_of(5, 2, 0x03, 0), number);
}

/* 7, 8 and 9 come first, each over everything: here the last two records, of
   another bank, are at fault. */
static void session_map_refusals(void)
{
    Bench bench = wide_bench();
    bench.map[12 * 8 + 1] = 0x0A;
    expect(refuses_first(&bench, RECORD_ORDER), "session: 9, overlap by one");
    bench.map[12 * 8] = 8;
    expect(refuses_first(&bench, RECORD_ORDER), "session: 9, bank falls");
    bench.map[11 * 8 + 5] = 1;
    expect(refuses_first(&bench, RECORD_FIELDS), "session: 8 before 9");
    bench.map_len--;
    expect(refuses_first(&bench, MAP_LENGTH), "session: 7 before 8");
    bench = wide_bench();
    bench.map[5 * 8 + 1] = 0x06;
    expect(refuses_first(&bench, RECORD_ORDER), "9 at the value itself");
    bench = wide_bench();
    bench.map[4 * 8 + 3] = 3;
    expect(refuses_first(&bench, RECORD_FIELDS), "8 at the value itself");
    bench.map[4 * 8 + 4] = 0;
    expect(refuses_ask(&bench, ask_of(5, 2, 0x03, 4), NOT_WRITABLE),
           "made read-only, 16");
}

/* 10 and 11 are not tested: such a map still gets frames. */
static void session_unsound(void)
{
    static const uint32_t lock_byte[6] = {0xC13102, 0x0BFE15, 0x0BFE15,
                                          0xC50255, 0xC50201, 0xC502FF};
    static const uint32_t bank_0[7] = {0xC13100, 0x0BFE15, 0x0BFE15, 0xC50255,
                                       0xC50201, 0xC50302, 0xC502FF};
    const Ask ask = ask_of(5, 2, 3, 4);
    const Ask ask_lock = ask_of(5, 2, 2, 1);
    const Ask ask_bank_0 = ask_of(5, 0, 2, 2);
    Bench bench = wide_bench();
    Session made;
    bench.map[4 * 8 + 7] = 3;
    expect(check(&bench) == STORE_PLACES, "a map that breaks 10, shared");
    made = session(bench.map, bench.map_len, &ask);
    expect(session_by_record(&made, bench.map + 32, &ask), "gets frames");
    bench.map[4 * 8 + 6] = 0xFF;
    expect(check(&bench) == STORE_PLACES, "a map that breaks 10, outside");
    made = session(bench.map, bench.map_len, &ask);
    expect(session_by_record(&made, bench.map + 32, &ask), "gets frames too");
    made = session(sheet_map + 16, 8, &ask);
    expect(session_by_record(&made, sheet_map + 16, &ask),
           "no record at 0x00 or 0x02: the same frames");
    bench = wide_bench();
    bench.map[3 * 8 + 4] = 1;
    expect(check(&bench) == BANK_RULE, "a map that breaks 11, lock byte");
    made = session(bench.map, bench.map_len, &ask_lock);
    expect(session_is(&made, lock_byte, 6),
           "a lockable lock byte: the lockable byte alone decides");
    bench = wide_bench();
    bench.map[1 * 8 + 3] = 4;
    bench.map[1 * 8 + 4] = 1;
    expect(check(&bench) == BANK_RULE, "a map that breaks 11, bank 0");
    made = session(bench.map, bench.map_len, &ask_bank_0);
    expect(session_is(&made, bank_0, 7), "a lockable value in bank 0");
}

/* ---- sessions from reached states ---- */

/* Every writable value of a bench, with bytes that all differ from the stored
   ones, from so many clocks on. */
static unsigned sessions_unlike(const Bench *bench, const uint32_t *clocks,
                                size_t count)
{
    unsigned unlike = 0;
    for (size_t i = 0; i < bench->map_len; i += 8) {
        const uint8_t *record = bench->map + i;
        uint8_t bytes[8];
        for (size_t j = 0; j < record[2]; j++) {
            bytes[j] = (uint8_t)~bench->store[place_of(record) + j];
        }
        for (size_t j = 0; record_writable(record) && j < count; j++) {
            if (!session_holds(bench, record, bytes, clocks[j])) {
                unlike++;
            }
        }
    }
    return unlike;
}

/* Frames from the start of the wide bench on, and what they reach. */
typedef struct Reached {
    uint32_t waiting_frame;
    uint8_t write_enable;
    uint8_t staged;
    uint8_t latched;
    uint8_t lock_byte; /* of bank 2 */
    const char *what;
    uint32_t frames[12];
} Reached;

static bool is_reached(const Bench *bench, const Reached *reached)
{
    return bench->unit.waiting == (reached->waiting_frame != 0)
           && bench->unit.waiting_frame == reached->waiting_frame
           && bench->unit.write_enable == reached->write_enable
           && bench->unit.staged == reached->staged
           && bench->unit.latched == reached->latched
           && bench->store[4] == reached->lock_byte;
}

static const Reached reached_states[] = {
    {0, 0, 0, 0, 0xFF, "a start", {0}},
    {0x0BFE15, 0, 0, 0, 0xFF, "an ENABLE of that address waiting", {0x0BFE15}},
    {0xFFFE15, 0, 0, 0, 0xFF, "an ENABLE by broadcast waiting", {0xFFFE15}},
    {0x85FE15, 0, 0, 0, 0xFF, "an ENABLE by group waiting", {0x85FE15}},
    {0x0BFE15, 0, 0, 0, 0x55, "an ENABLE waiting, the bank unlocked",
     {0xC70202, 0xFFFE15, 0xFFFE15, 0xC12055, 0x0BFE15}},
    {0x0BFE11, 0, 0, 0, 0x55, "a RESET waiting, the bank unlocked",
     {0xC70202, 0xFFFE15, 0xFFFE15, 0xC12055, 0xC13000, 0x0BFE11}},
    {0x0BFE15, 0, 0, 0, 0xFF, "a third ENABLE waiting",
     {0x0BFE15, 0x0BFE15, 0x0BFE15}},
    {0, 1, 0, 0, 0xFF, "write-enable open", {0x0BFE15, 0x0BFE15}},
    {0, 1, 1, 0, 0xFF, "a byte of three staged",
     {0xC7020B, 0x0BFE15, 0x0BFE15, 0xC12011}},
    {0, 1, 3, 0, 0x55, "three bytes of four staged, the bank unlocked",
     {0xC70202, 0x0BFE15, 0x0BFE15, 0xC12055, 0xC12001, 0xC12002, 0xC12003}},
    {0, 1, 7, 0, 0xFF, "seven bytes of eight staged in the other bank",
     {0xC70902, 0x0BFE15, 0x0BFE15, 0xC12055, 0xC12001, 0xC12002, 0xC12003,
      0xC12004, 0xC12005, 0xC12006, 0xC12007}},
    {0, 1, 0, 0, 0x55, "an unlocked bank, open",
     {0xC70202, 0x0BFE15, 0x0BFE15, 0xC12055}},
    {0, 0, 0, 0, 0x55, "an unlocked bank, closed",
     {0xC70202, 0x0BFE15, 0x0BFE15, 0xC12055, 0x0BFE33}},
    {0, 0, 0, 0, 0x55, "an unlocked bank, closed while a byte was staged",
     {0xC70202, 0x0BFE15, 0x0BFE15, 0xC12055, 0xC12001, 0x0BFE30}},
    {0, 1, 0, 0, 0x54, "a lock byte 0x54",
     {0xC70202, 0x0BFE15, 0x0BFE15, 0xC12054}},
    {0, 0, 0, 1, 0xFF, "a latch held", {0xC70203, 0xFFFE3C}},
    {0x0BFE15, 0, 0, 1, 0xFF, "a latch held and an ENABLE waiting",
     {0xC70203, 0xFFFE3C, 0x0BFE15}},
    {0, 1, 2, 1, 0x55, "a latch held and two bytes of three staged",
     {0xC7020B, 0xFFFE3C, 0xC13002, 0x0BFE15, 0x0BFE15, 0xC12055, 0xC50B01,
      0xC12002}},
    {0, 1, 0, 0, 0xFF, "DTR1 at an unmapped bank, DTR0 0xFF",
     {0xC705FF, 0x0BFE15, 0x0BFE15}},
    {0, 1, 2, 0, 0x55, "a session cut inside its bytes",
     {0xC13102, 0x0BFE15, 0x0BFE15, 0xC50255, 0xC50301, 0xC50402}},
    {0, 1, 0, 0, 0x55, "a session cut before its last frame",
     {0xC13102, 0x0BFE15, 0x0BFE15, 0xC50255, 0xC50301, 0xC50402, 0xC50503,
      0xC50604}},
};

/* From each the same clocks: at and after its last frame, and so that the
   clock runs over before each frame of a session and between any two. */
static void session_states(void)
{
    for (size_t i = 0; i < sizeof reached_states / sizeof reached_states[0];
         i++) {
        const Reached *reached = &reached_states[i];
        Bench bench = wide_bench();
        char what[80];
        for (size_t j = 0; j < 12 && reached->frames[j] != 0; j++) {
            (void)step(&bench, reached->frames[j]);
        }
        uint32_t clocks[24] = {bench.clock,       bench.clock + 1,
                               bench.clock + 2,   bench.clock + 50,
                               bench.clock + 98,  bench.clock + 99,
                               bench.clock + 100, bench.clock + 101};
        for (uint32_t j = 0; j < 16; j++) {
            clocks[8 + j] = 0u - j;
        }
        (void)snprintf(what, sizeof what, "reached: %s", reached->what);
        expect(is_reached(&bench, reached), what);
        (void)snprintf(what, sizeof what, "sessions from %s", reached->what);
        expect(sessions_unlike(&bench, clocks, 24) == 0, what);
    }
}

/* An ENABLE that waits while the clock runs over. */
static void session_runs_over(void)
{
    unsigned unlike = 0;
    for (uint32_t i = 0; i < 16; i++) {
        Bench bench = wide_bench();
        const uint32_t clocks[3] = {0u - i, 1u - i, 99u - i};
        (void)step_at(&bench, 0x0BFE15, 0u - i);
        unlike += sessions_unlike(&bench, clocks, 3);
    }
    expect(unlike == 0, "an ENABLE waiting where the clock runs over");
}

/* ---- state and clock ---- */

static void start_calls(void)
{
    static const Unit zeros = {0};
    Bench bench = wide_bench();
    uint8_t before[64];
    expect(bench.store[4] == 0xFF && bench.store[18] == 0xFF,
           "start: lock bytes 0xFF");
    expect(bench.store[10] == 0x8A && bench.store[11] == 0x8B,
           "start: RAM-RW from the reset image");
    expect(bench.store[15] == 0x4F && bench.store[9] == 0x49,
           "start: other kinds stay");
    memcpy(before, bench.store, sizeof before);
    before[4] = bench.store[4] = 0x55;
    expect(start_bench(&bench, 64, 7) == FIELD_OUT_OF_RANGE, "start, 64: 6");
    expect(stores(&bench, 0, sizeof before, before), "refused start's store");
    expect(same_state(&bench.unit, &zeros),
           "a refused start's state is all zeros");
    expect(start_bench(&bench, 254, 7) == FIELD_OUT_OF_RANGE, "start, 254: 6");
    expect(start_bench(&bench, 0x105, 7) == FIELD_OUT_OF_RANGE,
           "start: an address is not cut");
    expect(start_bench(&bench, 255, 7) == 0, "start without an address");
    bench.store[0] = 0;
    expect(start_bench(&bench, 64, 7) == BANK_RULE, "start: 11 before 6");
}

static void power_on_calls(void)
{
    Bench bench = wide_bench();
    enable_at(&bench, 2, 2);
    (void)step(&bench, 0xC12055);
    (void)step(&bench, 0xC50811);
    (void)step(&bench, 0xC50922);
    (void)step(&bench, 0xC50733);
    (void)step(&bench, 0xC50344);
    expect(bench.unit.staged == 1, "one byte staged");
    expect(power_on(&bench) == 0, "a later power-on");
    expect(bench.unit.staged == 0 && bench.unit.write_enable == 0
               && bench.unit.dtr0 == 0 && bench.unit.dtr1 == 0,
           "power-on: nothing enabled or staged, DTRs 0");
    expect(bench.unit.address == 5 && bench.unit.groups == 0x00010004,
           "power-on keeps address and groups");
    expect(bench.store[4] == 0xFF && bench.store[10] == 0x8A,
           "power-on: lock byte 0xFF, RAM-RW from the reset image");
    expect(bench.store[9] == 0x33, "power-on: NVM-RW stays");
}

/* A state with one byte of its 96 changed gives 12 and stays. */
static bool breaks_a_rule(const Bench *bench, size_t index, uint8_t byte)
{
    Bench copy = *bench;
    uint8_t state[STATE_BYTES];
    uint8_t kept[STATE_BYTES];
    second_pack(&bench->unit, state);
    state[index] = byte;
    memcpy(kept, state, sizeof kept);
    uint32_t framed = second_frame_bytes(
        copy.map, copy.map_len, copy.store, copy.store_len, copy.image,
        copy.store_len, state, 0xFFFFFFFF, 0);
    uint32_t powered = second_power_on_bytes(
        copy.map, copy.map_len, copy.store, copy.store_len, copy.image,
        copy.store_len, state);
    return framed == STATE_RULE && powered == STATE_RULE
           && memcmp(state, kept, sizeof kept) == 0
           && memcmp(copy.store, bench->store, sizeof copy.store) == 0;
}

static void idle_state_rules(void)
{
    Bench bench = wide_bench();
    expect(breaks_a_rule(&bench, 0, 64), "address 64");
    expect(breaks_a_rule(&bench, 8, 2), "waiting flag 2");
    expect(breaks_a_rule(&bench, 8, 1), "waiting for frame 0");
    expect(breaks_a_rule(&bench, 12, 1), "frame, none waiting");
    expect(breaks_a_rule(&bench, 16, 1), "clock, none waiting");
    expect(breaks_a_rule(&bench, 17, 2), "write-enable flag 2");
    expect(breaks_a_rule(&bench, 18, 1), "staged while closed");
    expect(breaks_a_rule(&bench, 19, 2), "staged bank, none staged");
    expect(breaks_a_rule(&bench, 20, 3), "staged first, none staged");
    expect(breaks_a_rule(&bench, 28, 3), "staged byte, none staged");
    expect(breaks_a_rule(&bench, 29, 2), "latched flag 2");
    expect(breaks_a_rule(&bench, 29, 1), "latched value of width 1");
    expect(breaks_a_rule(&bench, 30, 2), "latched bank, none latched");
    expect(breaks_a_rule(&bench, 39, 2), "latched byte, none latched");
    expect(breaks_a_rule(&bench, 40, 1), "byte 40");
    expect(breaks_a_rule(&bench, 95, 1), "byte 95");
}

/* A waiting frame is a pair command for the unit: listed, and matched against
   the state's own address and groups. */
static void waiting_state_rules(void)
{
    Bench bench = wide_bench();
    (void)step(&bench, 0x0BFE15);
    expect(breaks_a_rule(&bench, 0, 6), "waiting for another address");
    expect(breaks_a_rule(&bench, 17, 1), "waiting while enabled");
    expect(breaks_a_rule(&bench, 12, 0x33), "waiting query");
    expect(breaks_a_rule(&bench, 12, 0x10), "waiting unlisted command");
    expect(breaks_a_rule(&bench, 11, 0xFF), "waiting instance command");
    expect(breaks_a_rule(&bench, 9, 1), "waiting frame too large");
    expect(breaks_a_rule(&bench, 10, 0x0A), "waiting event");
    bench = wide_bench();
    (void)step(&bench, 0x85FE15);
    expect(bench.unit.waiting == 1, "a group's command waits");
    expect(breaks_a_rule(&bench, 4, 0), "waiting for another group");
}

static void staged_state_rules(void)
{
    Bench bench = wide_bench();
    enable_at(&bench, 2, 2);
    (void)step(&bench, 0xC12055);
    (void)step(&bench, 0xC12011);
    (void)step(&bench, 0xC12022);
    expect(bench.unit.staged == 2, "two bytes staged");
    expect(breaks_a_rule(&bench, 17, 0), "staged while closed");
    expect(breaks_a_rule(&bench, 18, 4), "all of the value staged");
    expect(breaks_a_rule(&bench, 18, 255), "255 staged");
    expect(breaks_a_rule(&bench, 18, 1), "a byte past the staged ones");
    expect(breaks_a_rule(&bench, 19, 3), "staged bank not mapped");
    expect(breaks_a_rule(&bench, 20, 4), "staged inside a value");
    expect(breaks_a_rule(&bench, 20, 7), "staged value of width 1");
    expect(breaks_a_rule(&bench, 20, 16), "staged value not writable");
    bench.store[4] = 0x54;
    expect(step(&bench, 0xC12033) == STATE_RULE, "staged while locked");
    bench.store[4] = 0x55;
    expect(step(&bench, 0xC12033) == answered(0x33), "staged while unlocked");
}

static void latched_state_rules(void)
{
    Bench bench = wide_bench();
    (void)step(&bench, 0xC7020B);
    (void)step(&bench, 0xFFFE3C);
    expect(bench.unit.latched == 1, "a value is latched");
    expect(breaks_a_rule(&bench, 31, 12), "latched inside a value");
    expect(breaks_a_rule(&bench, 31, 7), "latched value of width 1");
    expect(breaks_a_rule(&bench, 30, 3), "latched bank not mapped");
    expect(breaks_a_rule(&bench, 35, 1), "a byte past the width");
    expect(breaks_a_rule(&bench, 29, 0), "latched bytes, none latched");
    bench.unit.latched_bytes[1] ^= 0xFF;
    expect(step(&bench, 0xFFFE3C) == answered((uint8_t)~0x4D),
           "latched bytes, whatever they are");
}

static void order_of_step(void)
{
    Bench bench = wide_bench();
    Unit before;
    expect(step(&bench, 0x1000000) == FRAME_TOO_LARGE, "step: 1");
    bench.unit.address = 64;
    expect(step(&bench, 0x1000000) == STATE_RULE, "step: 12 before 1");
    bench.store[0] = 0;
    before = bench.unit;
    expect(step(&bench, 0x1000000) == BANK_RULE, "step: 11 before 12");
    expect(power_on(&bench) == BANK_RULE, "power-on: 11 before 12");
    expect(same_state(&before, &bench.unit),
           "a refused call's state stays");
}

static void packed_states(void)
{
    Bench bench = wide_bench();
    uint8_t state[STATE_BYTES];
    uint8_t wanted[STATE_BYTES] = {5, 0, 1, 0, 4, 3, 2, 7, 0};
    uint8_t again[STATE_BYTES];
    Unit unit;
    wanted[17] = 1;
    wanted[18] = 1;
    wanted[19] = 2;
    wanted[20] = 11;
    wanted[21] = 0xEE;
    wanted[5] = 12;
    enable_at(&bench, 2, 11);
    (void)step(&bench, 0xC13207);
    (void)step(&bench, 0xC120EE);
    second_pack(&bench.unit, state);
    expect(memcmp(state, wanted, sizeof state) == 0, "a state as bytes");
    expect(second_unpack(state, &unit), "a state unpacks");
    second_pack(&unit, again);
    expect(memcmp(state, again, sizeof state) == 0, "bytes come back");
    (void)step_at(&bench, 0x0BFE15, 0x01020304);
    second_pack(&bench.unit, state);
    expect(memcmp(state + 8, "\x01\x00\x0B\xFE\x15\x01\x02\x03\x04\x00", 10)
               == 0,
           "a waiting frame as bytes");
}

/* ---- pairs ---- */

static void pairs_from_the_left(void)
{
    Bench bench = wide_bench();
    pair(&bench, 0x0BFE15);
    expect(bench.unit.write_enable == 1, "the ENABLE pair opens");
    (void)step(&bench, 0x0BFE15);
    expect(bench.unit.write_enable == 0 && bench.unit.waiting == 1,
           "third ENABLE waits and closes");
    (void)step(&bench, 0x0BFE15);
    expect(bench.unit.write_enable == 1 && bench.unit.waiting == 0,
           "fourth ENABLE opens");
    (void)step_at(&bench, 0x0BFE15, 5000);
    (void)step_at(&bench, 0x0BFE15, 5101);
    expect(bench.unit.write_enable == 0 && bench.unit.waiting_clock == 5101,
           "repeat after more than 100 waits with its own clock");
    (void)step_at(&bench, 0x0BFE15, 5201);
    expect(bench.unit.write_enable == 1, "and pairs with the next");
    bench = wide_bench();
    (void)step_at(&bench, 0x0BFE15, 200);
    (void)step_at(&bench, 0x0BFE15, 199);
    expect(bench.unit.write_enable == 0, "a clock going back is no pair");
}

/* A frame between two halves; true if they still are a pair. */
static bool pair_around(uint32_t between)
{
    Bench bench = wide_bench();
    (void)step(&bench, 0x0BFE15);
    (void)step(&bench, between);
    (void)step(&bench, 0x0BFE15);
    return bench.unit.write_enable == 1;
}

static void frames_between_halves(void)
{
    Bench bench = wide_bench();
    expect(pair_around(0x1000000), "a refused frame between two halves");
    expect(!pair_around(0x828805), "an event between two halves");
    expect(!pair_around(0xFEE000), "a power event between two halves");
    expect(!pair_around(0xFEE001), "a malformed power event between");
    expect(!pair_around(0xE1FE15), "a reserved address between");
    expect(!pair_around(0x0B4015), "a reserved instance between");
    expect(!pair_around(0xC08000), "a reserved event between");
    expect(!pair_around(0x0DFE15), "a foreign command between");
    expect(!pair_around(0xFFFE15), "another ENABLE between");
    expect(!pair_around(0x0BFE36), "a query between");
    expect(!pair_around(0xC13000), "DTR0 between");
    expect(!pair_around(0x0BFE10), "an unlisted command between");
    (void)step(&bench, 0x0BFE15);
    (void)power_on(&bench);
    (void)step(&bench, 0x0BFE15);
    expect(bench.unit.write_enable == 0, "a power-on between two halves");
}

/* ---- commands obeyed ---- */

/* A frame while enabled and staged; true if staging is still there. */
static bool staging_after(uint32_t frame)
{
    Bench bench = wide_bench();
    enable_at(&bench, 2, 11);
    (void)step(&bench, 0xC12001);
    (void)step(&bench, frame);
    return bench.unit.write_enable == 1 && bench.unit.staged == 1;
}

static void what_keeps_write_enable(void)
{
    static const uint32_t keep[] = {
        0xC13003, 0xC13102, 0xC13200, 0xC70200, 0xC90002, 0x0BFE36, 0x0BFE37,
        0x0BFE38, 0x828805, 0xE1FE15, 0x0DFE15, 0xFDFE15, 0xFEE001};
    static const uint32_t close[] = {
        0x0BFE11, 0x0BFE14, 0x0BFE15, 0x0BFE19, 0x0BFE1A, 0x0BFE1B, 0x0BFE1C,
        0x0BFE33, 0x0BFE3C, 0x0BFE41, 0x0BFE42, 0x0BFE43, 0x0BFE44, 0xFFFE33,
        0x85FE33, 0x0BFE10, 0xC13300, 0xCB0000, 0x0BFF15, 0x0B0015};
    for (size_t i = 0; i < sizeof keep / sizeof keep[0]; i++) {
        char what[40];
        (void)snprintf(what, sizeof what, "%06X keeps", (unsigned)keep[i]);
        expect(staging_after(keep[i]), what);
    }
    for (size_t i = 0; i < sizeof close / sizeof close[0]; i++) {
        char what[40];
        (void)snprintf(what, sizeof what, "%06X closes", (unsigned)close[i]);
        expect(!staging_after(close[i]), what);
    }
}

/* ---- any command closes the door ---- */

/* Write-enable open, a byte of three staged, a latch held, each DTR set. */
static Bench open_bench(void)
{
    Bench bench = wide_bench();
    (void)step(&bench, 0xC70203);
    (void)step(&bench, 0xFFFE3C);
    (void)step(&bench, 0xC13277);
    enable_at(&bench, 2, 11);
    (void)step(&bench, 0xC12001);
    return bench;
}

/* The same state but closed: closing drops staging. */
static Unit closed_unit(const Unit *open)
{
    Unit closed = *open;
    closed.write_enable = 0;
    closed.staged = 0;
    closed.staged_bank = 0;
    closed.staged_first = 0;
    memset(closed.staged_bytes, 0, sizeof closed.staged_bytes);
    return closed;
}

/* A frame without an answer that leaves the store and such a state. */
static bool leaves(const Bench *before, uint32_t frame, const Unit *unit)
{
    Bench bench = *before;
    return step(&bench, frame) == 0 && same_state(&bench.unit, unit)
           && stores(&bench, 0, sizeof bench.store, before->store);
}

/* A frame that clears the waiting one, and does nothing else but close, if it
   closes. */
static bool only_closes_or_leaves(uint32_t frame, bool closes)
{
    Bench open = open_bench();
    Unit closed = closed_unit(&open.unit);
    Bench waiting = open;
    (void)step(&waiting, 0x0BFE15);
    return leaves(&open, frame, closes ? &closed : &open.unit)
           && waiting.unit.waiting == 1 && leaves(&waiting, frame, &closed);
}

/* A command for the unit that closes write-enable and isn't obeyed. */
static bool only_closes(uint32_t frame)
{
    return only_closes_or_leaves(frame, true);
}

/* A frame that is no command for the unit. */
static bool leaves_open(uint32_t frame)
{
    return only_closes_or_leaves(frame, false);
}

/* Whether a frame leaves anything open: closed, nothing is staged either. */
static bool open_after(uint32_t frame)
{
    Bench bench = open_bench();
    (void)step(&bench, frame);
    return bench.unit.write_enable == 1 || bench.unit.staged != 0;
}

/* A frame, and what it is. */
typedef struct Named {
    uint32_t frame;
    const char *what;
} Named;

static const Named closing[] = {
    {0x0BFE30, "QUERY DEVICE STATUS"},
    {0x0BFE00, "IDENTIFY DEVICE"},
    {0x0BFE10, "RESET"},
    {0x0BFEFF, "an opcode that isn't defined"},
    {0x85FE30, "a device command by group"},
    {0xFFFE30, "a device command by broadcast"},
    {0x0B0036, "a command to an instance number"},
    {0x0B9F36, "a command to an instance group"},
    {0x0BC136, "a command to an instance type"},
    {0x0BFF36, "a command to all instances"},
    {0xFFFF80, "a command to all instances by broadcast"},
    {0x0B2036, "a command to a feature at a number"},
    {0x0BBF36, "a command to a feature at a group"},
    {0x0B6036, "a command to a feature at a type"},
    {0x0BF936, "a feature broadcast"},
    {0x0BFC36, "a command to a device feature"},
    {0x0BFD36, "a command to a feature at all instances"},
    {0x850036, "an instance command by group"},
    {0xFFFC36, "a feature command by broadcast"},
    {0xC10000, "special 0xC1 0x00"},
    {0xC10B00, "special 0xC1 0x0B"},
    {0xC12200, "special 0xC1 0x22"},
    {0xC13300, "special 0xC1 0x33"},
    {0xC1FE36, "special 0xC1 0xFE"},
    {0xC30000, "special 0xC3"},
    {0xC3FE36, "special 0xC3 with the bytes of QUERY CONTENT DTR0"},
    {0xCB2055, "special 0xCB with the bytes of a write"},
    {0xDFFFFF, "special 0xDF"},
};

static const Named not_closing[] = {
    {0xE1FE30, "a reserved address byte"},
    {0xFBFE10, "the last reserved address byte"},
    {0xF9FF36, "a reserved address byte, to instances"},
    {0x0B4030, "a reserved instance byte"},
    {0xFFFB36, "a reserved instance byte by broadcast"},
    {0x85F830, "a reserved instance byte by group"},
    {0x0A0D55, "an event by short address and type"},
    {0x0AFFFF, "an event by short address and number"},
    {0x8E1000, "an event by device group and type"},
    {0x828805, "an event by type and number"},
    {0xFE0001, "an event by instance group and type"},
    {0xC08000, "a reserved event"},
    {0xFEE000, "a power event"},
    {0xFEF1C5, "a power event of group 3, short 5"},
    {0xFEE001, "a malformed power event"},
    {0x0DFE30, "a device command for another address"},
    {0x83FE30, "a device command for another group"},
    {0x0DFE15, "an ENABLE for another address"},
    {0x0DFE36, "a QUERY CONTENT DTR0 for another address"},
    {0x0D0036, "an instance command for another address"},
    {0x0DFC36, "a feature command for another address"},
    {0xFDFE30, "broadcast unaddressed, to a unit with an address"},
    {0xFDFE36, "QUERY CONTENT DTR0 unaddressed, to such a unit"},
    {0xFDFF36, "an unaddressed instance command, to such a unit"},
};

/* A frame between the ENABLE pair and a write at once after it. True if the
   write isn't executed: no answer, DTR0 stays, the store as it was. */
static bool write_is_lost(uint32_t frame)
{
    Bench bench = wide_bench();
    enable_at(&bench, 2, 7);
    Bench before = bench;
    (void)step(&bench, frame);
    return step(&bench, 0xC12099) == 0 && step(&bench, 0xC12199) == 0
           && step(&bench, 0xC50799) == 0 && bench.unit.dtr0 == 7
           && stores(&bench, 0, sizeof bench.store, before.store);
}

/* The same with a DIRECT WRITE; true if it is executed. */
static bool write_goes_on(uint32_t frame)
{
    Bench bench = wide_bench();
    enable_at(&bench, 2, 7);
    (void)step(&bench, frame);
    return step(&bench, 0xC50799) == answered(0x99) && bench.unit.dtr0 == 8
           && bench.store[9] == 0x99;
}

/* Something that holds for each frame of a list. */
static void expect_each(const Named *list, size_t count,
                        bool (*holds)(uint32_t frame), const char *said)
{
    for (size_t i = 0; i < count; i++) {
        expect_of(holds(list[i].frame), said, list[i].what);
    }
}

static void commands_that_close(void)
{
    static const uint8_t pairs[7] = {0x11, 0x14, 0x15, 0x19, 0x1A, 0x1B, 0x1C};
    static const uint8_t queries[5] = {0x33, 0x41, 0x42, 0x43, 0x44};
    unsigned unlike = 0;
    const size_t count = sizeof closing / sizeof closing[0];
    expect_each(closing, count, only_closes, "closes and no more:");
    expect_each(closing, count, write_is_lost, "a write lost after");
    for (size_t i = 0; i < 7; i++) {
        unlike += write_is_lost(0x0BFE00u | pairs[i]) ? 0 : 1;
    }
    expect(unlike == 0, "a write lost after a lone first half");
    for (size_t i = 0; i < 5; i++) {
        unlike += write_is_lost(0x0BFE00u | queries[i]) ? 0 : 1;
    }
    expect(unlike == 0, "a write lost after a query");
    expect(!open_after(0x0BFE3C), "READ MEMORY LOCATION closes");
    expect(!write_goes_on(0x0BFE3C), "a write lost after it");
}

/* The three writes, the five DTR commands, QUERY CONTENT DTR0..2. */
static void eleven_that_keep(void)
{
    static const uint32_t eleven[11] = {
        0xC12011, 0xC12111, 0xC50711, 0xC13007, 0xC13102, 0xC13255,
        0xC70207, 0xC95502, 0x0BFE36, 0x0BFE37, 0x0BFE38};
    for (size_t i = 0; i < 11; i++) {
        char what[40];
        (void)snprintf(what, sizeof what, "%06X keeps, a write goes on",
                       (unsigned)eleven[i]);
        expect(open_after(eleven[i]) && write_goes_on(eleven[i]), what);
    }
    expect(write_goes_on(0x85FE36) && write_goes_on(0xFFFE37),
           "QUERY CONTENT keeps by group and by broadcast");
}

static void frames_that_leave_it_open(void)
{
    Bench bench = open_bench();
    Unit open = bench.unit;
    const size_t count = sizeof not_closing / sizeof not_closing[0];
    expect_each(not_closing, count, leaves_open,
                "leaves all but a waiting frame:");
    expect_each(not_closing, count, write_goes_on, "a write goes on after");
    expect(step(&bench, 0x1000000) == FRAME_TOO_LARGE
               && same_state(&bench.unit, &open),
           "a refused frame leaves it open");
}

/* Broadcast unaddressed to a unit without an address is for the unit. */
static void unaddressed_units(void)
{
    static const uint32_t frames[4] = {0xFDFE30, 0xFDFF36, 0xFDFC36, 0xFDFE33};
    unsigned unlike = 0;
    for (size_t i = 0; i < 4; i++) {
        Bench bench = wide_bench();
        (void)start_bench(&bench, 255, 0);
        enable_at(&bench, 2, 7);
        (void)step(&bench, frames[i]);
        if (bench.unit.write_enable != 0 || step(&bench, 0xC12099) != 0) {
            unlike++;
        }
    }
    expect(unlike == 0, "unaddressed, to a unit without an address: closes");
    Bench bench = wide_bench();
    (void)start_bench(&bench, 255, 0);
    enable_at(&bench, 2, 7);
    expect(step(&bench, 0xFDFE36) == answered(7)
               && step(&bench, 0xC12099) == answered(0x99),
           "QUERY CONTENT DTR0 unaddressed to such a unit keeps");
    enable_at(&bench, 2, 7);
    (void)step(&bench, 0x0BFE30);
    expect(step(&bench, 0xC12088) == answered(0x88),
           "a command by short address leaves a unit without one open");
}

/* A command that 000 wants twice: three of it do what one does; an ENABLE
   before it is cleared, and one after it needs its own two halves. */
static bool never_waits(uint32_t frame)
{
    Bench bench = open_bench();
    Unit closed = closed_unit(&bench.unit);
    bool holds = true;
    for (unsigned i = 0; i < 3; i++) {
        holds = leaves(&bench, frame, &closed) && holds;
        (void)step(&bench, frame);
    }
    (void)step(&bench, 0x0BFE15);
    holds = holds && bench.unit.write_enable == 0 && bench.unit.waiting == 1
            && leaves(&bench, frame, &closed);
    (void)step(&bench, frame);
    (void)step(&bench, 0x0BFE15);
    holds = holds && bench.unit.write_enable == 0 && bench.unit.waiting == 1;
    (void)step(&bench, 0x0BFE15);
    return holds && bench.unit.write_enable == 1 && bench.unit.waiting == 0;
}

static void unlisted_twice(void)
{
    static const Named twice[] = {
        {0x0BFE00, "IDENTIFY DEVICE"},
        {0x0BFE01, "RESET POWER CYCLE SEEN"},
        {0x0BFE10, "RESET"},
        {0x0BFE16, "ENABLE APPLICATION CONTROLLER"},
        {0x0BFE1D, "START QUIESCENT MODE"},
        {0x0B0062, "an instance configuration"},
        {0x0BFF15, "ENABLE WRITE MEMORY at all instances"},
        {0xC1FE15, "special 0xC1 with the bytes of ENABLE"},
    };
    for (size_t i = 0; i < sizeof twice / sizeof twice[0]; i++) {
        char what[80];
        (void)snprintf(what, sizeof what, "closes and never waits: %s",
                       twice[i].what);
        expect(never_waits(twice[i].frame), what);
    }
}

/* All 256 opcodes with instance byte 0xFE to the short address: three keep,
   13 close and are obeyed, the others only close. */
static void every_opcode(void)
{
    static const uint8_t obeyed[13] = {0x11, 0x14, 0x15, 0x19, 0x1A,
                                       0x1B, 0x1C, 0x33, 0x3C, 0x41,
                                       0x42, 0x43, 0x44};
    unsigned kept = 0;
    unsigned closed = 0;
    unsigned unlike = 0;
    for (unsigned opcode = 0; opcode < 256; opcode++) {
        uint32_t frame = 0x0BFE00u | opcode;
        bool keeps = opcode >= 0x36 && opcode <= 0x38;
        unlike += open_after(frame) == keeps ? 0 : 1;
        kept += keeps ? 1 : 0;
        if (!keeps && memchr(obeyed, (int)opcode, sizeof obeyed) == NULL) {
            unlike += only_closes(frame) ? 0 : 1;
            closed++;
        }
    }
    expect(unlike == 0, "every opcode to the device");
    expect(kept == 3 && closed == 240, "of them three keep, 240 only close");
}

static bool instance_reserved(unsigned byte)
{
    return (byte >= 0x40 && byte <= 0x5F) || (byte >= 0xE0 && byte <= 0xF8)
           || byte == 0xFA || byte == 0xFB;
}

/* All 256 instance bytes with the opcode of QUERY CONTENT DTR0: 0xFE keeps,
   the reserved ones leave it, the others close. */
static void every_instance_byte(void)
{
    Bench open = open_bench();
    Unit before = open.unit;
    unsigned left = 0;
    unsigned unlike = 0;
    for (unsigned byte = 0; byte < 256; byte++) {
        uint32_t frame = 0x0B0036u | byte << 8;
        bool reserved = instance_reserved(byte);
        left += reserved ? 1 : 0;
        if (byte != 0xFE) {
            unlike += only_closes_or_leaves(frame, !reserved) ? 0 : 1;
        }
    }
    expect(unlike == 0, "every instance byte");
    expect(left == 59, "of them 59 reserved ones leave it");
    expect(step(&open, 0x0BFE36) == answered(12)
               && same_state(&open.unit, &before),
           "0xFE answers and leaves all");
}

/* All 256 address bytes with QUERY DEVICE STATUS. Even ones are events; 0xC5
   is a write here, 0xC7 and 0xC9 set DTRs. */
static void every_address_byte(void)
{
    unsigned closed = 0;
    unsigned unlike = 0;
    for (unsigned byte = 0; byte < 256; byte++) {
        uint32_t frame = byte << 16 | 0xFE30u;
        bool keeps = byte == 0xC5 || byte == 0xC7 || byte == 0xC9;
        bool special = (byte & 0xE1) == 0xC1;
        bool closes = !keeps
                      && (special || byte == 0x0B || byte == 0x85
                          || byte == 0xA1 || byte == 0xFF);
        closed += closes ? 1 : 0;
        unlike += open_after(frame) == !closes ? 0 : 1;
        if (!keeps) {
            unlike += only_closes_or_leaves(frame, closes) ? 0 : 1;
        }
    }
    expect(unlike == 0, "every address byte");
    expect(closed == 17, "of them 13 special ones and four others close");
}

/* All 16 special address bytes with all 256 first bytes: eight of the eleven
   are among them. */
static void every_special(void)
{
    static const uint8_t with_c1[5] = {0x20, 0x21, 0x30, 0x31, 0x32};
    unsigned kept = 0;
    unsigned unlike = 0;
    for (unsigned i = 0; i < 16 * 256; i++) {
        unsigned byte = 0xC1 + i / 256 * 2;
        uint32_t frame = byte << 16 | i % 256 << 8 | 0x36u;
        bool keeps = byte == 0xC5 || byte == 0xC7 || byte == 0xC9
                     || (byte == 0xC1
                         && memchr(with_c1, (int)(i % 256), 5) != NULL);
        kept += keeps ? 1 : 0;
        unlike += open_after(frame) == keeps ? 0 : 1;
        if (!keeps) {
            unlike += only_closes(frame) ? 0 : 1;
        }
    }
    expect(unlike == 0, "every special command");
    expect(kept == 5 + 3 * 256, "of them 773 keep");
}

/* A writing of a value of some width with a frame before one of its bytes, or
   after the last. True if the value is stored whole. */
static bool whole_around(uint8_t width, uint8_t place, uint32_t frame)
{
    Bench bench = sheet_with_value(width, 4, 1);
    (void)start_bench(&bench, 5, 0x00010004);
    enable_at(&bench, 2, 2);
    (void)step(&bench, 0xC12055);
    for (uint8_t i = 0; i <= width; i++) {
        if (i == place) {
            (void)step(&bench, frame);
        }
        if (i < width) {
            (void)step(&bench, 0xC120A0u + i);
        }
    }
    return stores(&bench, 2, width,
                  (const uint8_t *)"\xA0\xA1\xA2\xA3\xA4\xA5\xA6\xA7");
}

/* Before how many of the 36 bytes of eight values, one of each width, a frame
   leaves the writing whole. */
static unsigned left_whole(uint32_t frame)
{
    unsigned count = 0;
    for (uint8_t width = 1; width <= 8; width++) {
        for (uint8_t place = 0; place < width; place++) {
            count += whole_around(width, place, frame) ? 1 : 0;
        }
    }
    return count;
}

/* Closing cuts a writing at each of its places but the end. */
static void writings_cut(void)
{
    unsigned unlike = 0;
    for (size_t i = 0; i < sizeof closing / sizeof closing[0]; i++) {
        bool whole = whole_around(8, 8, closing[i].frame);
        unlike += left_whole(closing[i].frame) == 0 && whole ? 0 : 1;
    }
    expect(unlike == 0, "each closing frame cuts a writing at each place");
    for (size_t i = 0; i < sizeof not_closing / sizeof not_closing[0]; i++) {
        unlike += left_whole(not_closing[i].frame) == 36 ? 0 : 1;
    }
    expect(unlike == 0, "each other frame leaves it whole at each place");
}

/* After the last byte the value is stored, but its bank isn't locked again. */
static void closed_after_the_last(void)
{
    Bench bench = sheet_bench();
    enable_at(&bench, 2, 2);
    (void)step(&bench, 0xC12055);
    for (uint32_t i = 0; i < 4; i++) {
        (void)step(&bench, 0xC120A0u + i);
    }
    (void)step(&bench, 0x0BFE30);
    expect(step(&bench, 0xC502FF) == 0 && bench.unit.dtr0 == 7
               && stores(&bench, 1, 5,
                         (const uint8_t *)"\x55\xA0\xA1\xA2\xA3"),
           "closed after the last byte: the value whole, the lock byte 0x55");
    (void)step(&bench, 0xC13003);
    pair(&bench, 0xFFFE15);
    (void)step(&bench, 0xC120B0);
    (void)step(&bench, 0x0BFE30);
    pair(&bench, 0xFFFE15);
    expect(step(&bench, 0xC120B1) == 0 && bench.unit.staged == 0,
           "opened again: what was staged before is gone");
}

/* ---- writes, reads, resets ---- */

static void writes_not_executed(void)
{
    Bench bench = wide_bench();
    (void)step(&bench, 0xC70207);
    expect(step(&bench, 0xC12011) == 0 && bench.unit.dtr0 == 7,
           "write while not enabled: DTR0 stays");
    expect(step(&bench, 0xC50811) == 0 && bench.unit.dtr0 == 7,
           "DIRECT WRITE while not enabled: DTR0 stays");
    enable_at(&bench, 2, 11);
    (void)step(&bench, 0xC12001);
    (void)step(&bench, 0xC13105);
    expect(step(&bench, 0xC12002) == 0 && bench.unit.dtr0 == 12,
           "write in an unmapped bank: DTR0 stays");
    expect(step(&bench, 0xC50002) == 0 && bench.unit.dtr0 == 12,
           "DIRECT WRITE in an unmapped bank: DTR0 stays");
    expect(bench.unit.staged == 1, "and staging stays");
    (void)step(&bench, 0xC13102);
    (void)step(&bench, 0xC12002);
    expect(step(&bench, 0xC12003) == answered(3)
               && stores(&bench, 12, 3, (const uint8_t *)"\1\2\3"),
           "and the writing goes on");
}

/* Executed write at a place that takes no byte. */
static void untaken_write(uint8_t location, const char *what)
{
    Bench bench = wide_bench();
    Bench before;
    enable_at(&bench, 2, 11);
    (void)step(&bench, 0xC12001);
    (void)step(&bench, 0xC13000u | location);
    before = bench;
    expect(step(&bench, 0xC12099) == 0 && bench.unit.staged == 0
               && bench.unit.dtr0 == (location == 0xFF ? 0xFF : location + 1)
               && stores(&bench, 0, sizeof bench.store, before.store),
           what);
}

static void writes_not_taken(void)
{
    untaken_write(0x0A, "write at an unmapped location");
    untaken_write(0x00, "write at a read-only location");
    untaken_write(0x10, "write at a RAM-RO value");
    untaken_write(0x03, "write at a locked value");
    untaken_write(0x09, "middle byte without staging");
    untaken_write(0x0D, "a byte after the next one");
    untaken_write(0xFF, "write at 0xFF leaves DTR0");
}

static void staging_again(void)
{
    Bench bench = wide_bench();
    enable_at(&bench, 2, 11);
    (void)step(&bench, 0xC12001);
    (void)step(&bench, 0xC12002);
    expect(step(&bench, 0xC50B05) == answered(5) && bench.unit.staged == 1
               && bench.unit.staged_bytes[0] == 5
               && bench.unit.staged_bytes[1] == 0,
           "first byte again: begun anew");
    (void)step(&bench, 0xC12006);
    expect(stores(&bench, 12, 3, (const uint8_t *)"\x4C\x4D\x4E"),
           "no byte is stored before the last");
    expect(step(&bench, 0xC12107) == 0, "the no-reply form has no answer");
    expect(stores(&bench, 12, 3, (const uint8_t *)"\5\6\7"),
           "a last byte puts the whole value in the store");
    expect(step(&bench, 0xC50708) == answered(8) && bench.store[9] == 8,
           "values of width 1 store at once");
    (void)step(&bench, 0xC50B01);
    (void)step(&bench, 0xC50709);
    expect(bench.unit.staged == 0, "another executed write drops staging");
}

/* The lock byte where the value is lockable, at each byte. */
static void locks(void)
{
    Bench bench = wide_bench();
    enable_at(&bench, 2, 2);
    expect(step(&bench, 0xC12054) == answered(0x54), "the lock byte is taken");
    expect(step(&bench, 0xC12001) == 0, "0x54 does not unlock");
    (void)step(&bench, 0xC50255);
    (void)step(&bench, 0xC12001);
    (void)step(&bench, 0xC12002);
    (void)step(&bench, 0xC50200);
    expect(step(&bench, 0xC50503) == 0 && step(&bench, 0xC12004) == 0,
           "locking in between ends the writing");
    (void)step(&bench, 0xC50255);
    expect(step(&bench, 0xC50604) == 0, "unlocking before the last byte only");
    expect(stores(&bench, 5, 4, (const uint8_t *)"\x45\x46\x47\x48"),
           "the value stays");
    (void)step(&bench, 0xC13109);
    expect(step(&bench, 0xC50301) == 0, "each bank has its own lock byte");
}

/* The same location of another bank is another value. */
static void banks_apart(void)
{
    Bench bench = wide_bench();
    enable_at(&bench, 9, 2);
    (void)step(&bench, 0xC12055);
    (void)step(&bench, 0xC13102);
    (void)step(&bench, 0xC50255);
    (void)step(&bench, 0xC12001);
    expect(bench.unit.staged == 1, "a byte of bank 2 is staged");
    (void)step(&bench, 0xC13109);
    expect(step(&bench, 0xC12002) == 0 && bench.unit.staged == 0,
           "the next byte in bank 9 is not the next one staged");
    (void)step(&bench, 0xC70203);
    (void)step(&bench, 0xFFFE3C);
    (void)step(&bench, 0xC13109);
    expect(step(&bench, 0xFFFE3C) == answered(0x54),
           "a later byte in bank 9 is not from bank 2's latch");
    (void)step(&bench, 0xC13102);
    expect(step(&bench, 0xFFFE3C) == answered(0x47) && bench.unit.latched == 1,
           "and bank 2's latch is still there");
    (void)power_on(&bench);
    expect(bench.unit.latched == 0, "power-on: nothing latched");
}

/* A value of each width 1..8, whole and one byte short. */
static void every_width(void)
{
    for (uint8_t width = 1; width <= 8; width++) {
        Bench bench = sheet_bench();
        char what[40];
        bench.map[18] = width;
        bench.store_len = 10;
        bench.store[0] = 10;
        (void)start_bench(&bench, 5, 0);
        enable_at(&bench, 2, 2);
        (void)step(&bench, 0xC12055);
        for (uint8_t i = 0; i + 1 < width; i++) {
            (void)step(&bench, 0xC120A0u + i);
        }
        (void)snprintf(what, sizeof what, "width %u, one short", width);
        expect(width == 1 || bench.store[2] == 0, what);
        (void)step(&bench, 0xC1209Fu + width);
        (void)snprintf(what, sizeof what, "width %u, whole", width);
        expect(stores(&bench, 2, width,
                      (const uint8_t *)"\xA0\xA1\xA2\xA3\xA4\xA5\xA6\xA7"),
               what);
    }
}

static void reads(void)
{
    Bench bench = wide_bench();
    (void)step(&bench, 0xC70305);
    expect(step(&bench, 0xFFFE3C) == 0 && bench.unit.dtr0 == 5,
           "read in an unmapped bank: DTR0 stays");
    (void)step(&bench, 0xC702FF);
    expect(step(&bench, 0xFFFE3C) == 0 && bench.unit.dtr0 == 0xFF,
           "read at 0xFF leaves DTR0");
    (void)step(&bench, 0xC7020A);
    expect(step(&bench, 0xFFFE3C) == 0 && bench.unit.dtr0 == 11,
           "read at an unmapped location: DTR0 rises");
    expect(step(&bench, 0xFFFE3C) == answered(0x4C), "a first byte");
    bench.store[13] = 0xEE;
    expect(step(&bench, 0xFFFE3C) == answered(0x4D), "from the latch");
    (void)step(&bench, 0xC13009);
    expect(step(&bench, 0xFFFE3C) == answered(0x8B), "a later byte elsewhere");
    (void)step(&bench, 0xC1300E);
    (void)step(&bench, 0xFFFE3C);
    (void)step(&bench, 0xC1300C);
    expect(step(&bench, 0xFFFE3C) == answered(0x4D), "leaves the latch");
    (void)step(&bench, 0xC13007);
    expect(step(&bench, 0xFFFE3C) == answered(0x49), "a single byte");
    expect(bench.unit.latched == 0, "ends the latch");
    (void)step(&bench, 0xC1300C);
    expect(step(&bench, 0xFFFE3C) == answered(0xEE), "then from the store");
}

/* Writes and resets don't touch the latch. */
static void latch_and_writes(void)
{
    Bench bench = wide_bench();
    (void)step(&bench, 0xC7020B);
    (void)step(&bench, 0xFFFE3C);
    enable_at(&bench, 2, 2);
    (void)step(&bench, 0xC12055);
    (void)step(&bench, 0xC50B01);
    (void)step(&bench, 0xC12002);
    (void)step(&bench, 0xC12003);
    (void)step(&bench, 0xC1300C);
    expect(step(&bench, 0xFFFE3C) == answered(0x4D), "a write leaves it");
    (void)step(&bench, 0xC13002);
    pair(&bench, 0xFFFE11);
    expect(bench.store[12] == 0x8C && bench.store[4] == 0xFF, "a reset acts");
    (void)step(&bench, 0xC1300D);
    expect(step(&bench, 0xFFFE3C) == answered(0x4E), "and leaves it");
    expect(bench.unit.latched == 1, "it stays after its last byte");
}

/* Unlocks banks 2 and 9 as told, then RESET MEMORY BANK with DTR0. */
static Bench reset_with(bool unlock_2, bool unlock_9, uint8_t dtr0)
{
    Bench bench = wide_bench();
    enable_at(&bench, 2, 7);
    (void)step(&bench, 0xC12077);
    (void)step(&bench, unlock_2 ? 0xC50255u : 0xC50256u);
    (void)step(&bench, 0xC13109);
    (void)step(&bench, unlock_9 ? 0xC50255u : 0xC50256u);
    (void)step(&bench, 0xC13000u | dtr0);
    pair(&bench, 0xFFFE11);
    return bench;
}

static void resets(void)
{
    Bench bench = reset_with(true, true, 0);
    expect(bench.store[9] == 0x89 && bench.store[19] == 0x93
               && bench.store[4] == 0xFF && bench.store[18] == 0xFF,
           "DTR0=0 means each mapped bank");
    expect(bench.store[3] == 0x11 && bench.store[15] == 0x4F
               && bench.store[0] == 0x03 && bench.store[1] == 0x41,
           "only writable values");
    bench = reset_with(true, true, 9);
    expect(bench.store[9] == 0x77 && bench.store[4] == 0x55
               && bench.store[19] == 0x93 && bench.store[27] == 0x9B,
           "else bank DTR0");
    bench = reset_with(false, true, 0);
    expect(bench.store[9] == 0x77 && bench.store[4] == 0x56
               && bench.store[19] == 0x93,
           "only a bank whose lock byte is 0x55");
    bench = reset_with(true, true, 200);
    expect(bench.store[9] == 0x77 && bench.store[19] == 0x53,
           "an unmapped bank");
}

static void addresses(void)
{
    Bench bench = wide_bench();
    (void)step(&bench, 0xC13040);
    pair(&bench, 0x0BFE14);
    expect(bench.unit.address == 5, "SET SHORT ADDRESS 0x40 does nothing");
    (void)step(&bench, 0xC1303F);
    pair(&bench, 0x0BFE14);
    expect(bench.unit.address == 63, "SET SHORT ADDRESS 63");
    expect(step(&bench, 0x0BFE36) == 0, "the old address is foreign");
    expect(step(&bench, 0x7FFE36) == answered(63), "the new one is not");
    expect(step(&bench, 0xFFFE33) == 0, "QUERY MISSING: none");
    expect(step(&bench, 0xFDFE36) == 0, "unaddressed, address 63");
    (void)step(&bench, 0xC130FF);
    pair(&bench, 0x7FFE14);
    expect(bench.unit.address == 255, "SET SHORT ADDRESS 255");
    expect(step(&bench, 0xFDFE33) == answered(0xFF), "QUERY MISSING: 0xFF");
}

static void groups(void)
{
    Bench bench = wide_bench();
    (void)step(&bench, 0xC9A1B2);
    pair(&bench, 0xFFFE19);
    expect(bench.unit.groups == 0x0001A1B6, "ADD 0-15: DTR2 high, DTR1 low");
    pair(&bench, 0xFFFE1A);
    expect(bench.unit.groups == 0xA1B3A1B6, "ADD 16-31");
    expect(step(&bench, 0xFFFE41) == answered(0xB6), "low byte first");
    expect(step(&bench, 0xFFFE42) == answered(0xA1), "groups 8-15");
    expect(step(&bench, 0xFFFE43) == answered(0xB3), "groups 16-23");
    expect(step(&bench, 0xFFFE44) == answered(0xA1), "groups 24-31");
    expect(step(&bench, 0xBFFE37) == answered(0xB2), "a member of group 31");
    expect(step(&bench, 0xBDFE37) == 0, "no member of group 30");
    pair(&bench, 0xFFFE1B);
    expect(bench.unit.groups == 0xA1B30004, "REMOVE 0-15");
    pair(&bench, 0xFFFE1C);
    expect(bench.unit.groups == 0x00010004, "REMOVE 16-31");
    pair(&bench, 0xFFFE1C);
    expect(bench.unit.groups == 0x00010004, "REMOVE from where it is not");
}

static void registers(void)
{
    Bench bench = wide_bench();
    (void)step(&bench, 0xC71122);
    expect(bench.unit.dtr1 == 0x11 && bench.unit.dtr0 == 0x22,
           "0xC7 DTR1 then DTR0");
    (void)step(&bench, 0xC93344);
    expect(bench.unit.dtr2 == 0x33 && bench.unit.dtr1 == 0x44,
           "0xC9 DTR2 then DTR1");
    expect(step(&bench, 0x0BFE36) == answered(0x22), "QUERY CONTENT DTR0");
    expect(step(&bench, 0x0BFE37) == answered(0x44), "QUERY CONTENT DTR1");
    expect(step(&bench, 0x0BFE38) == answered(0x33), "QUERY CONTENT DTR2");
    expect(step(&bench, 0x0BFF36) == 0, "an instance command is not obeyed");
    expect(step(&bench, 0x0BFE34) == 0, "an unlisted one is not obeyed");
}

/* ---- the trace program's files and records ---- */

static Files sheet_files(void)
{
    Files files = {0};
    memcpy(files.map, sheet_map, sizeof sheet_map);
    memcpy(files.store, sheet_store, sizeof sheet_store);
    memcpy(files.image, sheet_image, sizeof sheet_image);
    files.map_len = sizeof sheet_map;
    files.store_len = sizeof sheet_store;
    files.image_len = sizeof sheet_image;
    files.adr[0] = 5;
    files.adr[1] = 0x80;
    files.adr[4] = 1;
    files.adr_len = ADR_BYTES;
    return files;
}

static void trace_files(void)
{
    Files files = sheet_files();
    Unit unit;
    expect(start_from_files(&files, &unit) == 0 && unit.address == 5
               && unit.groups == 0x80000001u,
           "address, then 32 group bits, high byte first");
    files.adr_len = 4;
    expect(start_from_files(&files, &unit) == FIELD_OUT_OF_RANGE, "adr of 4");
    files.adr_len = 6;
    expect(start_from_files(&files, &unit) == FIELD_OUT_OF_RANGE, "adr of 6");
    files.store[0] = 5;
    expect(start_from_files(&files, &unit) == BANK_RULE, "11 before the 6");
    files.map_len = MAP_LIMIT + 1;
    expect(start_from_files(&files, &unit) == MAP_LENGTH, "map of 513");
}

/* The kinds of the records that some bytes are read as. */
static TraceRecord record_of(const uint8_t *bytes, size_t count)
{
    TraceRecord record = {NO_RECORD, 0, 0};
    FILE *file = tmpfile();
    if (file != NULL && fwrite(bytes, 1, count, file) == count) {
        rewind(file);
        record = read_record(file);
    }
    if (file != NULL) {
        (void)fclose(file);
    }
    return record;
}

static void trace_records(void)
{
    static const uint8_t frame[8] = {1, 2, 3, 4, 0, 0x0B, 0xFE, 0x15};
    static const uint8_t power[8] = {1, 2, 3, 4, 1, 0x0B, 0xFE, 0x15};
    static const uint8_t other[8] = {1, 2, 3, 4, 2, 0x0B, 0xFE, 0x15};
    Files files = sheet_files();
    Unit unit;
    TraceRecord record = record_of(frame, 8);
    expect(record.kind == FRAME_RECORD && record.clock == 0x01020304
               && record.frame == 0x0BFE15,
           "a frame record");
    record = record_of(power, 8);
    (void)start_from_files(&files, &unit);
    expect(record.kind == POWER_ON_RECORD
               && obey_record(&files, &unit, &record) == 0,
           "a power-on record");
    record = record_of(other, 8);
    expect(record.kind == BAD_RECORD
               && obey_record(&files, &unit, &record) == TRACE_RECORD,
           "a record of unknown kind");
    expect(record_of(frame, 7).kind == BAD_RECORD, "an unfinished record");
    expect(record_of(frame, 1).kind == BAD_RECORD, "one byte of a record");
    expect(record_of(frame, 0).kind == NO_RECORD, "the end of the input");
}

/* A frame's record written, then read. */
static void written_records(void)
{
    static const uint8_t wanted[16] = {1,    2,    3,    4,    0,    0x0B,
                                       0xFE, 0x15, 0xFF, 0xFE, 0xFD, 0xFC,
                                       0,    0xC5, 0x02, 0xFF};
    uint8_t bytes[17] = {0};
    size_t count = 0;
    FILE *file = tmpfile();
    if (file != NULL) {
        write_frame(file, 0x01020304, 0x0BFE15);
        write_frame(file, 0xFFFEFDFC, 0xC502FF);
        rewind(file);
        count = fread(bytes, 1, sizeof bytes, file);
        (void)fclose(file);
    }
    expect(count == 16 && memcmp(bytes, wanted, 16) == 0,
           "clock (4, high first), kind 0, frame (3)");
    TraceRecord record = record_of(bytes + 8, 8);
    expect(record.kind == FRAME_RECORD && record.clock == 0xFFFEFDFC
               && record.frame == 0xC502FF,
           "a written record reads back");
}

/* ---- any input ---- */

static uint64_t random_state = 1;

static uint32_t any_number(void)
{
    random_state = random_state * UINT64_C(6364136223846793005)
                   + UINT64_C(1442695040888963407);
    return (uint32_t)(random_state >> 32);
}

/* The bytes of a bench in places of exactly their length, so that a read
   outside is seen; NULL where the length is 0. */
static uint8_t *exact_copy(const uint8_t *bytes, size_t count)
{
    uint8_t *copy = count == 0 ? NULL : malloc(count);
    if (copy != NULL) {
        memcpy(copy, bytes, count);
    }
    return copy;
}

/* A bench with a few bytes of map, store, lengths and state changed. */
static Bench changed_bench(uint8_t state[STATE_BYTES])
{
    Bench bench = any_number() % 2 == 0 ? wide_bench() : sheet_bench();
    second_pack(&bench.unit, state);
    for (uint32_t i = any_number() % 3; i > 0; i--) {
        state[any_number() % 40] = (uint8_t)(any_number() % 32);
    }
    if (any_number() % 4 == 0) {
        bench.map[any_number() % bench.map_len] = (uint8_t)any_number();
    }
    if (any_number() % 4 == 0) {
        bench.store[any_number() % bench.store_len] = (uint8_t)any_number();
    }
    if (any_number() % 8 == 0) {
        bench.map_len = any_number() % (bench.map_len + 1);
    }
    if (any_number() % 8 == 0) {
        bench.store_len = any_number() % (bench.store_len + 1);
    }
    return bench;
}

/* What a list of frames is run over. */
typedef struct Places {
    uint8_t *map;
    size_t map_len;
    uint8_t *store;
    size_t store_len;
    uint8_t *image;
    uint8_t state[STATE_BYTES];
    bool accepted; /* a step was */
} Places;

/* One frame: a refusal leaves state and store, and an accepted step leaves a
   state that is accepted. */
static bool step_anything(Places *places)
{
    uint8_t state[STATE_BYTES];
    uint8_t store[64] = {0};
    uint32_t frame = any_number() % 4 == 0 ? any_number() % 0x1000100
                                           : p11_frames[any_number() % 9];
    memcpy(state, places->state, sizeof state);
    for (size_t i = 0; i < places->store_len; i++) {
        store[i] = places->store[i];
    }
    uint32_t result = second_frame_bytes(
        places->map, places->map_len, places->store, places->store_len,
        places->image, places->store_len, places->state, frame,
        any_number() % 400);
    if ((result & 0xFF) == 0) {
        places->accepted = true;
        return true;
    }
    bool kept = memcmp(state, places->state, sizeof state) == 0;
    for (size_t i = 0; i < places->store_len; i++) {
        kept = kept && store[i] == places->store[i];
    }
    return kept && result <= 14
           && (!places->accepted || result == FRAME_TOO_LARGE);
}

/* A find tests the map as all calls do, then 6; a refusal is its number alone,
   and an accepted one's count keeps its bound. */
static bool find_anything(const Places *places)
{
    uint32_t bank = any_number() % 260;
    uint32_t location = any_number() % 260;
    uint64_t answer =
        second_find(places->map, places->map_len, bank, location);
    uint32_t number =
        second_check(places->map, places->map_len, places->store,
                     places->store_len, places->store_len);
    if (number >= MAP_LENGTH && number <= RECORD_ORDER) {
        return answer == number;
    }
    if (bank > 255 || location > 255) {
        return answer == FIELD_OUT_OF_RANGE;
    }
    return (answer & 0xFF) == 0
           && answer >> 32 <= bound_of(places->map_len / 8);
}

/* The kind of the value that begins at a place; 255 where none does. */
static uint8_t kind_at(const Places *places, uint8_t bank, uint8_t first)
{
    for (size_t i = 0; i + 8 <= places->map_len; i += 8) {
        if (places->map[i] == bank && places->map[i + 1] == first) {
            return places->map[i + 3];
        }
    }
    return 255;
}

/* A record of a list names a value, with its bytes in both stores, and these
   differ. Its new bytes are put on a copy of the old store. */
static bool put_listed(const Places *places, const uint8_t *new_store,
                       const uint8_t *record, uint8_t *copy)
{
    uint8_t wanted[24] = {record[0], record[1]};
    uint32_t look_at =
        second_look(places->map, places->map_len, places->store,
                    places->store_len, record[0], record[1]);
    size_t width = look_at >> 8 & 0xFF;
    size_t offset = look_at >> 16;
    if ((look_at & 0xFF) != 0) {
        return false;
    }
    wanted[2] = (uint8_t)width;
    wanted[3] = kind_at(places, record[0], record[1]);
    memcpy(wanted + 8, places->store + offset, width);
    memcpy(wanted + 16, new_store + offset, width);
    memcpy(copy + offset, record + 16, width);
    return memcmp(record, wanted, 24) == 0
           && memcmp(record + 8, record + 16, 8) != 0;
}

/* A list rises, and put on the old store it gives the new one at every place
   under a record. */
static bool list_fits(const Places *places, const uint8_t *new_store,
                      const uint8_t *list, size_t count)
{
    uint8_t copy[64] = {0};
    bool fits = true;
    for (size_t i = 0; i < places->store_len; i++) {
        copy[i] = places->store[i];
    }
    for (size_t i = 0; i < count; i++) {
        const uint8_t *record = list + i * 24;
        fits = fits && put_listed(places, new_store, record, copy)
               && (i == 0 || memcmp(record - 24, record, 2) < 0);
    }
    for (size_t i = 0; fits && i < places->map_len; i += 8) {
        size_t offset = places->map[i + 6] * 256u + places->map[i + 7];
        fits = memcmp(copy + offset, new_store + offset, places->map[i + 2])
               == 0;
    }
    return fits;
}

/* The same two stores with any room, of exactly its length: 15 where the list
   doesn't fit, else the same list, and the rest stays. */
static bool room_fits(const Places *places, const uint8_t *new_store,
                      const uint8_t *list, uint32_t count)
{
    size_t room = any_number() % (count * 24 + 25);
    uint8_t wanted[14 * 24];
    bool enough = room >= count * 24;
    memset(wanted, BEFORE, sizeof wanted);
    uint8_t *output = exact_copy(wanted, room);
    uint32_t answer = second_compare(
        places->map, places->map_len, places->store, places->store_len,
        new_store, places->store_len, output, room);
    if (enough) {
        memcpy(wanted, list, count * 24);
    }
    bool fits = answer == (enough ? count << 8 : ROOM_TOO_SMALL)
                && (room == 0 || memcmp(output, wanted, room) == 0);
    free(output);
    return fits;
}

/* The store against itself with a few bytes changed, or with another
   length. */
static bool compare_anything(const Places *places)
{
    uint8_t list[13 * 24]; /* as many as the longest map has */
    uint8_t *new_store = exact_copy(places->store, places->store_len);
    size_t new_len = places->store_len;
    for (uint32_t i = any_number() % 4; i > 0 && new_len > 0; i--) {
        new_store[any_number() % new_len] = (uint8_t)any_number();
    }
    if (any_number() % 8 == 0 && new_len > 0) {
        new_len--;
    }
    uint32_t number = second_check(places->map, places->map_len, places->store,
                                   places->store_len, new_len);
    if (number == 0) {
        number = second_check(places->map, places->map_len, new_store, new_len,
                              places->store_len);
    }
    uint32_t answer = second_compare(
        places->map, places->map_len, places->store, places->store_len,
        new_store, new_len, list, sizeof list);
    bool fits = number != 0 ? answer == number
                            : (answer & 0xFF) == 0
                                  && list_fits(places, new_store, list,
                                               answer >> 8)
                                  && room_fits(places, new_store, list,
                                               answer >> 8);
    free(new_store);
    return fits;
}

/* The number that a session is refused with, or 0: as all calls test the map,
   then by its records. */
static uint32_t number_of_ask(const Places *places, const Ask *ask)
{
    uint32_t number =
        second_check(places->map, places->map_len, places->store,
                     places->store_len, places->store_len);
    if (number >= MAP_LENGTH && number <= RECORD_ORDER) {
        return number;
    }
    const uint8_t *record =
        record_from(places->map, places->map_len, ask->bank, ask->location);
    if (record == NULL) {
        return NO_VALUE;
    }
    if (!record_writable(record)) {
        return NOT_WRITABLE;
    }
    return ask->bytes_len != record[2] || ask->address > 63 ? FIELD_OUT_OF_RANGE
                                                            : 0;
}

/* Anything, or mostly what a record holds. */
static Ask any_ask(const Places *places)
{
    Ask ask = ask_of(any_number() % 66, any_number() % 260, any_number() % 260,
                     any_number() % 10);
    if (places->map_len >= 8 && any_number() % 8 != 0) {
        const uint8_t *record =
            places->map + any_number() % (places->map_len / 8) * 8;
        ask.bank = record[0] + (any_number() % 16 == 0 ? 256u : 0u);
        ask.location = record[1] + (any_number() % 16 == 0 ? 256u : 0u);
        if (record[2] <= 9 && any_number() % 4 != 0) {
            ask.bytes_len = record[2];
        }
    }
    for (size_t i = 0; i < sizeof ask.bytes; i++) {
        ask.bytes[i] = (uint8_t)any_number();
    }
    return ask;
}

/* What should be seen is to be seen so many times at least. */
enum { OFTEN = 50 };

/* How often each number was given to a session; 0 where it was accepted. */
static unsigned session_numbers[NOT_WRITABLE + 1];

/* A session of any bytes, in a place of exactly their length. */
static bool session_anything(const Places *places)
{
    Ask ask = any_ask(places);
    uint32_t number = number_of_ask(places, &ask);
    uint8_t *bytes = exact_copy(ask.bytes, ask.bytes_len);
    Session made = unwritten_session();
    made.answer =
        second_session(places->map, places->map_len, ask.address, ask.bank,
                       ask.location, bytes, ask.bytes_len, made.places);
    free(bytes);
    session_numbers[number]++;
    if (number != 0) {
        return session_refused(&made, number);
    }
    return session_by_record(
        &made,
        record_from(places->map, places->map_len, ask.bank, ask.location),
        &ask);
}

static bool run_any_list(void)
{
    Places places = {0};
    Bench bench = changed_bench(places.state);
    places.map = exact_copy(bench.map, bench.map_len);
    places.map_len = bench.map_len;
    places.store = exact_copy(bench.store, bench.store_len);
    places.store_len = bench.store_len;
    places.image = exact_copy(bench.image, bench.store_len);
    bool holds = true;
    for (unsigned i = 0; i < 12; i++) {
        holds = step_anything(&places) && find_anything(&places)
                && session_anything(&places) && holds;
    }
    holds = compare_anything(&places) && holds;
    free(places.map);
    free(places.store);
    free(places.image);
    return holds;
}

static void any_input(void)
{
    unsigned unlike = 0;
    for (unsigned i = 0; i < 20000; i++) {
        if (!run_any_list()) {
            unlike++;
        }
    }
    expect(unlike == 0,
           "any input: refusals leave all, states stay sound, finds, lists "
           "and sessions fit");
}

/* Each number that a session may be given was given in the lists above. */
static void any_session(void)
{
    static const uint32_t numbers[7] = {0,
                                        FIELD_OUT_OF_RANGE,
                                        MAP_LENGTH,
                                        RECORD_FIELDS,
                                        RECORD_ORDER,
                                        NO_VALUE,
                                        NOT_WRITABLE};
    for (size_t i = 0; i < 7; i++) {
        char what[40];
        (void)snprintf(what, sizeof what, "any input: sessions given %u",
                       (unsigned)numbers[i]);
        expect(session_numbers[numbers[i]] >= OFTEN, what);
    }
}

/* ---- sessions from any reached state ---- */

/* Said once for each time it doesn't hold. */
static void must(bool holds, const char *what)
{
    if (!holds) {
        expect(false, what);
    }
}

/* One in so many. */
static bool one_in(uint32_t count)
{
    return any_number() % count == 0;
}

/* A record; its place is drawn later. */
static void draw_record(Bench *bench, uint32_t bank, uint32_t first,
                        uint32_t width, uint32_t kind, bool lockable)
{
    uint8_t *record = bench->map + bench->map_len;
    record[0] = (uint8_t)bank;
    record[1] = (uint8_t)first;
    record[2] = (uint8_t)width;
    record[3] = (uint8_t)kind;
    record[4] = lockable ? 1 : 0;
    bench->map_len += 8;
}

/* Mostly writable, but in bank 0. */
static void draw_value(Bench *bench, uint32_t bank, uint32_t first,
                       uint32_t width)
{
    static const uint8_t kinds[8] = {0, 1, 3, 2, 2, 4, 4, 4};
    uint32_t kind = kinds[any_number() % (bank == 0 ? 3 : 8)];
    bool writable = kind == 2 || kind == 4;
    draw_record(bench, bank, first, width, kind, writable && !one_in(3));
}

/* At most nine records: 0x00, perhaps 0x01, the lock byte, and values with
   holes between them, some of them up to 0xFE. */
static void draw_bank(Bench *bench, uint32_t bank)
{
    uint32_t location = 3;
    draw_record(bench, bank, 0, 1, 0, false);
    if (one_in(3)) {
        draw_value(bench, bank, 1, 1);
    }
    if (bank != 0) {
        draw_record(bench, bank, 2, 1, 2, false);
    }
    for (uint32_t i = any_number() % 7; i > 0; i--) {
        uint32_t width = 1 + any_number() % 8;
        location += one_in(4) ? any_number() % 20 : 0;
        if (one_in(16)) {
            location = 0xFF - width;
        }
        draw_value(bench, bank, location, width);
        location += width;
        if (location > 0xE0) {
            return;
        }
    }
}

/* Places in any order, some with gaps before them. */
static void draw_places(Bench *bench)
{
    size_t order[64];
    size_t offset = 0;
    for (size_t i = 0; i < bench->map_len / 8; i++) {
        size_t j = any_number() % (i + 1);
        order[i] = i;
        order[i] = order[j];
        order[j] = i;
    }
    for (size_t i = 0; i < bench->map_len / 8; i++) {
        uint8_t *record = bench->map + order[i] * 8;
        offset += one_in(8) ? any_number() % 3 : 0;
        record[6] = (uint8_t)(offset >> 8);
        record[7] = (uint8_t)(offset & 0xFF);
        offset += record[2];
    }
    bench->store_len = offset + any_number() % 3;
}

/* Any bytes, but at 0x00 of each bank the last location or a higher one. */
static void draw_bytes(Bench *bench)
{
    uint32_t last = 0;
    for (size_t i = 0; i < sizeof bench->store; i++) {
        bench->store[i] = (uint8_t)any_number();
        bench->image[i] = (uint8_t)any_number();
    }
    for (size_t i = bench->map_len; i > 0; i -= 8) {
        const uint8_t *record = bench->map + i - 8;
        if (i == bench->map_len || record[0] != record[8]) {
            last = record[1] + record[2] - 1u;
        }
        if (record[1] == 0) {
            uint32_t least = last < 3 ? 3 : last;
            bench->store[place_of(record)] =
                (uint8_t)(least + any_number() % (255 - least));
        }
    }
}

/* A unit with one to five banks; its clock may soon run over. */
static Bench drawn_bench(void)
{
    Bench bench = {0};
    uint32_t bank = one_in(3) ? 0 : 1 + any_number() % 9;
    for (uint32_t i = any_number() % 5 + 1; i > 0; i--) {
        draw_bank(&bench, i == 1 && one_in(4) ? 199 : bank);
        bank += 1 + any_number() % (one_in(2) ? 2 : 40);
    }
    draw_places(&bench);
    draw_bytes(&bench);
    must(start_bench(&bench, any_number() % 64, any_number()) == 0,
         "a drawn unit starts");
    bench.clock = one_in(2) ? 0u - any_number() % 2000 : any_number();
    return bench;
}

/* A frame mostly soon after the last one; it is accepted. */
static void go(Bench *bench, uint32_t frame)
{
    bench->clock += any_number() % (one_in(6) ? 300 : 12);
    must((step_at(bench, frame, bench->clock) & 0xFF) == 0,
         "a frame of a run is accepted");
}

/* A device command by one of the ways to the unit. */
static uint32_t own_frame(const Bench *bench, uint32_t opcode)
{
    uint32_t group = any_number() % 32;
    uint32_t address_byte = 0xFF;
    if (bench->unit.address <= 63 && !one_in(4)) {
        address_byte = bench->unit.address * 2u + 1;
    } else if ((bench->unit.groups >> group & 1u) == 1u && one_in(2)) {
        address_byte = 0x81 + group * 2;
    }
    return address_byte << 16 | 0xFE00 | opcode;
}

static void go_twice(Bench *bench, uint32_t frame)
{
    go(bench, frame);
    go(bench, frame);
}

static const uint8_t *any_record(const Bench *bench)
{
    return bench->map + any_number() % (bench->map_len / 8) * 8;
}

/* A value's bytes from its first one on, perhaps not all of them. */
static void go_bytes(Bench *bench, const uint8_t *record)
{
    uint32_t count = any_number() % (record[2] + 1u);
    go(bench, 0xC70000u | (uint32_t)record[0] << 8 | record[1]);
    for (uint32_t i = 0; i < count; i++) {
        go(bench, (one_in(2) ? 0xC12000 : 0xC12100) + any_number() % 256);
    }
}

/* Opens write-enable, mostly unlocks the record's bank, then writes. */
static void go_writing(Bench *bench, const uint8_t *record)
{
    go_twice(bench, own_frame(bench, 0x15));
    go(bench, 0xC13100u | record[0]);
    if (!one_in(4)) {
        go(bench, one_in(8) ? 0xC50254 : 0xC50255);
    }
    go_bytes(bench, record);
}

/* Leaves a part of a value staged, if the record drawn can have one and the
   two ENABLEs are a pair. */
static void go_staging(Bench *bench)
{
    const uint8_t *record = any_record(bench);
    for (uint32_t i = 0; i < 8 && !(record_writable(record) && record[2] > 1);
         i++) {
        record = any_record(bench);
    }
    go_twice(bench, own_frame(bench, 0x15));
    go(bench, 0xC13100u | record[0]);
    go(bench, 0xC50255);
    go(bench, 0xC13000u | record[1]);
    for (uint32_t i = 1; i < record[2] && (i == 1 || !one_in(4)); i++) {
        go(bench, 0xC12000 + any_number() % 256);
    }
}

/* A session, perhaps cut. */
static void go_session(Bench *bench, const uint8_t *record)
{
    Ask ask = ask_of(bench->unit.address, record[0], record[1], record[2]);
    Session made = session(bench->map, bench->map_len, &ask);
    uint32_t count = made.answer >> 8;
    count = one_in(2) ? count : any_number() % (count + 1);
    for (uint32_t i = 0; i < count; i++) {
        go(bench, made.places[i]);
    }
}

static void go_reading(Bench *bench, const uint8_t *record)
{
    go(bench, 0xC70000u | (uint32_t)record[0] << 8 | record[1]);
    for (uint32_t i = any_number() % 4; i > 0; i--) {
        go(bench, own_frame(bench, 0x3C));
    }
}

static void go_anywhere(Bench *bench)
{
    static const uint8_t opcodes[16] = {0x11, 0x14, 0x15, 0x19, 0x1A, 0x1B,
                                        0x1C, 0x33, 0x36, 0x37, 0x38, 0x3C,
                                        0x41, 0x42, 0x43, 0x44};
    static const uint32_t registers_of[5] = {0xC13000, 0xC13100, 0xC13200,
                                             0xC70000, 0xC90000};
    const uint8_t *record = any_record(bench);
    switch (any_number() % 10) {
    case 0:
        go(bench, own_frame(bench, opcodes[any_number() % 16]));
        break;
    case 1:
        go_twice(bench, own_frame(bench, opcodes[any_number() % 7]));
        break;
    case 2:
        go(bench, registers_of[any_number() % 5] | any_number() % 256);
        break;
    case 3:
        go(bench, any_number() % 0x1000000);
        break;
    case 4:
        go_reading(bench, record);
        break;
    case 5:
    case 6:
        go_session(bench, record);
        break;
    case 7:
        must(!one_in(4) || power_on(bench) == 0,
             "a power-on of a run is accepted");
        break;
    default:
        go_writing(bench, record);
        break;
    }
}

/* A short address, whatever the unit holds. */
static void go_addressed(Bench *bench)
{
    go(bench, 0xC13000 | any_number() % 64);
    go_twice(bench, 0xFFFE14);
    while (bench->unit.address > 63) {
        go(bench, 0xFFFE14); /* until two of them are a pair */
    }
}

/* Some way, and at its end often an ENABLE waiting, a value staged or a bank
   left unlocked. */
static void go_on(Bench *bench)
{
    for (uint32_t i = any_number() % 8; i > 0; i--) {
        go_anywhere(bench);
    }
    if (bench->unit.address > 63) {
        go_addressed(bench);
    }
    uint32_t end = any_number() % 4;
    if (end <= 1) {
        go_staging(bench);
    }
    if (end >= 1 && end <= 2) {
        go(bench, (bench->unit.address * 2u + 1) << 16 | 0xFE15);
    }
}

/* What the sessions began with. */
typedef struct Seen {
    unsigned sessions;
    unsigned waiting;     /* an ENABLE that would pair with the session's */
    unsigned other;       /* another frame was waiting */
    unsigned staged;      /* bytes were staged */
    unsigned staged_same; /* of the value itself */
    unsigned unlocked;    /* the value's bank was unlocked */
    unsigned latched;     /* a latch was held */
    unsigned latched_same;
    unsigned open;        /* write-enable was open */
    unsigned runs_over;   /* the clock ran over during the session */
    unsigned lock_byte;   /* the value was the lock byte */
    unsigned widths[2][9]; /* by lockable, and by width */
    unsigned unlike;
} Seen;

static void see(Seen *seen, const Bench *bench, const uint8_t *record,
                uint32_t clock)
{
    const Unit *unit = &bench->unit;
    uint32_t enable = (unit->address * 2u + 1) << 16 | 0xFE15;
    bool pairs = unit->waiting == 1 && unit->waiting_frame == enable
                 && (uint32_t)(clock + 1 - unit->waiting_clock) <= 100;
    bool staged_same = unit->staged > 0 && unit->staged_bank == record[0]
                       && unit->staged_first == record[1];
    bool latched_same = unit->latched == 1 && unit->latched_bank == record[0]
                        && unit->latched_first == record[1];
    const uint8_t *lock_byte =
        record_from(bench->map, bench->map_len, record[0], 2);
    seen->sessions++;
    seen->waiting += pairs ? 1 : 0;
    seen->other += unit->waiting == 1 && unit->waiting_frame != enable ? 1 : 0;
    seen->staged += unit->staged > 0 ? 1 : 0;
    seen->staged_same += staged_same ? 1 : 0;
    seen->unlocked += bench->store[place_of(lock_byte)] == 0x55 ? 1 : 0;
    seen->latched += unit->latched;
    seen->latched_same += latched_same ? 1 : 0;
    seen->open += unit->write_enable;
    seen->runs_over += clock + 3 < 3 ? 1 : 0;
    seen->lock_byte += record[1] == 2 ? 1 : 0;
    seen->widths[record[4]][record[2]]++;
}

/* Soon after the last frame, so that the clock runs over, or any clock. */
static uint32_t any_clock(const Bench *bench)
{
    switch (any_number() % 4) {
    case 0:
        return 0u - any_number() % 14;
    case 1:
        return any_number();
    default:
        return bench->clock + any_number() % 102;
    }
}

/* A session for each writable value, each from the same state. */
static void see_sessions(Seen *seen, const Bench *bench)
{
    static const uint8_t often[4] = {0x55, 0xFF, 0x00, 0x54};
    for (size_t i = 0; i < bench->map_len; i += 8) {
        const uint8_t *record = bench->map + i;
        uint32_t clock = any_clock(bench);
        uint8_t bytes[8];
        for (size_t j = 0; j < 8; j++) {
            bytes[j] = one_in(3) ? often[any_number() % 4]
                                 : (uint8_t)any_number();
        }
        if (record_writable(record)) {
            see(seen, bench, record, clock);
            if (!session_holds(bench, record, bytes, clock)) {
                seen->unlike++;
            }
        }
    }
}

static void expect_seen(const Seen *seen)
{
    expect(seen->waiting >= OFTEN, "any state: an ENABLE of it waiting");
    expect(seen->other >= OFTEN, "any state: another frame waiting");
    expect(seen->staged >= OFTEN, "any state: bytes staged");
    expect(seen->staged_same >= OFTEN, "any state: the value's own staged");
    expect(seen->unlocked >= OFTEN, "any state: the bank unlocked");
    expect(seen->latched >= OFTEN, "any state: a latch held");
    expect(seen->latched_same >= OFTEN, "any state: the value's own latched");
    expect(seen->open >= OFTEN, "any state: write-enable open");
    expect(seen->runs_over >= OFTEN, "any state: the clock runs over");
    expect(seen->lock_byte >= OFTEN, "any state: a lock byte as the value");
    for (size_t width = 1; width <= 8; width++) {
        expect(seen->widths[0][width] >= OFTEN
                   && seen->widths[1][width] >= OFTEN,
               "any state: each width, lockable and not");
    }
}

/* The state with any DTRs, waiting clock, staged and latched bytes: accepted,
   though perhaps no run reaches it. */
static Bench altered_bench(const Bench *bench)
{
    Bench altered = *bench;
    Unit *unit = &altered.unit;
    unit->dtr0 = (uint8_t)any_number();
    unit->dtr1 = (uint8_t)any_number();
    unit->dtr2 = (uint8_t)any_number();
    if (unit->waiting == 1) {
        unit->waiting_clock =
            one_in(2) ? any_number() : bench->clock - any_number() % 120;
    }
    for (size_t i = 0; i < unit->staged; i++) {
        unit->staged_bytes[i] = (uint8_t)any_number();
    }
    if (unit->latched == 1) {
        const uint8_t *record =
            record_from(altered.map, altered.map_len, unit->latched_bank,
                        unit->latched_first);
        for (size_t i = 0; i < record[2]; i++) {
            unit->latched_bytes[i] = (uint8_t)any_number();
        }
    }
    return altered;
}

/* 400 units, each in eight states of its run, and in eight near these. What
   was seen is counted over the reached ones. */
static void any_state(void)
{
    Seen seen = {0};
    Seen near = {0};
    random_state = 2;
    for (unsigned i = 0; i < 400; i++) {
        Bench bench = drawn_bench();
        for (unsigned j = 0; j < 8; j++) {
            go_on(&bench);
            see_sessions(&seen, &bench);
            Bench altered = altered_bench(&bench);
            see_sessions(&near, &altered);
        }
    }
    expect(near.unlike == 0, "any altered state: the same");
    expect(seen.unlike == 0, "any state: a session leaves what it promises");
    expect_seen(&seen);
}

/* ---- the census of a capture ---- */

/* Sixteen counts, one behind them that no call writes, and the number. */
typedef struct Census {
    uint32_t number;
    uint64_t counts[CENSUS_COUNTS + 1];
} Census;

/* Some records, perhaps with a tail. */
typedef struct Capture {
    uint8_t bytes[48 * RECORD_LENGTH];
    size_t length;
} Capture;

/* Clock (4, high first), kind, frame (3). */
static void put_record(Capture *capture, uint32_t clock, uint8_t kind,
                       uint32_t frame)
{
    const uint8_t record[RECORD_LENGTH] = {
        (uint8_t)(clock >> 24), (uint8_t)(clock >> 16), (uint8_t)(clock >> 8),
        (uint8_t)clock,         kind,                   (uint8_t)(frame >> 16),
        (uint8_t)(frame >> 8),  (uint8_t)frame};
    memcpy(capture->bytes + capture->length, record, sizeof record);
    capture->length += sizeof record;
}

/* A record that is counted where it is told. */
static void put_counted(Capture *capture, unsigned count, uint32_t frame)
{
    put_record(capture, 0, count == POWER_ONS ? 1 : 0, frame);
}

/* Adds some bytes, in a place of exactly their length: nothing outside them is
   read, and no bytes have no pointer either. */
static void add_bytes(Census *census, const uint8_t *bytes, size_t length)
{
    uint8_t *copy = exact_copy(bytes, length);
    census->number = second_census(copy, length, census->counts);
    free(copy);
}

static bool same_census(const Census *one, const Census *other)
{
    return one->number == other->number
           && memcmp(one->counts, other->counts, sizeof one->counts) == 0;
}

/* The number and each of the sixteen counts, added to zeros, to 2^64 - 1 and to
   a multiple of 2^32 less one, each count its own. */
static bool counted_as(const Capture *capture, const Census *wanted)
{
    static const uint64_t first[3] = {0, UINT64_MAX, UINT32_MAX};
    static const uint64_t rise[3] = {0, 0, UINT64_C(1) << 32};
    bool alike = true;
    for (size_t way = 0; way < 3; way++) {
        Census census = {0, {0}};
        Census sum = *wanted;
        for (size_t i = 0; i <= CENSUS_COUNTS; i++) {
            census.counts[i] = first[way] + i * rise[way];
            sum.counts[i] += census.counts[i];
        }
        add_bytes(&census, capture->bytes, capture->length);
        alike = alike && same_census(&census, &sum);
    }
    return alike;
}

/* One record; it adds one to one count. */
static bool counted_once(const Capture *capture, unsigned count)
{
    Census wanted = {0, {0}};
    wanted.counts[count] = 1;
    return counted_as(capture, &wanted);
}

static void census_of_nothing(void)
{
    const Census nothing = {0, {0}};
    const Capture empty = {{0}, 0};
    Census census = {0, {0}};
    expect(counted_as(&empty, &nothing), "an empty capture adds nothing");
    census.number = second_census(empty.bytes, 0, census.counts);
    expect(same_census(&census, &nothing), "the same with a pointer");
}

/* A frame, its class by number, and what it is. */
typedef struct Classed {
    uint32_t frame;
    unsigned class;
    const char *what;
} Classed;

static const Classed classed[] = {
    {0x0BFE15, 0, "P1, a command to a short address"},
    {0x010000, 0, "the lowest command to a short address"},
    {0x7FFFFF, 0, "the highest command to a short address"},
    {0x0BF936, 0, "a feature command to a short address"},
    {0x85FE30, 1, "a command to a device group"},
    {0x810000, 1, "the lowest command to a device group"},
    {0xBFFFFF, 1, "the highest command to a device group"},
    {0xFDFE30, 2, "a command to the unaddressed"},
    {0xFD0000, 2, "an instance command to the unaddressed"},
    {0xFFFE3C, 3, "P2, a command to all"},
    {0xFFFFFF, 3, "the highest frame"},
    {0xC13102, 4, "a special command"},
    {0xC10000, 4, "the lowest special command"},
    {0xDFFFFF, 4, "the highest special command"},
    {0xC54000, 4, "a special command with a byte reserved elsewhere"},
    {0xE1FE15, 5, "the lowest reserved address byte"},
    {0xFBFE10, 5, "the highest reserved address byte"},
    {0xF1FFFF, 5, "a reserved address byte, to instances"},
    {0xE14000, 5, "a reserved address byte before the instance byte"},
    {0xFBFB36, 5, "the same with the highest of both"},
    {0x0B4030, 6, "a reserved instance byte to a short address"},
    {0x85F830, 6, "a reserved instance byte to a device group"},
    {0xFDFA00, 6, "a reserved instance byte to the unaddressed"},
    {0xFFFB36, 6, "a reserved instance byte to all"},
    {0x828805, 7, "P3, an event of scheme 0"},
    {0x0A0D55, 8, "P4, an event of scheme 1"},
    {0x000000, 8, "the lowest frame"},
    {0x7EFFFF, 9, "P5, an event of scheme 2"},
    {0x8E1000, 10, "P6, an event of scheme 3"},
    {0xFE0001, 11, "P7, an event of scheme 4"},
    {0xFEF1C5, 12, "P8, a power cycle"},
    {0xFEE000, 12, "P9, a power cycle with neither"},
    {0xFEFFFF, 12, "the highest power cycle"},
    {0xFEE001, 13, "P10, a malformed power event"},
    {0xFEE080, 13, "a power event with a blank group"},
    {0xC08000, 14, "a reserved event"},
    {0xFEDFFF, 14, "the highest reserved event"},
};
enum { CLASSED = sizeof classed / sizeof classed[0] };

static void census_of_classes(void)
{
    bool seen[CLASSES] = {false};
    unsigned classes = 0;
    for (size_t i = 0; i < CLASSED; i++) {
        Capture one = {{0}, 0};
        put_record(&one, 0x01010101, 0, classed[i].frame);
        expect_of(counted_once(&one, classed[i].class), "counted once:",
                  classed[i].what);
        classes += seen[classed[i].class] ? 0 : 1;
        seen[classed[i].class] = true;
    }
    expect(classes == CLASSES, "a frame of each class");
}

/* Clock and frame of a power-on record are ignored. */
static void census_of_power_ons(void)
{
    static const uint32_t clocks[4] = {0, 0x00000002, 0x02000000, 0xFFFFFFFF};
    unsigned unlike = 0;
    for (size_t i = 0; i < CLASSED * 4; i++) {
        Capture one = {{0}, 0};
        put_record(&one, clocks[i % 4], 1, classed[i / 4].frame);
        unlike += counted_once(&one, POWER_ONS) ? 0 : 1;
    }
    expect(unlike == 0, "a power-on record, whatever its clock and frame");
}

/* Four records of a capture, and the counts that they add to. */
static const struct {
    unsigned count;
    uint32_t frame;
} sample[4] = {{CLASS_SHORT, 0x0BFE15},
               {POWER_ONS, 0x0BFE15},
               {CLASS_MALFORMED_POWER, 0xFEE001},
               {CLASS_SHORT, 0x7F0000}};

static void put_sample(Capture *capture, size_t from, size_t to)
{
    for (size_t i = from; i < to; i++) {
        put_counted(capture, sample[i].count, sample[i].frame);
    }
}

/* What comes after the first records of the sample gives 13. */
static bool ends_behind(const Capture *capture, size_t records)
{
    Census wanted = {TRACE_RECORD, {0}};
    for (size_t i = 0; i < records; i++) {
        wanted.counts[sample[i].count]++;
    }
    return counted_as(capture, &wanted);
}

/* In each place of the sample, the last one behind all four. */
static void census_of_unknown_kinds(void)
{
    static const uint8_t kinds[4] = {2, 3, 128, 255};
    static const char *const places[5] = {"first", "second", "third", "fourth",
                                          "last"};
    for (size_t i = 0; i < 20; i++) {
        Capture capture = {{0}, 0};
        char what[40];
        put_sample(&capture, 0, i / 4);
        put_record(&capture, 7, kinds[i % 4], 0x0BFE15);
        put_sample(&capture, i / 4, 4);
        (void)snprintf(what, sizeof what, "kind %u in place:", kinds[i % 4]);
        expect_of(ends_behind(&capture, i / 4), what, places[i / 4]);
    }
}

/* Alone and behind whole records, its kind known or not. */
static void census_of_tails(void)
{
    static const uint8_t kinds[4] = {0, 1, 2, 255};
    for (size_t tail = 1; tail < RECORD_LENGTH; tail++) {
        unsigned unlike = 0;
        char what[40];
        for (size_t i = 0; i < 20; i++) {
            Capture capture = {{0}, 0};
            put_sample(&capture, 0, i / 4);
            put_record(&capture, 7, kinds[i % 4], 0x0BFE15);
            capture.length -= RECORD_LENGTH - tail;
            unlike += ends_behind(&capture, i / 4) ? 0 : 1;
        }
        (void)snprintf(what, sizeof what, "a tail of %zu bytes", tail);
        expect(unlike == 0, what);
    }
}

/* Behind a record of unknown kind: every class and a power-on, then nothing,
   a tail, or another such record. */
static void census_ends(void)
{
    Capture capture = {{0}, 0};
    put_sample(&capture, 0, 2);
    put_record(&capture, 0, 2, 0x0BFE15);
    for (size_t i = 0; i < CLASSED; i++) {
        put_counted(&capture, classed[i].class, classed[i].frame);
    }
    put_counted(&capture, POWER_ONS, 0);
    expect(ends_behind(&capture, 2), "nothing behind 13 is counted");
    capture.length -= 3;
    expect(ends_behind(&capture, 2), "13, then a tail");
    capture.length -= RECORD_LENGTH - 3;
    put_record(&capture, 0, 255, 0);
    put_sample(&capture, 2, 4);
    expect(ends_behind(&capture, 2), "13, then another");
}

/* A capture of each class and of a power-on, added again and again. */
static void census_adds(void)
{
    Capture capture = {{0}, 0};
    Census census = {0, {0}};
    Census wanted = {0, {0}};
    for (size_t i = 0; i < CLASSED; i++) {
        put_counted(&capture, classed[i].class, classed[i].frame);
        wanted.counts[classed[i].class]++;
    }
    put_counted(&capture, POWER_ONS, 0);
    wanted.counts[POWER_ONS]++;
    expect(counted_as(&capture, &wanted), "each class and a power-on");
    for (size_t i = 0; i < CENSUS_COUNTS; i++) {
        census.counts[i] = 0 - wanted.counts[i];
    }
    add_bytes(&census, capture.bytes, capture.length);
    for (size_t i = 0; i < CENSUS_COUNTS; i++) {
        expect_of(census.counts[i] == 0, "runs over to 0:", count_names[i]);
    }
    add_bytes(&census, capture.bytes, capture.length);
    expect(same_census(&census, &wanted), "and goes on from there");
}

/* ---- every frame, and any capture ---- */

/* The class of an event, by its first byte and its two others. */
static unsigned class_of_event(uint32_t first, uint32_t others)
{
    bool high = others >= 0x8000;
    uint32_t group = others >> 7 & 0x3F;
    uint32_t address = others & 0x7F;
    if (first < 0x80) {
        return high ? 9 : 8;
    }
    if (first < 0xC0) {
        return high ? 7 : 10;
    }
    if (!high) {
        return 11;
    }
    if (first != 0xFE || others < 0xE000) {
        return 14;
    }
    bool blank = (group > 0 && group < 32) || (address > 0 && address < 64);
    return blank ? 13 : 12;
}

/* The class of a frame, by its bytes and not by the reader. */
static unsigned class_of_bytes(uint32_t frame)
{
    uint32_t first = frame >> 16;
    if (first % 2 == 0) {
        return class_of_event(first, frame & 0xFFFF);
    }
    if (first >= 0xC1 && first <= 0xFB) {
        return first <= 0xDF ? 4 : 5;
    }
    if (instance_reserved(frame >> 8 & 0xFF)) {
        return 6;
    }
    if (first >= 0xFD) {
        return first == 0xFD ? 2 : 3;
    }
    return first < 0x80 ? 0 : 1;
}

/* All frames, 4,096 records at a time. */
static void census_of_every_frame(void)
{
    static const Census figures = {
        0, {3227648, 1613824, 50432,   50432,   1048576, 917504, 1480192,
            1048576, 2097152, 2097152, 1048576, 1048576, 2145,   6047,
            1040384, 0,       0}};
    static uint8_t slice[4096][RECORD_LENGTH];
    Census census = {0, {0}};
    Census wanted = {0, {0}};
    unsigned unlike = 0;
    for (uint32_t frame = 0; frame < 0x1000000; frame++) {
        uint8_t *record = slice[frame % 4096];
        record[5] = (uint8_t)(frame >> 16);
        record[6] = (uint8_t)(frame >> 8);
        record[7] = (uint8_t)frame;
        wanted.counts[class_of_bytes(frame)]++;
        if (frame % 4096 == 4095) {
            census.number =
                second_census(slice[0], sizeof slice, census.counts);
            unlike += same_census(&census, &wanted) ? 0 : 1;
        }
    }
    expect(unlike == 0, "every frame is in its class");
    for (size_t i = 0; i < CENSUS_COUNTS; i++) {
        expect_of(census.counts[i] == figures.counts[i],
                  "over all frames:", count_names[i]);
    }
    expect(same_census(&census, &figures), "over all frames: no number");
}

/* The census of a capture, by its bytes. */
static Census census_by_bytes(const Capture *capture)
{
    Census census = {0, {0}};
    for (size_t i = 0; i < capture->length; i += RECORD_LENGTH) {
        const uint8_t *record = capture->bytes + i;
        if (i + RECORD_LENGTH > capture->length || record[4] > 1) {
            census.number = TRACE_RECORD;
            return census;
        }
        uint32_t frame = record[5] * 0x10000u + record[6] * 0x100u + record[7];
        census.counts[record[4] == 1 ? POWER_ONS : class_of_bytes(frame)]++;
    }
    return census;
}

static Census census_from_zero(const Capture *capture)
{
    Census census = {0, {0}};
    add_bytes(&census, capture->bytes, capture->length);
    return census;
}

/* Up to 40 records; some of unknown kind, and often a tail. */
static Capture any_capture(void)
{
    Capture capture = {{0}, 0};
    for (uint32_t i = any_number() % 41; i > 0; i--) {
        uint32_t frame = one_in(2) ? any_number() % 0x1000000
                                   : classed[any_number() % CLASSED].frame;
        uint8_t kind = one_in(5) ? 1 : 0;
        put_record(&capture, any_number(),
                   one_in(40) ? (uint8_t)any_number() : kind, frame);
    }
    if (one_in(3)) {
        put_record(&capture, any_number(), (uint8_t)(any_number() % 3), 0);
        capture.length -= 1 + any_number() % 7;
    }
    return capture;
}

/* The records before the end, which are counted; perhaps frames only. */
static uint64_t records_of(const Census *census, bool frames_only)
{
    uint64_t sum = 0;
    for (size_t i = 0; i < (frames_only ? CLASSES : CENSUS_COUNTS); i++) {
        sum += census->counts[i];
    }
    return sum;
}

/* The fifteen classes add up to the frame records before the end. */
static bool adds_up(const Capture *capture, const Census *census)
{
    uint64_t records = 0;
    uint64_t frames = 0;
    while ((records + 1) * RECORD_LENGTH <= capture->length
           && capture->bytes[records * RECORD_LENGTH + 4] <= 1) {
        frames += capture->bytes[records * RECORD_LENGTH + 4] == 0 ? 1 : 0;
        records++;
    }
    return records_of(census, true) == frames
           && records_of(census, false) == records;
}

/* Cut at every record boundary; the rest isn't handed on after 13. */
static bool cuts_alike(const Capture *capture, const Census *whole)
{
    bool alike = true;
    for (size_t at = 0; at <= capture->length; at += RECORD_LENGTH) {
        Census census = {0, {0}};
        add_bytes(&census, capture->bytes, at);
        if (census.number == 0) {
            add_bytes(&census, capture->bytes + at, capture->length - at);
        }
        alike = alike && same_census(&census, whole);
    }
    return alike;
}

/* The same with any other clocks. */
static bool clocks_ignored(const Capture *capture, const Census *whole)
{
    Capture other = *capture;
    for (size_t i = 0; i < other.length; i++) {
        if (i % RECORD_LENGTH < 4) {
            other.bytes[i] = (uint8_t)any_number();
        }
    }
    Census census = census_from_zero(&other);
    return same_census(&census, whole);
}

/* What came before the end, alone: the same counts, and no number. */
static bool keeps_before(const Capture *capture, const Census *whole)
{
    Capture before = *capture;
    Census wanted = *whole;
    before.length = (size_t)records_of(whole, false) * RECORD_LENGTH;
    wanted.number = 0;
    return before.length <= capture->length && counted_as(&before, &wanted);
}

/* What ended a census: 0 the end of the capture, 1 an unknown kind, 2 a
   tail. */
static unsigned end_of(const Capture *capture, const Census *census)
{
    if (census->number == 0) {
        return 0;
    }
    uint64_t behind = (records_of(census, false) + 1) * RECORD_LENGTH;
    return behind <= capture->length ? 1 : 2;
}

static void any_census(void)
{
    unsigned unlike[5] = {0};
    unsigned ended[3] = {0};
    random_state = 3;
    for (unsigned i = 0; i < 2000; i++) {
        Capture capture = any_capture();
        Census wanted = census_by_bytes(&capture);
        Census census = census_from_zero(&capture);
        ended[end_of(&capture, &wanted)]++;
        unlike[0] += counted_as(&capture, &wanted) ? 0 : 1;
        unlike[1] += adds_up(&capture, &census) ? 0 : 1;
        unlike[2] += cuts_alike(&capture, &census) ? 0 : 1;
        unlike[3] += clocks_ignored(&capture, &census) ? 0 : 1;
        unlike[4] += keeps_before(&capture, &census) ? 0 : 1;
    }
    expect(unlike[0] == 0, "any capture: counted by its bytes");
    expect(unlike[1] == 0, "any capture: the classes add up");
    expect(unlike[2] == 0, "any capture: cut at every record");
    expect(unlike[3] == 0, "any capture: clocks are ignored");
    expect(unlike[4] == 0, "any capture: 13 leaves what came before it");
    expect(ended[0] >= OFTEN && ended[1] >= OFTEN && ended[2] >= OFTEN,
           "any capture: with 0, and with 13 by a kind and by a tail");
}

int main(void)
{
    static void (*const groups_of_checks[])(void) = {
        bench_reader, bench_composer, bench_writing, read_and_write,
        writer_ranges, composer_ranges, as_shipped, check_fields, check_places,
        check_lengths, check_bank_rules, check_order, look_calls,
        find_in_sheet, find_beside_banks, find_among_64, find_every_place,
        find_bounds, find_refusals, compare_sheet, compare_wide,
        compare_one_byte, compare_under_no_record, compare_falling_places,
        compare_room, compare_64, compare_map_refusals,
        compare_length_refusals, compare_store_refusals, compare_order,
        compare_one_buffer, compare_empty_map, session_of_sheet,
        session_frames, session_widths, session_refusals, session_map_lengths,
        session_map_refusals, session_unsound, session_states,
        session_runs_over, start_calls, power_on_calls,
        idle_state_rules, waiting_state_rules, staged_state_rules,
        latched_state_rules, order_of_step, packed_states,
        pairs_from_the_left, frames_between_halves, what_keeps_write_enable,
        commands_that_close, eleven_that_keep, frames_that_leave_it_open,
        unaddressed_units, unlisted_twice, every_opcode, every_instance_byte,
        every_address_byte, every_special, writings_cut, closed_after_the_last,
        writes_not_executed, writes_not_taken, staging_again, locks,
        banks_apart, every_width, reads, latch_and_writes, resets, addresses, groups,
        registers, trace_files, trace_records, written_records, any_input,
        any_session, any_state, census_of_nothing, census_of_classes,
        census_of_power_ons, census_of_unknown_kinds, census_of_tails,
        census_ends, census_adds, census_of_every_frame, any_census};
    for (size_t i = 0;
         i < sizeof groups_of_checks / sizeof groups_of_checks[0]; i++) {
        groups_of_checks[i]();
    }
    printf("%u passed, %u failed\n", passed, failed);
    return failed == 0 ? EXIT_SUCCESS : EXIT_FAILURE;
}
