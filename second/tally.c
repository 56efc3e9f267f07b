/* tally FOLDER...: runs scenario folders through the library and prints how
   often each thing happened, summed over all. */
#include "tally.h"

#include <inttypes.h>
#include <stdlib.h>
#include <string.h>

#include "files.h"
#include "frames.h"

uint64_t second_tally[TALLY_COUNT];

/* What is seen from outside the library. */
static uint64_t scenarios;
static uint64_t started;
static uint64_t refusals[16];
static uint64_t cut[VALUE_LIMIT + 1]; /* by width */
static uint64_t broken_halves;
static uint64_t late_halves;
static uint64_t between_event;
static uint64_t between_reserved;
static uint64_t between_other;
static uint64_t clock_ran_over;
static uint64_t closed_by_device; /* an open write-enable, by what came */
static uint64_t closed_by_instance;
static uint64_t closed_by_feature;
static uint64_t closed_by_special;
static uint64_t dropped_by_unlisted;
static uint64_t left_by_reserved;
static uint64_t left_by_event;
static uint64_t left_by_foreign;
static uint64_t left_by_unaddressed;
static uint64_t frame_steps;
static uint64_t answers;

/* A pair that a frame broke, until the next record. */
typedef struct Broken {
    bool set;
    uint32_t half;
    uint32_t clock;
    uint32_t between;
} Broken;

/* The names of the library's counters, in their order. */
static const char *const names[TALLY_COUNT] = {
    "pair-reset-memory-bank",
    "pair-set-short-address",
    "pair-enable-write-memory",
    "pair-add-to-device-groups-0-15",
    "pair-add-to-device-groups-16-31",
    "pair-remove-from-device-groups-0-15",
    "pair-remove-from-device-groups-16-31",
    "complete-writing-width-1",
    "complete-writing-width-2",
    "complete-writing-width-3",
    "complete-writing-width-4",
    "complete-writing-width-5",
    "complete-writing-width-6",
    "complete-writing-width-7",
    "complete-writing-width-8",
    "reset-acts",
    "reset-does-not-act",
    "banks-reset",
    "read-from-latch",
    "read-from-store",
    "read-unmapped-bank",
    "read-unmapped-location",
    "write-not-executed",
    "write-not-taken",
    "write-taken",
    "power-on",
    "event-frame",
    "reserved-frame",
    "foreign-frame",
    "unlisted-frame",
    "single-command",
    "first-half",
    "staging-dropped",
    "nothing-staged-to-drop"};

/* Staging dropped before it was whole, by the width of its value. */
static void tally_cut(const Files *files, const Unit *before)
{
    uint32_t found = second_look(files->map, files->map_len, files->store,
                                 files->store_len, before->staged_bank,
                                 before->staged_first);
    cut[found >> 8 & 0xFF]++;
}

/* The kind of frame that stood between two halves. */
static void tally_between(uint32_t frame)
{
    uint64_t word = second_read(frame);
    if ((word & 0xFF) != 0) {
        between_reserved++;
    } else if ((word >> 48 & 0xFF) >= EVENT) {
        between_event++;
    } else {
        between_other++;
    }
}

/* Frames between halves that broke a pair, and halves that came too late. */
static void tally_halves(const Unit *before, const TraceRecord *record,
                         Broken *broken)
{
    if (broken->set && record->frame == broken->half
        && (uint32_t)(record->clock - broken->clock) <= 100) {
        broken_halves++;
        tally_between(broken->between);
    }
    broken->set = false;
    if (before->waiting == 0) {
        return;
    }
    if (before->waiting_frame != record->frame) {
        broken->set = true;
        broken->half = before->waiting_frame;
        broken->clock = before->waiting_clock;
        broken->between = record->frame;
    } else if ((uint32_t)(record->clock - before->waiting_clock) > 100) {
        late_halves++;
    } else if (record->clock < before->waiting_clock) {
        clock_ran_over++;
    }
}

/* An unlisted command for the unit that closed an open write-enable. */
static void tally_closed(const Unit *before, uint32_t frame)
{
    uint64_t word = second_read(frame);
    uint64_t target_kind = word >> 24 & 0xFF;
    dropped_by_unlisted += before->staged > 0 ? 1 : 0;
    if ((word >> 48 & 0xFF) == SPECIAL) {
        closed_by_special++;
    } else if (target_kind == DEVICE) {
        closed_by_device++;
    } else if (target_kind <= INSTANCE_TYPE
               || target_kind == INSTANCE_BROADCAST) {
        closed_by_instance++;
    } else {
        closed_by_feature++;
    }
}

/* The library has counted such a frame since the counts were kept. */
static bool counted_since(const uint64_t *kept, unsigned what)
{
    return second_tally[what] > kept[what];
}

/* What became of an open write-enable by a frame that is not obeyed. A
   broadcast unaddressed one is foreign where the unit has an address. */
static void tally_open(const Unit *before, const Unit *after, uint32_t frame,
                       const uint64_t *kept)
{
    uint64_t address_kind = second_read(frame) >> 40 & 0xFF;
    if (after->write_enable == 0) {
        if (counted_since(kept, TALLY_UNLISTED)) {
            tally_closed(before, frame);
        }
        return;
    }
    if (counted_since(kept, TALLY_RESERVED)) {
        left_by_reserved++;
    } else if (counted_since(kept, TALLY_EVENT)) {
        left_by_event++;
    } else if (counted_since(kept, TALLY_FOREIGN)) {
        left_by_foreign++;
        left_by_unaddressed += address_kind == UNADDRESSED ? 1 : 0;
    }
}

static void tally_record(Files *files, Unit *unit, const TraceRecord *record,
                         Broken *broken)
{
    Unit before = *unit;
    uint64_t kept[TALLY_COUNT];
    memcpy(kept, second_tally, sizeof kept);
    uint32_t result = obey_record(files, unit, record);
    refusals[result & 0x0F]++;
    answers += result >> 8 & 1;
    if (counted_since(kept, TALLY_STAGING_DROPPED)
        || (record->kind == POWER_ON_RECORD && before.staged > 0)) {
        tally_cut(files, &before);
    }
    if (record->kind != FRAME_RECORD) {
        broken->set = false;
        return;
    }
    frame_steps++;
    tally_halves(&before, record, broken);
    if (before.write_enable == 1) {
        tally_open(&before, unit, record->frame, kept);
    }
}

static void run_records(Files *files, Unit *unit, FILE *input)
{
    Broken broken = {false, 0, 0, 0};
    TraceRecord record = read_record(input);
    while (record.kind != NO_RECORD) {
        tally_record(files, unit, &record, &broken);
        if (record.kind == BAD_RECORD) {
            return;
        }
        record = read_record(input);
    }
}

static void run_folder(const char *folder)
{
    static Files files;
    char path[4096];
    Unit unit;
    (void)snprintf(path, sizeof path, "%s/input", folder);
    FILE *input = fopen(path, "rb");
    if (input == NULL) {
        (void)fprintf(stderr, "cannot read %s\n", path);
        exit(EXIT_FAILURE);
    }
    read_files(folder, &files);
    uint32_t number = start_from_files(&files, &unit);
    scenarios++;
    refusals[number & 0x0F]++;
    if (number == 0) {
        started++;
        run_records(&files, &unit, input);
    }
    (void)fclose(input);
}

static void print_line(const char *name, uint64_t count)
{
    printf("%s %" PRIu64 "\n", name, count);
}

/* What became of an open write-enable. */
static void print_open(void)
{
    print_line("write-enable-closed-by-an-unlisted-device-command",
               closed_by_device);
    print_line("write-enable-closed-by-an-unlisted-instance-command",
               closed_by_instance);
    print_line("write-enable-closed-by-an-unlisted-feature-command",
               closed_by_feature);
    print_line("write-enable-closed-by-an-unlisted-special-command",
               closed_by_special);
    print_line("staging-dropped-by-an-unlisted-command", dropped_by_unlisted);
    print_line("write-enable-left-open-by-a-reserved-frame", left_by_reserved);
    print_line("write-enable-left-open-by-an-event", left_by_event);
    print_line("write-enable-left-open-by-a-foreign-command", left_by_foreign);
    print_line("write-enable-left-open-by-an-unaddressed-command",
               left_by_unaddressed);
}

static void print_all(void)
{
    static const unsigned possible[7] = {6, 7, 8, 9, 10, 11, 13};
    char name[40];
    print_line("scenarios", scenarios);
    print_line("started", started);
    for (unsigned i = 0; i < 7; i++) {
        (void)snprintf(name, sizeof name, "refusal-%u", possible[i]);
        print_line(name, refusals[possible[i]]);
    }
    print_line("refusal-1-12-14", refusals[1] + refusals[12] + refusals[14]);
    for (unsigned i = 0; i < TALLY_COUNT; i++) {
        print_line(names[i], second_tally[i]);
    }
    for (unsigned width = 2; width <= VALUE_LIMIT; width++) {
        (void)snprintf(name, sizeof name, "cut-writing-width-%u", width);
        print_line(name, cut[width]);
    }
    print_line("pair-broken-by-a-frame-between", broken_halves);
    print_line("pair-broken-by-an-event", between_event);
    print_line("pair-broken-by-a-reserved-frame", between_reserved);
    print_line("pair-broken-by-a-command", between_other);
    print_line("second-half-too-late", late_halves);
    print_line("pair-while-the-clock-runs-over", clock_ran_over);
    print_open();
    print_line("answers", answers);
    print_line("frame-steps", frame_steps);
    print_line("total-steps", frame_steps + second_tally[TALLY_POWER_ON]);
}

int main(int argc, char **argv)
{
    for (int i = 1; i < argc; i++) {
        run_folder(argv[i]);
    }
    print_all();
    return EXIT_SUCCESS;
}
