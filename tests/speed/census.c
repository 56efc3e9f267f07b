/* In a folder with the capture `mixed`: mf_census, and the second program's call, on its first records and on as many frames drawn
   from all. Both must give the same. Prints the processor time of both in microseconds, of the one and of the other capture, the
   least of 50 rounds in turn. */
#include <stdint.h>
#include <stdio.h>
#include <string.h>
#include <time.h>

#include "mirtofalko.h"
#include "unit.h"

enum { RECORDS = 100000, ROUNDS = 50 };

typedef uint32_t Census(const uint8_t *records, size_t records_length, uint64_t counts[MF_COUNTS]);

static uint8_t records[8 * RECORDS];

static int load(const char *name)
{
    FILE *f = fopen(name, "rb");
    size_t n = f == NULL ? 0 : fread(records, 1, sizeof records, f);
    if (f != NULL)
        fclose(f);
    return n == sizeof records;
}

/* Frames of all kinds, none to be foreseen; clock and kind are 0. */
static void draw(void)
{
    uint64_t drawn = 1;
    memset(records, 0, sizeof records);
    for (size_t i = 0; i < RECORDS; i++) {
        drawn = drawn * UINT64_C(6364136223846793005) + UINT64_C(1442695040888963407);
        for (size_t k = 5; k < 8; k++)
            records[8 * i + k] = (uint8_t)(drawn >> (8 * k));
    }
}

/* One round; its time. */
static clock_t round_of(Census *census, uint64_t counts[MF_COUNTS])
{
    memset(counts, 0, MF_COUNTS * sizeof *counts);
    clock_t began = clock();
    census(records, sizeof records, counts);
    return clock() - began;
}

/* Prints the least of both; 0 where the two differ. */
static int measured(void)
{
    uint64_t mine[MF_COUNTS], other[MF_COUNTS];
    clock_t ours = 0, theirs = 0;
    for (int i = 0; i < ROUNDS; i++) {
        clock_t a = round_of(mf_census, mine), b = round_of(second_census, other);
        ours = i == 0 || a < ours ? a : ours, theirs = i == 0 || b < theirs ? b : theirs;
        if (memcmp(mine, other, sizeof mine) != 0)
            return 0;
    }
    printf("%.0f %.0f\n", (double)ours * 1e6 / CLOCKS_PER_SEC, (double)theirs * 1e6 / CLOCKS_PER_SEC);
    return 1;
}

int main(void)
{
    if (load("mixed") && measured()) {
        draw();
        if (measured())
            return 0;
    }
    fprintf(stderr, "census: no capture, or the two differ\n");
    return 1;
}
