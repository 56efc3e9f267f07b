/* Counts what a capture on standard input carried. */
#include <inttypes.h>
#include <stdio.h>

#include "capture.h"

/* Exit status; it is FAILED too where the program is wrongly used. */
enum { COUNTED = 0, FAILED = 2 };

/* A part of the capture: whole records, but at the end of the input. */
enum { PART_BYTES = 4096 * RECORD_LENGTH };

static uint8_t part[PART_BYTES];

/* Part by part, up to the end of the input or 13. */
static uint32_t count_input(uint64_t counts[CENSUS_COUNTS])
{
    size_t length;
    uint32_t number;
    do {
        length = fread(part, 1, sizeof part, stdin);
        number = second_census(part, length, counts);
    } while (number == 0 && length == sizeof part);
    return number;
}

/* Each record but the one that gave 13 was counted once. */
static void print_counts(const uint64_t counts[CENSUS_COUNTS], uint32_t number)
{
    uint64_t records = 0;
    for (unsigned i = 0; i < CENSUS_COUNTS; i++) {
        printf("%s %" PRIu64 "\n", count_names[i], counts[i]);
        records += counts[i];
    }
    printf("number %" PRIu32, number);
    if (number != 0) {
        printf(" record %" PRIu64, records);
    }
    printf("\n");
}

int main(int argc, char **argv)
{
    uint64_t counts[CENSUS_COUNTS] = {0};
    (void)argv;
    if (argc != 1) {
        (void)fprintf(stderr, "usage: captured <records\n");
        return FAILED;
    }
    uint32_t number = count_input(counts);
    print_counts(counts, number);
    if (fflush(stdout) != 0 || ferror(stdout) != 0) {
        return FAILED;
    }
    return COUNTED;
}
