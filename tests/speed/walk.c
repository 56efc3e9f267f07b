/* What our program `seek` does, by the second program's walk from the start: every location of every record's bank is looked up
   in the map on standard input, 64 times over. Writes how many of the look-ups found a record, and a checksum. */
#include <inttypes.h>
#include <stdio.h>

#include "banks.h"

enum { ROUNDS = 64, LOCATIONS = 255 };

static uint64_t found, checksum;

static void seek_bank(const Lent *lent, uint8_t bank)
{
    Value value;
    for (uint32_t location = 0; location < LOCATIONS; location++) {
        checksum *= 3;
        if (value_holding(lent, bank, location, &value))
            found++, checksum += value.offset;
    }
}

int main(void)
{
    uint8_t map[512];
    const Lent lent = { .map = map, .map_len = fread(map, 1, sizeof map, stdin) };
    for (int round = 0; round < ROUNDS; round++)
        for (size_t i = 0; i < record_count(&lent); i++)
            seek_bank(&lent, record_at(&lent, i).bank);
    printf("found %" PRIu64 "\nchecksum %" PRIu64 "\n", found, checksum);
    return 0;
}
