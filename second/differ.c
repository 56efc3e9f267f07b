/* Compares two stores of one map and writes the list of the values that
   differ. */
#include "files.h"

/* Exit status; it is REFUSED too where the program is wrongly used or its
   output can't be written. */
enum { ALIKE = 0, UNLIKE = 1, REFUSED = 2 };

/* Each has room for one byte over its limit. */
static uint8_t map[MAP_LIMIT + 1];
static uint8_t old_store[STORE_LIMIT + 1];
static uint8_t new_store[STORE_LIMIT + 1];

/* Room for every value of a map, which has one in 8 bytes. */
static uint8_t list[MAP_LIMIT / 8 * LISTED_BYTES];

int main(int argc, char **argv)
{
    if (argc != 4) {
        (void)fprintf(stderr, "usage: differ MAP OLD NEW\n");
        return REFUSED;
    }
    size_t map_len = read_file(argv[1], map, MAP_LIMIT);
    size_t old_len = read_file(argv[2], old_store, STORE_LIMIT);
    size_t new_len = read_file(argv[3], new_store, STORE_LIMIT);
    uint32_t answer = second_compare(map, map_len, old_store, old_len,
                                     new_store, new_len, list, sizeof list);
    unsigned number = answer & 0xFF;
    size_t count = answer >> 8;
    if (number != 0) {
        (void)fprintf(stderr, "%u\n", number);
        return REFUSED;
    }
    (void)fwrite(list, LISTED_BYTES, count, stdout);
    if (fflush(stdout) != 0 || ferror(stdout) != 0) {
        return REFUSED;
    }
    return count == 0 ? ALIKE : UNLIKE;
}
