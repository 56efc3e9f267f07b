/* Writes the frames of a session as records of the trace program, 1 ms
   apart. */
#include "files.h"

/* Exit status; it is REFUSED too where the program is wrongly used or its
   output can't be written. */
enum { WRITTEN = 0, REFUSED = 2 };

/* Where the arguments stand; the bytes are the rest. */
enum { AT_MAP = 1, AT_ADDRESS, AT_BANK, AT_LOCATION, AT_BYTES };

/* What the arguments give. The map and the value have room for one byte over
   their limit. */
static uint8_t map[MAP_LIMIT + 1];
static uint32_t address;
static uint32_t bank;
static uint32_t location;
static uint8_t bytes[VALUE_LIMIT + 1];
static size_t bytes_len;

/* The worth of a digit; 16 for what is none. */
static uint32_t digit_of(char text)
{
    static const char digits[] = "0123456789abcdef";
    static const char capitals[] = "0123456789ABCDEF";
    uint32_t digit = 0;
    while (digit < 16 && text != digits[digit] && text != capitals[digit]) {
        digit++;
    }
    return digit;
}

/* Digits of a base and nothing else, at least one; false too where the number
   needs more than 32 bits. */
static bool digits_of(const char *text, uint32_t base, uint32_t *number)
{
    uint64_t sum = 0;
    if (*text == '\0') {
        return false;
    }
    for (; *text != '\0'; text++) {
        uint32_t digit = digit_of(*text);
        sum = sum * base + digit;
        if (digit >= base || sum > UINT32_MAX) {
            return false;
        }
    }
    *number = (uint32_t)sum;
    return true;
}

/* A decimal number, or a hexadecimal one behind 0x. */
static bool number_of(const char *text, uint32_t *number)
{
    if (text[0] == '0' && text[1] == 'x') {
        return digits_of(text + 2, 16, number);
    }
    return digits_of(text, 10, number);
}

/* False where a byte is no number, or over 255. One byte over the limit is
   enough to see that there are too many. */
static bool take_bytes(int count, char **texts)
{
    for (int i = 0; i < count; i++) {
        uint32_t byte;
        if (!number_of(texts[i], &byte) || byte > 0xFF) {
            return false;
        }
        if (bytes_len < sizeof bytes) {
            bytes[bytes_len++] = (uint8_t)byte;
        }
    }
    return true;
}

static bool take_arguments(int argc, char **argv)
{
    return argc >= AT_BYTES && number_of(argv[AT_ADDRESS], &address)
           && number_of(argv[AT_BANK], &bank)
           && number_of(argv[AT_LOCATION], &location)
           && take_bytes(argc - AT_BYTES, argv + AT_BYTES);
}

int main(int argc, char **argv)
{
    uint32_t frames[SESSION_ROOM];
    if (!take_arguments(argc, argv)) {
        (void)fprintf(stderr,
                      "usage: sessions MAP ADDRESS BANK LOCATION BYTE..\n");
        return REFUSED;
    }
    size_t map_len = read_file(argv[AT_MAP], map, MAP_LIMIT);
    uint32_t answer = second_session(map, map_len, address, bank, location,
                                     bytes, bytes_len, frames);
    unsigned number = answer & 0xFF;
    uint32_t count = answer >> 8;
    if (number != 0) {
        (void)fprintf(stderr, "%u\n", number);
        return REFUSED;
    }
    for (uint32_t i = 0; i < count; i++) {
        write_frame(stdout, i, frames[i]);
    }
    if (fflush(stdout) != 0 || ferror(stdout) != 0) {
        return REFUSED;
    }
    return WRITTEN;
}
