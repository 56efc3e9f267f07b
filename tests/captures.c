/* Captures for tests, on standard output.
 *   captures all                every frame once
 *   captures random SEED COUNT  records of every class, power-on records, and now and then one of unknown kind
 *   captures unready COMMAND..  none: runs the command, with a standard input of which a read fails where it would wait
 *   captures [COUNT FRAME]..    so many records of each frame, in hexadecimal; `on` is a power-on record
 */
#define _POSIX_C_SOURCE 200809L
#include <fcntl.h>
#include <stdint.h>
#include <stdio.h>
#include <stdlib.h>
#include <string.h>
#include <unistd.h>

enum { FRAME = 0, POWER_ON = 1, FRAMES = 1 << 24 };

static void put_record(uint32_t clock, uint8_t kind, uint32_t frame)
{
    const uint8_t bytes[8] = {(uint8_t)(clock >> 24), (uint8_t)(clock >> 16), (uint8_t)(clock >> 8), (uint8_t)clock, kind,
                              (uint8_t)(frame >> 16), (uint8_t)(frame >> 8), (uint8_t)frame};
    (void)fwrite(bytes, 1, sizeof bytes, stdout);
}

/* Numbers by a fixed rule, so that a seed gives one capture. */
static uint64_t drawn;

static uint32_t draw(uint32_t below)
{
    drawn = drawn * UINT64_C(6364136223846793005) + UINT64_C(1442695040888963407);
    return (uint32_t)(drawn >> 33) % below;
}

/* One frame in eight is a power event, good or not, and one in eight a command to all, or to all without an address: these are
 * few among all frames. */
static uint32_t some_frame(void)
{
    switch (draw(8)) {
    case 0:
        return 0xFEE000 + draw(2) * draw(0x2000);
    case 1:
        return (draw(2) == 0 ? 0xFD0000 : 0xFF0000) + draw(0x10000);
    default:
        return draw(FRAMES);
    }
}

static void put_random(uint64_t seed, uint32_t count)
{
    drawn = seed;
    for (uint32_t i = 0; i < count; i++) {
        uint32_t of = draw(10000);
        uint8_t kind = of < 2 ? (uint8_t)(2 + draw(254)) : of < 600 ? POWER_ON : FRAME;
        put_record(draw(UINT32_MAX), kind, some_frame());
    }
}

static void put_many(unsigned long count, const char *frame)
{
    uint8_t kind = strcmp(frame, "on") == 0 ? POWER_ON : FRAME;
    for (unsigned long i = 0; i < count; i++) {
        put_record((uint32_t)i, kind, kind == FRAME ? (uint32_t)strtoul(frame, NULL, 16) : 0);
    }
}

int main(int argc, char **argv)
{
    if (argc == 2 && strcmp(argv[1], "all") == 0) {
        for (uint32_t frame = 0; frame < FRAMES; frame++) {
            put_record(frame, FRAME, frame);
        }
    } else if (argc == 4 && strcmp(argv[1], "random") == 0) {
        put_random(strtoull(argv[2], NULL, 10), (uint32_t)strtoul(argv[3], NULL, 10));
    } else if (argc > 2 && strcmp(argv[1], "unready") == 0) {
        return fcntl(STDIN_FILENO, F_SETFL, O_NONBLOCK) == 0 ? execvp(argv[2], argv + 2) : 1;
    } else {
        for (int i = 1; i + 1 < argc; i += 2) {
            put_many(strtoul(argv[i], NULL, 10), argv[i + 1]);
        }
    }
    return fflush(stdout) == 0 && ferror(stdout) == 0 ? 0 : 1;
}
