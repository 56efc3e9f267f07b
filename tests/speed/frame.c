/* In a unit's folder with the capture `mixed`: 1,000 calls of mf_frame, and of the second program's step, each with all
   its checks, on the capture's first records. Both must give the same. Prints the processor time of both in
   microseconds, the least of 50 rounds in turn. */
#include <stdint.h>
#include <stdio.h>
#include <string.h>
#include <time.h>

#include "mirtofalko.h"
#include "unit.h"

enum { CALLS = 1000, ROUNDS = 50 };

typedef uint32_t Step(const uint8_t *map, size_t map_length, uint8_t *store, size_t store_length, const uint8_t *image,
                      size_t image_length, uint8_t *state, uint32_t frame, uint32_t clock);

/* What a round leaves. */
typedef struct Left {
    uint8_t store[4096], state[96];
    uint32_t answers[CALLS];
} Left;

static uint8_t map[512], first[4096], image[4096], records[8 * CALLS];
static size_t map_bytes, store_bytes;

static size_t load(const char *name, uint8_t *into, size_t most)
{
    FILE *f = fopen(name, "rb");
    size_t n = f == NULL ? 0 : fread(into, 1, most, f);
    if (f != NULL)
        fclose(f);
    return n;
}

static uint32_t number_at(const uint8_t *b)
{
    return (uint32_t)b[0] << 24 | (uint32_t)b[1] << 16 | (uint32_t)b[2] << 8 | b[3];
}

/* The second program's own call over 96 bytes checks map, store and image twice; here once, as mf_frame does. */
static uint32_t second_step(const uint8_t *m, size_t m_length, uint8_t *store, size_t store_length, const uint8_t *i,
                            size_t i_length, uint8_t *state, uint32_t frame, uint32_t at)
{
    Unit unit;
    if (!second_unpack(state, &unit))
        return STATE_RULE;
    uint32_t answer = second_frame(m, m_length, store, store_length, i, i_length, &unit, frame, at);
    second_pack(&unit, state);
    return answer;
}

/* One round; its time. */
static clock_t round_of(Step *step, Left *left)
{
    memset(left, 0, sizeof *left);
    memcpy(left->store, first, sizeof first);
    mf_start(map, map_bytes, left->store, store_bytes, image, store_bytes, 5, 2, left->state);
    clock_t began = clock();
    for (size_t i = 0; i < CALLS; i++) {
        const uint8_t *r = records + 8 * i;
        left->answers[i] = step(map, map_bytes, left->store, store_bytes, image, store_bytes, left->state,
                                number_at(r + 4) & 0xFFFFFF, number_at(r));
    }
    return clock() - began;
}

static bool accepted(const Left *left)
{
    bool all = true;
    for (size_t i = 0; i < CALLS; i++)
        all = all && mf_number(left->answers[i]) == MF_OK;
    return all;
}

int main(void)
{
    static Left mine, other;
    clock_t ours = 0, theirs = 0;
    map_bytes = load("unit.map", map, sizeof map);
    store_bytes = load("unit.sto", first, sizeof first);
    load("unit.rst", image, sizeof image);
    bool alike = load("mixed", records, sizeof records) == sizeof records;
    for (int i = 0; i < ROUNDS && alike; i++) {
        clock_t a = round_of(mf_frame, &mine), b = round_of(second_step, &other);
        ours = i == 0 || a < ours ? a : ours, theirs = i == 0 || b < theirs ? b : theirs;
        alike = accepted(&mine) && memcmp(&mine, &other, sizeof mine) == 0;
    }
    if (!alike) {
        fprintf(stderr, "frame: a call was refused, or the two differ\n");
        return 1;
    }
    printf("%.0f %.0f\n", (double)ours * 1e6 / CLOCKS_PER_SEC, (double)theirs * 1e6 / CLOCKS_PER_SEC);
    return 0;
}
