/* capture DIR: a unit with a map of 64 records, and three captures of 2,000,000 records each, for the bench: mixed
   traffic, mostly foreign traffic, writing sessions. */
#include <stdint.h>
#include <stdio.h>
#include <stdlib.h>
#include <string.h>

enum { RECORDS = 2000000, BANKS = 8, VALUES = 6 };

static const uint8_t FIRST[VALUES] = { 0x03, 0x10, 0x20, 0x30, 0x40, 0x50 };
static const uint8_t WIDTH[VALUES] = { 4, 2, 8, 1, 3, 2 };
static const uint8_t KIND[VALUES] = { 4, 2, 4, 2, 4, 1 };
static const uint8_t LOCKABLE[VALUES] = { 1, 0, 1, 0, 0, 0 };

static uint64_t seed = 1;

static uint32_t draw(uint32_t below)
{
    seed = seed * 6364136223846793005u + 1442695040888963407u;
    return (uint32_t)(seed >> 33) % below;
}

static FILE *file(const char *dir, const char *name)
{
    char path[4096];
    snprintf(path, sizeof path, "%s/%s", dir, name);
    FILE *f = fopen(path, "wb");
    if (f == NULL) {
        perror(path);
        exit(1);
    }
    return f;
}

static uint32_t place;

static void record(FILE *f, uint32_t bank, uint8_t first, uint8_t width, uint8_t kind, uint8_t lockable)
{
    uint8_t r[8] = { (uint8_t)bank, first, width, kind, lockable, 0, (uint8_t)(place >> 8), (uint8_t)place };
    fwrite(r, 1, 8, f);
    place += width;
}

static void unit(const char *dir)
{
    FILE *map = file(dir, "unit.map");
    uint8_t store[4096] = { 0 };
    for (uint32_t bank = 1; bank <= BANKS; bank++) {
        store[place] = 0xFE;
        record(map, bank, 0x00, 1, 0, 0);
        record(map, bank, 0x02, 1, 2, 0);
        for (int v = 0; v < VALUES; v++)
            record(map, bank, FIRST[v], WIDTH[v], KIND[v], LOCKABLE[v]);
    }
    fclose(map);
    FILE *sto = file(dir, "unit.sto"), *rst = file(dir, "unit.rst"), *adr = file(dir, "unit.adr");
    fwrite(store, 1, place, sto);
    fwrite(store, 1, place, rst);
    fwrite("\5\0\0\0\2", 1, 5, adr);
    fclose(sto);
    fclose(rst);
    fclose(adr);
}

static uint32_t clock_now, written;

static void heard(FILE *f, uint8_t kind, uint32_t number)
{
    if (written == RECORDS)
        return;
    uint8_t r[8] = { (uint8_t)(clock_now >> 24), (uint8_t)(clock_now >> 16), (uint8_t)(clock_now >> 8),
                     (uint8_t)clock_now, kind, (uint8_t)(number >> 16), (uint8_t)(number >> 8), (uint8_t)number };
    fwrite(r, 1, 8, f);
    clock_now += 20;
    written++;
}

static void frame(FILE *f, uint32_t number) { heard(f, 0, number); }

static void pair(FILE *f, uint32_t number)
{
    frame(f, number);
    frame(f, number);
}

/* bank, ENABLE pair, lock byte */
static void unlock(FILE *f, uint32_t bank)
{
    frame(f, 0xC13100 + bank);
    pair(f, 0x0BFE15);
    frame(f, 0xC50255);
}

/* one setting of a value: its bank unlocked, the bytes, lock byte */
static void session(FILE *f)
{
    uint32_t v = draw(5);
    unlock(f, 1 + draw(BANKS));
    frame(f, 0xC13000 + FIRST[v]);
    for (int i = 0; i < WIDTH[v]; i++)
        frame(f, 0xC12000 + draw(256));
    frame(f, 0xC502FF);
}

static void foreign(FILE *f)
{
    switch (draw(3)) {
    case 0: frame(f, ((6 + draw(50)) * 2 + 1) << 16 | 0xFE00 | draw(256)); break;
    case 1: frame(f, draw(0x400000) * 2 % 0x10000 | draw(64) << 17); break;
    default: frame(f, 0xE10000 + draw(65536)); break;
    }
}

static void reading(FILE *f)
{
    frame(f, 0xC13100 + 1 + draw(BANKS));
    frame(f, 0xC13000 + FIRST[draw(VALUES)]);
    for (int i = 0; i < 4; i++)
        frame(f, 0x0BFE3C);
}

/* queries, groups, a reset of a bank, a power-on */
static void service(FILE *f)
{
    uint32_t bank = 1 + draw(BANKS);
    switch (draw(8)) {
    case 0: case 1: case 2: frame(f, 0x0BFE36 + draw(3)); break;
    case 3: case 4: frame(f, 0xFFFE41 + draw(4)); break;
    case 5: frame(f, 0xC90000 + draw(65536)), pair(f, 0x0BFE19 + draw(4)); break;
    case 6: unlock(f, bank), frame(f, 0xC13000 + bank), pair(f, 0x0BFE11); break;
    default: heard(f, 1, 0); break;
    }
}

/* Of 100 turns so many are sessions, readings, services; the others are foreign frames. */
static void capture(const char *dir, const char *name, uint32_t sessions, uint32_t readings, uint32_t services)
{
    FILE *f = file(dir, name);
    clock_now = written = 0;
    while (written < RECORDS) {
        uint32_t turn = draw(100);
        if (turn < sessions)
            session(f);
        else if (turn < sessions + readings)
            reading(f);
        else if (turn < sessions + readings + services)
            service(f);
        else
            foreign(f);
    }
    fclose(f);
}

int main(int count, char **words)
{
    if (count != 2) {
        fprintf(stderr, "usage: capture DIR\n");
        return 2;
    }
    unit(words[1]);
    capture(words[1], "mixed", 10, 15, 10);
    capture(words[1], "foreign", 1, 1, 1);
    capture(words[1], "sessions", 90, 5, 0);
    return 0;
}
