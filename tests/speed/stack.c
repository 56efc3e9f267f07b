/* stack LIMIT: the stack that each call of the C library needs, in bytes: it runs on a stack of its own, of 16,384 bytes, that
   was painted before, and the lowest byte that it wrote counts. Worst over random units, each with a start, a reset of all its banks,
   and a list of frames. To be linked with its symbols bound at once: the lazy binding of a first call would count too.
   The status is 1 where a call needs more than the limit, or no unit had 64 records. */
#define _XOPEN_SOURCE 700
#include "inputs.h"

#include <inttypes.h>
#include <stdio.h>
#include <stdlib.h>
#include <string.h>
#include <ucontext.h>

enum { STACK = 1 << 14, PAINT = 0xA5, UNITS = 400, FRAMES = 60, RESET_BANK = 0xFFFE11, ADDRESS = 5, GROUPS = 2 };

static uint8_t stack[STACK], records_in[64], records_out[32], others[ROOM], list[64 * MF_DIFFERENCE_BYTES];
static ucontext_t here, there;
static void (*job)(void);

static Lent lent;
static Kept kept, tried;
static uint32_t frame, now, session_frames[MF_SESSION_FRAMES];
static uint64_t word, counts[MF_COUNTS];

static void do_nothing(void) {}

static void do_check(void)
{
    mf_check(lent.map, lent.map_length, kept.store, lent.store_length, lent.image, lent.image_length);
}

static void do_start(void)
{
    mf_start(lent.map, lent.map_length, tried.store, lent.store_length, lent.image, lent.image_length, ADDRESS, GROUPS,
             tried.state);
}

static void do_frame(void)
{
    mf_frame(lent.map, lent.map_length, tried.store, lent.store_length, lent.image, lent.image_length, tried.state,
             frame, now);
}

static void do_power_on(void)
{
    mf_power_on(lent.map, lent.map_length, tried.store, lent.store_length, lent.image, lent.image_length, tried.state);
}

static void do_run(void)
{
    mf_run(lent.map, lent.map_length, tried.store, lent.store_length, lent.image, lent.image_length, tried.state,
           records_in, sizeof records_in, records_out, sizeof records_out);
}

static void do_look(void)
{
    mf_look(lent.map, lent.map_length, kept.store, lent.store_length, frame >> 8 & 0xFF, frame & 0xFF);
}

static void do_find(void) { mf_find(lent.map, lent.map_length, frame >> 8 & 0xFF, frame & 0xFF); }
static void do_compare(void)
{
    mf_compare(lent.map, lent.map_length, kept.store, lent.store_length, others, lent.store_length, list, sizeof list);
}
/* Of one record after the other: the deepest one is that of a lockable value of eight bytes. */
static void do_session(void)
{
    const uint8_t *r = record(&lent, now / 10 % (records(&lent) > 0 ? records(&lent) : 1));
    mf_session(lent.map, lent.map_length, ADDRESS, r[0], r[1], list, r[2] <= 8 ? r[2] : 0, session_frames);
}
static void do_read(void) { word = mf_read(frame); }
static void do_write(void) { mf_write(word); }
static void do_compose_event(void)
{
    mf_compose_event(1, 2, 3, frame & 0x100 ? 4 : MF_NO_ADDRESS, frame, 5, frame % 6 < 5 ? frame % 6 : MF_AS_SHIPPED);
}
static void do_compose_power(void) { mf_compose_power(frame % 64, frame); }
static void do_census(void) { mf_census(records_in, sizeof records_in - frame % 8, counts); }

static struct {
    const char *name;
    void (*job)(void);
    size_t worst;
} calls[] = {
    {"mf_check", do_check, 0},           {"mf_start", do_start, 0},
    {"mf_frame", do_frame, 0},           {"mf_power_on", do_power_on, 0},
    {"mf_run", do_run, 0},               {"mf_look", do_look, 0},
    {"mf_find", do_find, 0},             {"mf_compare", do_compare, 0},
    {"mf_session", do_session, 0},       {"mf_read", do_read, 0},
    {"mf_write", do_write, 0},           {"mf_compose_event", do_compose_event, 0},
    {"mf_compose_power", do_compose_power, 0}, {"mf_census", do_census, 0},
};

enum { CALLS = sizeof calls / sizeof *calls };

static void run_job(void) { job(); }

/* Bytes of the painted stack that the job wrote to; they are painted again. Most of it is passed eight bytes at a time. */
static size_t depth(void (*what)(void))
{
    uint64_t eight;
    size_t left = 0;
    memset(&eight, PAINT, sizeof eight);
    job = what;
    getcontext(&there);
    there.uc_stack.ss_sp = stack, there.uc_stack.ss_size = sizeof stack, there.uc_link = &here;
    makecontext(&there, run_job, 0);
    swapcontext(&here, &there);
    while (left < sizeof stack && memcmp(stack + left, &eight, sizeof eight) == 0)
        left += sizeof eight;
    while (left < sizeof stack && stack[left] == PAINT)
        left++;
    memset(stack + left, PAINT, sizeof stack - left);
    return sizeof stack - left;
}

/* Another store of this map: every byte is another but those at 0x00. */
static void make_others(void)
{
    for (size_t i = 0; i < sizeof others; i++)
        others[i] = (uint8_t)~kept.store[i];
    for (size_t i = 0; i < records(&lent); i++)
        if (record(&lent, i)[1] == 0)
            others[place_of(record(&lent, i))] = kept.store[place_of(record(&lent, i))];
}

/* Each call on a copy, at this frame. */
static void try_all(void)
{
    make_others();
    for (size_t i = 0; i < CALLS; i++) {
        tried = kept;
        size_t deep = depth(calls[i].job);
        calls[i].worst = deep > calls[i].worst ? deep : calls[i].worst;
    }
}

static void hear(uint32_t number)
{
    frame = number, now += 10;
    try_all();
    tried = kept;
    do_frame();
    kept = tried;
}

/* All banks unlocked, and a reset of all; the records of the run are the same pair. */
static void reset_all(void)
{
    for (size_t i = 0; i < records(&lent); i++)
        if (record(&lent, i)[0] > 0 && record(&lent, i)[1] == 2)
            kept.store[place_of(record(&lent, i))] = 0x55;
    for (size_t i = 0; i < sizeof records_in; i += 8)
        memcpy(records_in + i, (uint8_t[]){0, 0, 0, 0, 0, 0xFF, 0xFE, 0x11}, 8);
    hear(RESET_BANK);
    hear(RESET_BANK);
}

int main(int count, char **words)
{
    size_t full = 0, least = 0, deepest = 0, limit = count == 2 ? strtoul(words[1], NULL, 10) : 0;
    begin(1);
    memset(stack, PAINT, sizeof stack);
    for (uint32_t i = 0; i < UNITS; i++) {
        Plan plan = {{0}, 0, 0};
        make_lent(&lent, &kept);
        full += records(&lent) == 64;
        tried = kept;
        do_start();
        kept = tried;
        reset_all();
        for (uint32_t n = 0; n < FRAMES; n++)
            hear(next_frame(&plan, &lent, &kept));
    }
    least = depth(do_nothing);
    for (size_t i = 0; i < CALLS; i++) {
        printf("stack: %-17s %6zu bytes\n", calls[i].name, calls[i].worst - least);
        deepest = calls[i].worst - least > deepest ? calls[i].worst - least : deepest;
    }
    printf("stack of the deepest call: %zu bytes (%d units, %zu of them with 64 records)\n", deepest, UNITS, full);
    return full == 0 || deepest > limit;
}
