/* A unit hears the nine frames of the worked example, answers, and its setting is looked at. */
#include <mirtofalko.h>

#include <stdio.h>
#include <string.h>

/* Bank 2: its last location, its lock byte, and behind the lock a threshold of four bytes. */
static const uint8_t map[] = {2, 0, 1, MF_ROM,    0, 0, 0, 0,
                              2, 2, 1, MF_RAM_RW, 0, 0, 0, 1,
                              2, 3, 4, MF_NVM_RW, 1, 0, 0, 2};
static const uint8_t image[] = {6, 0xFF, 0, 0, 0, 0x32};
static uint8_t store[] = {6, 0xFF, 0, 0, 0, 0x64}; /* in a node: what its flash held */
static uint8_t state[MF_STATE_BYTES];
static mf_unit unit;

static const uint32_t frames[] = {0x0BFE15, 0x0BFE15, 0xC13102, 0xC13002, 0xC12055,
                                  0xC12000, 0xC12000, 0xC12001, 0xC1202C};
static const uint8_t wanted[] = {0x00, 0x00, 0x01, 0x2C};

/* 1 where a call was refused: then state and store are as they were. */
static int refused(uint32_t answer) {
    if (mf_number(answer) == MF_OK) return 0;
    fprintf(stderr, "refused by %u: %s\n", (unsigned)mf_number(answer), mf_text(mf_number(answer)));
    return 1;
}

int main(void) {
    unit.map = map, unit.map_length = sizeof map;
    unit.store = store, unit.store_length = sizeof store;
    unit.image = image, unit.image_length = sizeof image;
    unit.state = state;
    if (refused(mf_unit_start(&unit, 5, 0))) return 1; /* short address 5, in no group */

    for (uint32_t i = 0; i < sizeof frames / sizeof frames[0]; i++) {
        uint32_t answer = mf_unit_hear(&unit, frames[i], 20 * i); /* one every 20 milliseconds */
        if (refused(answer)) return 1;
        if (mf_answered(answer)) printf("%06X is answered by %02X\n", (unsigned)frames[i], mf_answer(answer));
    }

    uint32_t look = mf_unit_look(&unit, 2, 3); /* the value that begins in bank 2 at location 3 */
    if (refused(look)) return 1;
    if (mf_width(look) != sizeof wanted || memcmp(mf_unit_bytes(&unit, look), wanted, sizeof wanted) != 0) return 1;
    printf("the threshold is 00 00 01 2C\n");
    return 0;
}
