/* A node's main loop: a unit is started, or goes on from the state that was kept over a reset of the processor; it
 * hears frames, answers, and its setting is looked at. The map is the bench sheet's: bank 2 with its last location, its
 * lock byte, and one lockable setting of four bytes. */
#include <mirtofalko.h>

#include <stdio.h>

static const uint8_t map[] = {2, 0, 1, MF_ROM,    0, 0, 0, 0,
                              2, 2, 1, MF_RAM_RW, 0, 0, 0, 1,
                              2, 3, 4, MF_NVM_RW, 1, 0, 0, 2};
static const uint8_t image[] = {6, 0xFF, 0, 0, 0, 0x32};
static uint8_t store[] = {6, 0xFF, 0, 0, 0, 0x64}; /* in your node: what its flash held */
static uint8_t state[MF_STATE_BYTES];              /* in your node: in memory that a reset of the processor leaves */
static int state_is_kept;                          /* in your node: set there once the unit is started */
static mf_unit unit;

/* In your node: what the bus driver received. */
static const struct {
    uint32_t frame, clock;
} heard[] = {
    {0x0BFE15, 0},   {0x0BFE15, 100},                                   /* ENABLE WRITE MEMORY, twice */
    {0xC13102, 120}, {0xC13002, 140}, {0xC12055, 160},                  /* bank 2, location 2: unlock */
    {0xC12000, 180}, {0xC12000, 200}, {0xC12001, 220}, {0xC1202C, 240}, /* the setting, byte by byte */
    {0x828805, 260},                                                    /* an event: for nobody here */
};

/* In your node: hand the byte to the bus driver as a backward frame. */
static void send(uint8_t byte) { printf("  answers %02X\n", byte); }

/* A number here means that map, store, image or state were damaged: stop, and tell. */
static int refused(uint32_t answer) {
    if (mf_number(answer) == MF_OK) return 0;
    printf("refused by %u: %s\n", (unsigned)mf_number(answer), mf_text(mf_number(answer)));
    return 1;
}

static void lend(void) {
    unit.map = map, unit.map_length = sizeof map;
    unit.store = store, unit.store_length = sizeof store;
    unit.image = image, unit.image_length = sizeof image;
    unit.state = state;
}

/* Zeros are a state too, so whether one was kept has to be known apart; a damaged one is refused, and started anew. */
static int begin(void) {
    if (state_is_kept && mf_number(mf_unit_power_on(&unit)) == MF_OK) return 0;
    state_is_kept = !refused(mf_unit_start(&unit, 5, 0));
    return !state_is_kept;
}

static int show_setting(void) {
    uint32_t look = mf_unit_look(&unit, 2, 3);
    if (refused(look)) return 1;
    printf("setting:");
    for (uint32_t i = 0; i < mf_width(look); i++) printf(" %02X", mf_unit_bytes(&unit, look)[i]);
    printf("\n");
    return 0;
}

int main(void) {
    lend();
    if (begin() || show_setting()) return 1;
    for (size_t i = 0; i < sizeof heard / sizeof heard[0]; i++) {
        uint32_t answer = mf_unit_hear(&unit, heard[i].frame, heard[i].clock);
        if (refused(answer)) return 1;
        printf("%06X\n", (unsigned)heard[i].frame);
        if (mf_answered(answer)) send(mf_answer(answer));
    }
    return show_setting();
}
