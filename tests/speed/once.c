/* The second program's unit with its checks made once, at the start: a frame or power-on that follows goes straight to
   its step. Our trace program checks once for each slice of its input. Linked in place of the second program's unit. */
#define second_frame checked_frame
#define second_power_on checked_power_on
#include "unit.c"
#undef second_frame
#undef second_power_on

uint32_t second_frame(const uint8_t *map, size_t map_len, uint8_t *store, size_t store_len, const uint8_t *image,
                      size_t image_len, Unit *unit, uint32_t frame, uint32_t clock)
{
    const Lent lent = {map, map_len, store, store_len, image, store};
    (void)image_len;
    return step(&lent, unit, frame, clock);
}

uint32_t second_power_on(const uint8_t *map, size_t map_len, uint8_t *store, size_t store_len, const uint8_t *image,
                         size_t image_len, Unit *unit)
{
    const Lent lent = {map, map_len, store, store_len, image, store};
    (void)image_len;
    power_on_store(&lent);
    *unit = fresh_unit(unit->address, unit->groups);
    return 0;
}
