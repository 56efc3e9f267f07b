/* The files and records of the trace program. */
#include "files.h"

#include <string.h>

size_t read_file(const char *path, uint8_t *bytes, size_t limit)
{
    FILE *file = fopen(path, "rb");
    if (file == NULL) {
        return 0;
    }
    size_t count = fread(bytes, 1, limit + 1, file);
    (void)fclose(file);
    return count;
}

static size_t read_from(const char *folder, const char *name, uint8_t *bytes,
                        size_t limit)
{
    char path[4096];
    int length = snprintf(path, sizeof path, "%s/%s", folder, name);
    if (length < 0 || (size_t)length >= sizeof path) {
        return 0;
    }
    return read_file(path, bytes, limit);
}

void read_files(const char *folder, Files *files)
{
    memset(files, 0, sizeof *files);
    files->map_len = read_from(folder, "unit.map", files->map, MAP_LIMIT);
    files->store_len = read_from(folder, "unit.sto", files->store, STORE_LIMIT);
    files->image_len = read_from(folder, "unit.rst", files->image, STORE_LIMIT);
    files->adr_len = read_from(folder, "unit.adr", files->adr, ADR_BYTES);
}

/* Four bytes, high first. */
static uint32_t number_of(const uint8_t *bytes)
{
    return (uint32_t)bytes[0] << 24 | (uint32_t)bytes[1] << 16
           | (uint32_t)bytes[2] << 8 | bytes[3];
}

uint32_t start_from_files(Files *files, Unit *unit)
{
    if (files->adr_len != ADR_BYTES) {
        uint32_t number = second_check(files->map, files->map_len, files->store,
                                       files->store_len, files->image_len);
        return number != 0 ? number : FIELD_OUT_OF_RANGE;
    }
    return second_start(files->map, files->map_len, files->store,
                        files->store_len, files->image, files->image_len,
                        files->adr[0], number_of(files->adr + 1), unit);
}

/* Clock (4, high first), kind 0 frame or 1 power-on, frame (3). */
TraceRecord read_record(FILE *input)
{
    TraceRecord record = {NO_RECORD, 0, 0};
    uint8_t bytes[RECORD_LENGTH];
    size_t count = fread(bytes, 1, RECORD_LENGTH, input);
    if (count == 0) {
        return record;
    }
    if (count < RECORD_LENGTH || bytes[4] > 1) {
        record.kind = BAD_RECORD;
        return record;
    }
    record.kind = bytes[4] == 0 ? FRAME_RECORD : POWER_ON_RECORD;
    record.clock = number_of(bytes);
    record.frame = number_of(bytes + 4) & 0xFFFFFF;
    return record;
}

/* Four bytes, high first. */
static void put_number(uint8_t *bytes, uint32_t number)
{
    bytes[0] = (uint8_t)(number >> 24);
    bytes[1] = (uint8_t)(number >> 16 & 0xFF);
    bytes[2] = (uint8_t)(number >> 8 & 0xFF);
    bytes[3] = (uint8_t)(number & 0xFF);
}

/* A frame needs three bytes: the highest of its four is the kind 0. */
void write_frame(FILE *output, uint32_t clock, uint32_t frame)
{
    uint8_t bytes[RECORD_LENGTH];
    put_number(bytes, clock);
    put_number(bytes + 4, frame);
    (void)fwrite(bytes, 1, sizeof bytes, output);
}

uint32_t obey_record(Files *files, Unit *unit, const TraceRecord *record)
{
    if (record->kind == BAD_RECORD) {
        return TRACE_RECORD;
    }
    if (record->kind == POWER_ON_RECORD) {
        /* Clock and frame of a power-on record are ignored. */
        return second_power_on(files->map, files->map_len, files->store,
                               files->store_len, files->image,
                               files->image_len, unit);
    }
    return second_frame(files->map, files->map_len, files->store,
                        files->store_len, files->image, files->image_len, unit,
                        record->frame, record->clock);
}
