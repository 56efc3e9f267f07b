/* The files and records of the trace program. */
#ifndef SECOND_FILES_H
#define SECOND_FILES_H

#include <stdio.h>

#include "unit.h"

enum { ADR_BYTES = 5 }; /* address, then 32 group bits, high byte first */

/* Each file has room for one byte over its limit, so that a longer file is
   seen to be longer. */
typedef struct Files {
    uint8_t map[MAP_LIMIT + 1];
    size_t map_len;
    uint8_t store[STORE_LIMIT + 1];
    size_t store_len;
    uint8_t image[STORE_LIMIT + 1];
    size_t image_len;
    uint8_t adr[ADR_BYTES + 1];
    size_t adr_len;
} Files;

/* A missing file counts as empty. Reads one byte over the limit at most. */
size_t read_file(const char *path, uint8_t *bytes, size_t limit);

/* Reads unit.map, unit.sto, unit.rst, unit.adr of a folder. */
void read_files(const char *folder, Files *files);

/* Start from the files; a wrong length of unit.adr is 6. */
uint32_t start_from_files(Files *files, Unit *unit);

/* What a record makes of the input. */
typedef enum RecordKind {
    FRAME_RECORD,
    POWER_ON_RECORD,
    BAD_RECORD, /* unfinished or of unknown kind */
    NO_RECORD   /* the input has ended */
} RecordKind;

typedef struct TraceRecord {
    RecordKind kind;
    uint32_t clock;
    uint32_t frame;
} TraceRecord;

TraceRecord read_record(FILE *input);

/* Writes a frame's record; whether it was lost is seen at the file. */
void write_frame(FILE *output, uint32_t clock, uint32_t frame);

/* Hands one record to the unit: number | answered << 8 | answer << 16. */
uint32_t obey_record(Files *files, Unit *unit, const TraceRecord *record);

#endif
