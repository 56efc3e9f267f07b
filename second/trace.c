/* The trace program. */
#include <stdlib.h>

#include "files.h"

enum { BUFFER_BYTES = 1 << 16 };

static char input_buffer[BUFFER_BYTES];
static char output_buffer[BUFFER_BYTES];

/* Per record it writes 4 bytes: number or 0, answered 0/1, answer or 0,
   zero. */
static void write_result(uint32_t result)
{
    const uint8_t bytes[4] = {(uint8_t)(result & 0xFF),
                              (uint8_t)(result >> 8 & 0xFF),
                              (uint8_t)(result >> 16 & 0xFF), 0};
    (void)fwrite(bytes, 1, sizeof bytes, stdout);
}

/* Refusal 13, its 4 bytes written, ends the input. */
static void run_records(Files *files, Unit *unit)
{
    TraceRecord record = read_record(stdin);
    while (record.kind != NO_RECORD) {
        write_result(obey_record(files, unit, &record));
        if (record.kind == BAD_RECORD) {
            return;
        }
        record = read_record(stdin);
    }
}

int main(void)
{
    static Files files;
    Unit unit;
    (void)setvbuf(stdin, input_buffer, _IOFBF, sizeof input_buffer);
    (void)setvbuf(stdout, output_buffer, _IOFBF, sizeof output_buffer);
    read_files(".", &files);
    uint32_t started = start_from_files(&files, &unit);
    if (started != 0) {
        write_result(started); /* a refused start writes its 4 bytes only */
    } else {
        run_records(&files, &unit);
        (void)fwrite(files.store, 1, files.store_len, stdout); /* last */
    }
    bool failed = fflush(stdout) != 0 || ferror(stdout) != 0;
    return failed ? EXIT_FAILURE : EXIT_SUCCESS;
}
