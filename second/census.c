/* Reads all 16,777,216 frames in order: counts by class, and a checksum. */
#include <inttypes.h>
#include <stdio.h>
#include <stdlib.h>

#include "capture.h"

enum { FRAMES = 0x1000000 };

#define CHECKSUM_MODULUS UINT64_C(4294967291)

int main(void)
{
    uint64_t counts[CLASSES + 1] = {0};
    uint64_t checksum = 0;
    for (uint32_t frame = 0; frame < FRAMES; frame++) {
        uint64_t word = second_read(frame);
        counts[class_of_word(word)]++;
        checksum = (31 * checksum + word % CHECKSUM_MODULUS) % CHECKSUM_MODULUS;
    }
    for (unsigned i = 0; i < CLASSES; i++) {
        printf("%s %" PRIu64 "\n", count_names[i], counts[i]);
    }
    printf("checksum %" PRIu64 "\n", checksum);
    return counts[CLASSES] == 0 ? EXIT_SUCCESS : EXIT_FAILURE;
}
