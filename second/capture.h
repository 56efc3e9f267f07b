/* The class of a frame, for the census call and the programs that count. */
#ifndef SECOND_CAPTURE_H
#define SECOND_CAPTURE_H

#include "unit.h"

/* What is counted, by name. */
extern const char *const count_names[CENSUS_COUNTS];

/* The class of a message word; CLASSES where no frame is read as it. */
unsigned class_of_word(uint64_t word);

#endif
