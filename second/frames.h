/* A frame taken apart, for the library's own use. */
#ifndef SECOND_FRAMES_H
#define SECOND_FRAMES_H

#include <stdint.h>

/* Kinds of a target, as they stand in the table of kinds. */
enum {
    RESERVED_TARGET = 0,
    INSTANCE_NUMBER = 1,
    INSTANCE_GROUP = 2,
    INSTANCE_TYPE = 3,
    FEATURE_AT_NUMBER = 4,
    FEATURE_AT_GROUP = 5,
    FEATURE_AT_TYPE = 6,
    FEATURE_BROADCAST = 7,
    DEVICE_FEATURE = 8,
    FEATURE_AT_INSTANCE_BROADCAST = 9,
    DEVICE = 10,
    INSTANCE_BROADCAST = 11
};

/* A message holds an address, and the address holds its own kind and number;
   likewise its target. What a message does not use is zero. */
typedef struct Message {
    uint8_t refusal; /* 0 for a message */
    uint8_t kind;
    uint8_t address_kind;
    uint8_t address_number;
    uint8_t target_kind;
    uint8_t target_number;
    uint8_t opcode;
    uint8_t special;     /* 110ssss1 special, */
    uint8_t first_free;  /* with two free bytes */
    uint8_t second_free;
    uint8_t high_field;  /* bits 22..17 or 21..17 of an event */
    uint8_t low_field;   /* bits 14..10 of an event */
    uint16_t information;
    uint8_t group_present;
    uint8_t group;
    uint8_t short_present;
    uint8_t short_address;
} Message;

Message message_of_frame(uint32_t frame);

#endif
