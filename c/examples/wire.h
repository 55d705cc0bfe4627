/* Bodies of messages and of replies, for the examples: docs/FORMAT.md, "The wire". Numbers have the high byte first. */
#ifndef WIRE_H
#define WIRE_H

#include <stdint.h>
#include <string.h>

enum operation {
    OPEN = 0x01, SET_FORMAT = 0x06, REQUEST_BUFFERS = 0x07, QUEUE_OUTPUT = 0x09, QUEUE_CAPTURE = 0x0a, TAKE = 0x0b,
    TAKE_WAITING = 0x0c, STREAM_ON = 0x0d, SUBSCRIBE = 0x0f, EVENT_WAITING = 0x12
};

enum reply { DONE = 0x00, COUNT = 0x03, TAKEN = 0x05, REFUSED = 0x40, BLOCKED = 0x41 };

enum side { OUTPUT = 0, CAPTURE = 1 };

enum kind { COPIER = 0, ENCODER = 1, DECODER = 2 };

/* The bytes before those of a picture: in a message that queues one, and in the reply that hands one out. */
#define QUEUE_FIELDS 17
#define TAKEN_FIELDS 29

static inline uint8_t *put_number(uint8_t *at, uint32_t number)
{
    for (int i = 0; i < 4; i++)
        at[i] = (uint8_t)(number >> (24 - 8 * i));
    return at + 4;
}

static inline uint32_t number_at(const uint8_t *at)
{
    return (uint32_t)at[0] << 24 | (uint32_t)at[1] << 16 | (uint32_t)at[2] << 8 | at[3];
}

/* Begins the body of a message. What is returned is where its fields go. */
static inline uint8_t *begin(uint8_t *body, enum operation operation, uint32_t slot)
{
    body[0] = (uint8_t)operation;
    return put_number(body + 1, slot);
}

/* Puts the fields of a format: side, name, width, height, and 0 for the size. */
static inline uint8_t *put_format(uint8_t *at, enum side side, const char *name, uint32_t width, uint32_t height)
{
    at = put_number(at, (uint32_t)side);
    memcpy(at, name, 4);
    return put_number(put_number(put_number(at + 4, width), height), 0);
}

/* Puts the fields before the bytes that are queued on OUTPUT: an index, and a stamp. */
static inline uint8_t *put_queue(uint8_t *at, uint32_t index, uint64_t stamp)
{
    return put_number(put_number(put_number(at, index), (uint32_t)(stamp >> 32)), (uint32_t)stamp);
}

#endif
