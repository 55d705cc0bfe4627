/* Messages as bytes, and replies as errno. */
#include "message.h"
#include "bridge.h"
#include <errno.h>
#include <string.h>

void put_word(uint8_t *at, uint32_t value)
{
    for (int i = 0; i < 4; i++)
        at[i] = (uint8_t)(value >> (24 - 8 * i));
}

uint32_t get_word(const uint8_t *at)
{
    return (uint32_t)at[0] << 24 | (uint32_t)at[1] << 16 | (uint32_t)at[2] << 8 | at[3];
}

uint32_t word(const struct reply *reply, unsigned number)
{
    return get_word(reply->body + 1 + 4 * number);
}

uint64_t long_word(const struct reply *reply, unsigned number)
{
    return (uint64_t)word(reply, number) << 32 | word(reply, number + 1);
}

static int outcome(const struct reply *reply)
{
    switch (reply->body[0]) {
    case REPLY_REFUSED: return refuse((int)word(reply, 0));
    case REPLY_BLOCKED: return refuse(EAGAIN);
    case REPLY_BAD_MESSAGE: return refuse(EINVAL);
    default: return 0;
    }
}

static void put_head(uint8_t *at, enum operation operation, uint32_t slot)
{
    at[0] = (uint8_t)operation;
    put_word(at + 1, slot);
}

int ask(struct reply *reply, enum operation operation, uint32_t slot, const uint32_t *fields, unsigned count)
{
    uint8_t body[5 + 4 * 8];
    size_t size;

    put_head(body, operation, slot);
    for (unsigned i = 0; i < count; i++)
        put_word(body + 5 + 4 * i, fields[i]);
    if (!device_answer(body, 5 + 4 * count, reply->body, &size))
        return refuse(ENODEV);
    return outcome(reply);
}

int ask_qbuf(uint8_t *payload, size_t length, uint32_t slot, uint32_t index, uint64_t stamp)
{
    uint8_t *body = payload - QBUF_HEAD;
    struct reply reply;
    size_t size;

    put_head(body, OP_QBUF_OUT, slot);
    put_word(body + 5, index);
    put_word(body + 9, (uint32_t)(stamp >> 32));
    put_word(body + 13, (uint32_t)stamp);
    if (!device_answer(body, QBUF_HEAD + length, reply.body, &size))
        return refuse(ENODEV);
    return outcome(&reply);
}

int ask_dqbuf(struct reply *reply, uint8_t *room, size_t *length, uint32_t slot)
{
    uint8_t body[9];
    size_t size;

    put_head(body, OP_DQBUF, slot);
    put_word(body + 5, CAP);
    if (!device_answer(body, sizeof(body), room - DQBUF_HEAD, &size))
        return refuse(ENODEV);
    memcpy(reply->body, room - DQBUF_HEAD, size < SHORT_ROOM ? size : SHORT_ROOM);
    *length = size > DQBUF_HEAD ? size - DQBUF_HEAD : 0;
    return outcome(reply);
}
