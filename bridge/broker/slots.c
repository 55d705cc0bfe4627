/* Slots of clients as slots of the device, and the jobs that their messages make ready. */
#include "broker.h"
#include "../src/bridge.h"
#include "../src/message.h"
#include <errno.h>
#include <stdio.h>
#include <stdlib.h>
#include <string.h>

/* Whose the slots of the device are; the last one is never open, and answers for all that are not. */
static struct {
    struct client *client;
    uint32_t slot;
} owners[DEVICE_SLOTS];

static uint8_t room[ROOM];

static size_t ask_device(const uint8_t *body, size_t size)
{
    size_t reply_size;

    if (device_answer(body, size, room, &reply_size))
        return reply_size;
    fprintf(stderr, "broker: the device is gone\n");
    exit(1);
}

static uint32_t free_slot(void)
{
    uint32_t slot = 0;

    while (slot < CLOSED_SLOT && owners[slot].client)
        slot++;
    return slot;
}

/* The device's slot for a message, which has a slot. */
static uint32_t device_slot(const struct client *client, enum operation operation, uint32_t slot)
{
    if (slot >= CLIENT_SLOTS)
        return DEVICE_SLOTS;    /* the device has none of that number either */
    if (client->slot[slot])
        return client->slot[slot] - 1u;
    return operation == OP_OPEN ? free_slot() : CLOSED_SLOT;
}

static void keep_owner(struct client *client, enum operation operation, uint32_t slot, uint32_t at)
{
    if (operation != OP_OPEN && operation != OP_CLOSE)
        return;
    owners[at].client = operation == OP_OPEN ? client : NULL;
    owners[at].slot = slot;
    client->slot[slot] = operation == OP_OPEN ? (uint16_t)(at + 1) : 0;
}

/* Each job is told to the client whose slot it was of. */
static bool run_all(void)
{
    struct ended_job job;
    bool is_told = true;

    while (device_work(&job)) {
        uint8_t body[6] = {REPLY_FINISHED, 0, 0, 0, 0, job.end};

        put_word(body + 1, owners[job.slot].slot);
        is_told = client_send(owners[job.slot].client, body, sizeof(body)) && is_told;
    }
    return is_told;
}

static size_t refusal(int number)
{
    room[0] = REPLY_REFUSED;
    put_word(room + 1, (uint32_t)number);
    return 5;
}

/* Jobs are the broker's: a client finds none to claim and has none to finish. */
static size_t no_job(enum operation operation)
{
    room[0] = operation == OP_CLAIM ? REPLY_NONE : REPLY_IDLE;
    return 1;
}

static size_t answer(struct client *client, uint8_t *body, size_t size)
{
    enum operation operation = body[0];
    uint32_t slot, at;
    size_t reply_size;

    if (size < 5)
        return ask_device(body, size);
    if (size == 5 && (operation == OP_CLAIM || operation == OP_FINISH))
        return no_job(operation);
    slot = get_word(body + 1);
    at = device_slot(client, operation, slot);
    if (at == CLOSED_SLOT && operation == OP_OPEN)
        return refusal(EBUSY);
    put_word(body + 1, at);
    reply_size = ask_device(body, size);
    if (reply_size == 1 && room[0] == 0)
        keep_owner(client, operation, slot, at);
    return reply_size;
}

/* The reply goes behind the jobs that the message made ready, so that the client knows all of them. */
bool slots_answer(struct client *client, uint8_t *body, size_t size)
{
    size_t reply_size = answer(client, body, size);
    uint8_t reply[SHORT_ROOM];
    bool is_told;

    if (reply_size > SHORT_ROOM)    /* a picture: no job was made ready */
        return client_send(client, room, reply_size);
    memcpy(reply, room, reply_size);
    is_told = run_all();
    return client_send(client, reply, reply_size) && is_told;
}

void slots_leave(struct client *client)
{
    uint8_t body[5] = {OP_CLOSE};

    for (uint32_t slot = 0; slot < CLIENT_SLOTS; slot++)
        if (client->slot[slot]) {
            uint32_t at = client->slot[slot] - 1u;

            put_word(body + 1, at);
            ask_device(body, sizeof(body));
            keep_owner(client, OP_CLOSE, slot, at);
        }
}
