/* A broker: one device that several processes share. */
#ifndef BROKER_H
#define BROKER_H

#include "../src/device.h"

enum { CLIENTS = 256, CLIENT_SLOTS = 256, DEVICE_SLOTS = 1024, CLOSED_SLOT = DEVICE_SLOTS - 1, LONGEST = 17694781 };

/* A process. Its slots are numbers of its own; each that is open is a slot of the device. */
struct client {
    int fd;                         /* -1: none */
    uint8_t length[4];
    size_t got;                     /* bytes of the message that is coming, with its length */
    uint8_t *body;
    size_t size;
    uint8_t *unsent;                /* what the client did not take yet */
    size_t unsent_first, unsent_last;
    uint16_t slot[CLIENT_SLOTS];    /* the device's slot plus 1, 0: closed */
};

/* client.c: what came in is answered, what was not taken yet is sent. False: the client is gone. */
void client_begin(struct client *client, int fd);
bool client_read(struct client *client);
bool client_write(struct client *client);
bool client_send(struct client *client, const uint8_t *body, size_t size);
void client_end(struct client *client);

/* slots.c: one message of a client. False: it can't be told the reply. */
bool slots_answer(struct client *client, uint8_t *body, size_t size);
void slots_leave(struct client *client);

#endif
