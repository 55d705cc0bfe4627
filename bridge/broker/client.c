/* Bytes from and to one client. None of them makes the broker wait. */
#include "broker.h"
#include "../src/bridge.h"
#include "../src/message.h"
#include <errno.h>
#include <stdlib.h>
#include <string.h>
#include <sys/socket.h>
#include <unistd.h>

void client_begin(struct client *client, int fd)
{
    memset(client, 0, sizeof(*client));
    client->fd = fd;
}

static bool is_none_yet(ssize_t moved)
{
    return moved < 0 && (errno == EAGAIN || errno == EWOULDBLOCK || errno == EINTR);
}

/* The length of a message is here: there is room for its body, or no such message. */
static bool begin_body(struct client *client)
{
    uint32_t size = get_word(client->length);

    if (size < 1 || size > LONGEST)
        return false;
    client->size = size;
    client->body = malloc(size);
    return client->body != NULL;
}

static bool end_body(struct client *client)
{
    bool is_told = slots_answer(client, client->body, client->size);

    free(client->body);
    client->body = NULL;
    client->got = 0;
    return is_told;
}

bool client_read(struct client *client)
{
    bool is_head = client->got < sizeof(client->length);
    uint8_t *at = is_head ? client->length + client->got : client->body + (client->got - sizeof(client->length));
    size_t wanted = is_head ? sizeof(client->length) - client->got : client->size + sizeof(client->length) - client->got;
    ssize_t got = recv(client->fd, at, wanted, MSG_DONTWAIT);

    if (got <= 0)
        return is_none_yet(got);
    client->got += (size_t)got;
    if ((size_t)got < wanted)
        return true;
    return is_head ? begin_body(client) : end_body(client);
}

bool client_write(struct client *client)
{
    ssize_t sent = send(client->fd, client->unsent + client->unsent_first, client->unsent_last - client->unsent_first,
                        MSG_DONTWAIT | MSG_NOSIGNAL);

    if (sent < 0)
        return is_none_yet(sent);
    client->unsent_first += (size_t)sent;
    if (client->unsent_first == client->unsent_last) {
        free(client->unsent);
        client->unsent = NULL;
        client->unsent_first = client->unsent_last = 0;
    }
    return true;
}

static bool keep_unsent(struct client *client, const uint8_t *bytes, size_t size)
{
    uint8_t *longer = realloc(client->unsent, client->unsent_last + size);

    if (!longer)
        return false;
    memcpy(longer + client->unsent_last, bytes, size);
    client->unsent = longer;
    client->unsent_last += size;
    return true;
}

/* Behind bytes that were not taken yet, these wait too. */
static bool send_bytes(struct client *client, const uint8_t *bytes, size_t size)
{
    ssize_t sent = client->unsent ? 0 : send(client->fd, bytes, size, MSG_DONTWAIT | MSG_NOSIGNAL);

    if (sent < 0 && !is_none_yet(sent))
        return false;
    if (sent < 0)
        sent = 0;
    return (size_t)sent == size || keep_unsent(client, bytes + sent, size - (size_t)sent);
}

bool client_send(struct client *client, const uint8_t *body, size_t size)
{
    uint8_t length[4];

    put_word(length, (uint32_t)size);
    return send_bytes(client, length, sizeof(length)) && send_bytes(client, body, size);
}

void client_end(struct client *client)
{
    slots_leave(client);
    close(client->fd);
    free(client->body);
    free(client->unsent);
    client_begin(client, -1);
}
