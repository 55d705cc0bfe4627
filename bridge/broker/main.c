/*
 * broker SOCKET: one device, `vicodec_run wire` or what BRIDGE_PROGRAM says, for all processes of this user that connect to
 * SOCKET, as the bridge does where BRIDGE_SOCKET names it. It speaks the wire to each, runs the jobs, and tells a client of
 * those of its slots, as replies to a finish, before the reply to the message that made them ready.
 */
#define _GNU_SOURCE
#include "broker.h"
#include "../src/bridge.h"
#include <poll.h>
#include <signal.h>
#include <stdio.h>
#include <stdlib.h>
#include <string.h>
#include <sys/socket.h>
#include <sys/stat.h>
#include <sys/un.h>
#include <unistd.h>

static struct client clients[CLIENTS];
static volatile sig_atomic_t is_ended;

static void end(int number)
{
    (void)number;
    is_ended = 1;
}

/* A socket that nobody listens on is left from before. */
static int listen_at(const char *path)
{
    struct sockaddr_un address = {.sun_family = AF_UNIX};
    int fd = socket(AF_UNIX, SOCK_STREAM | SOCK_CLOEXEC, 0);

    if (fd < 0 || strlen(path) >= sizeof(address.sun_path))
        return -1;
    strcpy(address.sun_path, path);
    if (connect(fd, (struct sockaddr *)&address, sizeof(address)) == 0) {
        fprintf(stderr, "broker: another one is at %s\n", path);
        return -1;
    }
    unlink(path);
    umask(077);
    if (bind(fd, (struct sockaddr *)&address, sizeof(address)) != 0 || listen(fd, 64) != 0)
        return -1;
    return fd;
}

static void take_in(int listener)
{
    int fd = accept4(listener, NULL, NULL, SOCK_CLOEXEC);

    for (int i = 0; fd >= 0 && i < CLIENTS; i++)
        if (clients[i].fd < 0) {
            client_begin(&clients[i], fd);
            return;
        }
    if (fd >= 0)
        close(fd);
}

/* A client that does not take its replies is not read from. */
static void watch(struct pollfd *watched)
{
    for (int i = 0; i < CLIENTS; i++) {
        watched[i].fd = clients[i].fd;
        watched[i].events = clients[i].unsent ? POLLOUT : POLLIN;
        watched[i].revents = 0;
    }
}

static void serve(const struct pollfd *watched)
{
    for (int i = 0; i < CLIENTS; i++) {
        struct client *client = &clients[i];

        if (client->fd < 0 || !watched[i].revents)
            continue;
        if (!(client->unsent ? client_write(client) : client_read(client)))
            client_end(client);
    }
}

int main(int argc, char **argv)
{
    struct pollfd watched[CLIENTS + 1];
    struct sigaction action = {.sa_handler = end};
    int listener;

    if (argc != 2) {
        fprintf(stderr, "usage: broker SOCKET\n");
        return 2;
    }
    for (int i = 0; i < CLIENTS; i++)
        clients[i].fd = -1;
    unsetenv("BRIDGE_SOCKET");
    sigaction(SIGTERM, &action, NULL);
    sigaction(SIGINT, &action, NULL);
    listener = listen_at(argv[1]);
    if (listener < 0 || !shared_start() || !device_start(DEVICE_SLOTS)) {
        fprintf(stderr, "broker: cannot begin at %s\n", argv[1]);
        return 1;
    }
    watched[CLIENTS] = (struct pollfd){.fd = listener, .events = POLLIN};
    while (!is_ended) {
        watch(watched);
        if (poll(watched, CLIENTS + 1, -1) <= 0)
            continue;
        serve(watched);
        if (watched[CLIENTS].revents)
            take_in(listener);
    }
    unlink(argv[1]);
    return 0;
}
