/*
 * Clients that a broker has to bear:
 *     rude hold N          opens N decoders, says "holding", and waits for its end, a minute at most
 *     rude garbage SOCKET  sends a length that no message has, and waits until the broker hangs up
 *     rude cut SOCKET      sends half a message, and leaves
 *     rude deaf SOCKET     asks again and again, and takes no reply
 */
#define _GNU_SOURCE
#include <fcntl.h>
#include <stdio.h>
#include <stdlib.h>
#include <string.h>
#include <sys/socket.h>
#include <sys/un.h>
#include <unistd.h>

static int hold(int count)
{
    for (int i = 0; i < count; i++)
        if (open("/dev/video41", O_RDWR) < 0) {
            perror("open");
            return 1;
        }
    puts("holding");
    fflush(stdout);
    pause();
    return 0;
}

static int connect_to(const char *path)
{
    struct sockaddr_un address = {.sun_family = AF_UNIX};
    int fd = socket(AF_UNIX, SOCK_STREAM, 0);

    strncpy(address.sun_path, path, sizeof(address.sun_path) - 1);
    if (connect(fd, (struct sockaddr *)&address, sizeof(address)) != 0) {
        perror(path);
        exit(1);
    }
    return fd;
}

static int send_garbage(int fd)
{
    char byte;

    if (send(fd, "\377\377\377\377", 4, MSG_NOSIGNAL) != 4)
        return 1;
    return recv(fd, &byte, 1, 0) == 0 ? 0 : 1;
}

static int send_half(int fd)
{
    return send(fd, "\0\1\0\0\11half", 9, MSG_NOSIGNAL) == 9 ? 0 : 1;
}

/* Until the broker takes nothing more from one that does not listen. */
static int ask_deaf(int fd)
{
    static const char poll[9] = {0, 0, 0, 5, 0x17, 0, 0, 0, 0};
    int tries = 0;

    while (tries < 20)
        if (send(fd, poll, sizeof(poll), MSG_NOSIGNAL | MSG_DONTWAIT) > 0) {
            tries = 0;
        } else {
            tries++;
            usleep(10000);
        }
    puts("deaf");
    fflush(stdout);
    pause();
    return 0;
}

int main(int argc, char **argv)
{
    if (argc != 3)
        return 2;
    alarm(60);
    if (!strcmp(argv[1], "hold"))
        return hold(atoi(argv[2]));
    if (!strcmp(argv[1], "garbage"))
        return send_garbage(connect_to(argv[2]));
    if (!strcmp(argv[1], "cut"))
        return send_half(connect_to(argv[2]));
    return strcmp(argv[1], "deaf") ? 2 : ask_deaf(connect_to(argv[2]));
}
