/*
 * The device is in another process: a child, `vicodec_run wire`, whose jobs run inside of our calls, or a broker at
 * BRIDGE_SOCKET, which runs jobs by itself and tells us of those that ended.
 */
#define _GNU_SOURCE
#include "bridge.h"
#include "line.h"
#include "message.h"
#include <errno.h>
#include <spawn.h>
#include <stdio.h>
#include <stdlib.h>
#include <string.h>
#include <sys/socket.h>
#include <sys/un.h>
#include <unistd.h>

extern char **environ;

static bool is_started, is_brokered;

/* The environment without the words that would put the bridge before the child too. */
static char **plain_environment(void)
{
    unsigned count = 0, kept = 0;
    char **plain;

    while (environ[count])
        count++;
    plain = calloc(count + 1, sizeof(*plain));
    for (unsigned i = 0; plain && i < count; i++)
        if (strncmp(environ[i], "LD_PRELOAD=", 11) != 0)
            plain[kept++] = environ[i];
    return plain;
}

static bool spawn(int end, uint32_t slots)
{
    const char *program = getenv("BRIDGE_PROGRAM");
    char number[16];
    char *words[] = {(char *)(program ? program : "vicodec_run"), "wire", "--slots", number, NULL};
    char **environment = plain_environment();
    posix_spawn_file_actions_t actions;
    pid_t child;
    int failed;

    if (!environment)
        return false;
    snprintf(number, sizeof(number), "%u", (unsigned)slots);
    posix_spawn_file_actions_init(&actions);
    posix_spawn_file_actions_adddup2(&actions, end, 0);
    posix_spawn_file_actions_adddup2(&actions, end, 1);
    failed = posix_spawnp(&child, words[0], &actions, NULL, words, environment);
    posix_spawn_file_actions_destroy(&actions);
    free(environment);
    if (failed)
        fprintf(stderr, "bridge: cannot start %s: %s\n", words[0], strerror(failed));
    return !failed;
}

static bool start_child(uint32_t slots)
{
    int pair[2];
    bool is_done;

    if (socketpair(AF_UNIX, SOCK_STREAM | SOCK_CLOEXEC, 0, pair) != 0)
        return false;
    is_done = spawn(pair[1], slots) && line_take(pair[0]);
    close_own(pair[0]);
    close_own(pair[1]);
    return is_done;
}

static bool start_brokered(const char *path)
{
    struct sockaddr_un address = {.sun_family = AF_UNIX};
    int fd = socket(AF_UNIX, SOCK_STREAM | SOCK_CLOEXEC, 0);
    bool is_done;

    strncpy(address.sun_path, path, sizeof(address.sun_path) - 1);
    if (fd < 0)
        return false;
    is_done = connect(fd, (struct sockaddr *)&address, sizeof(address)) == 0;
    if (!is_done)
        fprintf(stderr, "bridge: no broker at %s: %s\n", path, strerror(errno));
    is_done = is_done && line_take(fd);
    close_own(fd);
    return is_done;
}

bool device_start(uint32_t slots)
{
    const char *path = getenv("BRIDGE_SOCKET");

    if (is_started)
        return true;
    is_brokered = path != NULL;
    is_started = path ? start_brokered(path) : start_child(slots);
    return is_started;
}

bool device_answer(const uint8_t *body, size_t size, uint8_t *room, size_t *reply_size)
{
    return line_exchange(body, size, room, body[0] == OP_DQBUF && body[8] == CAP ? ROOM : SHORT_ROOM, reply_size);
}

bool device_work(struct ended_job *job)
{
    return is_brokered ? line_told(job) : line_run_job(job);
}
