/* The line to a device in another process. */
#define _GNU_SOURCE
#include "line.h"
#include "bridge.h"
#include "message.h"
#include <errno.h>
#include <fcntl.h>
#include <sys/socket.h>
#include <sys/uio.h>

/* One message makes at most 2 * BUFFERS + 1 jobs ready that end: each takes a buffer, or finds the first header. */
enum { TOLD = 128, JOB_TOLD = 6 };

static int line = -1;
static struct ended_job told[TOLD];
static unsigned told_first, told_last;

bool line_take(int fd)
{
    line = fcntl(fd, F_DUPFD_CLOEXEC, 900);
    if (line < 0)
        line = fcntl(fd, F_DUPFD_CLOEXEC, 3);
    return line >= 0;
}

static bool write_all(struct iovec *part, unsigned count)
{
    while (count > 0) {
        struct msghdr message = {.msg_iov = part, .msg_iovlen = count};
        ssize_t sent = sendmsg(line, &message, MSG_NOSIGNAL);

        if (sent < 0 && errno == EINTR)
            continue;
        if (sent < 0)
            return false;
        for (; count > 0 && (size_t)sent >= part->iov_len; part++, count--)
            sent -= (ssize_t)part->iov_len;
        if (count > 0) {
            part->iov_base = (char *)part->iov_base + sent;
            part->iov_len -= (size_t)sent;
        }
    }
    return true;
}

static bool read_all(void *into, size_t length)
{
    for (size_t done = 0; done < length;) {
        ssize_t got = recv(line, (char *)into + done, length - done, MSG_WAITALL);

        if (got < 0 && errno == EINTR)
            continue;
        if (got <= 0)
            return false;
        done += (size_t)got;
    }
    return true;
}

static bool read_body(uint8_t *room, size_t most, size_t *size)
{
    uint8_t length[4];

    if (!read_all(length, sizeof(length)))
        return false;
    *size = get_word(length);
    return *size >= 1 && *size <= most && read_all(room, *size);
}

static bool keep_told(const uint8_t *body, size_t size)
{
    if (size != JOB_TOLD || body[0] != REPLY_FINISHED)
        return false;
    told[told_last++ % TOLD] = (struct ended_job){get_word(body + 1), body[5]};
    return true;
}

static bool read_reply(uint8_t *room, size_t most, size_t *size)
{
    do
        if (!read_body(room, most, size))
            return false;
    while (keep_told(room, *size));
    return true;
}

bool line_exchange(const uint8_t *body, size_t size, uint8_t *room, size_t most, size_t *reply_size)
{
    uint8_t length[4];
    struct iovec part[2] = {{length, sizeof(length)}, {(void *)body, size}};

    put_word(length, (uint32_t)size);
    if (!exchange_begin())
        return false;
    return exchange_end(write_all(part, 2) && read_reply(room, most, reply_size));
}

bool line_told(struct ended_job *job)
{
    if (told_first == told_last)
        return false;
    *job = told[told_first++ % TOLD];
    return true;
}

/* A claim and a finish in one piece: a finish without a job does nothing. */
bool line_run_job(struct ended_job *job)
{
    uint8_t bytes[] = {0, 0, 0, 5, OP_CLAIM, 0, 0, 0, 0, 0, 0, 0, 5, OP_FINISH, 0, 0, 0, 0};
    struct iovec part = {bytes, sizeof(bytes)};
    uint8_t claimed[SHORT_ROOM], finished[SHORT_ROOM];
    size_t size;

    if (!exchange_begin())
        return false;
    if (!exchange_end(write_all(&part, 1) && read_body(claimed, SHORT_ROOM, &size) &&
                      read_body(finished, SHORT_ROOM, &size)))
        return false;
    *job = (struct ended_job){get_word(finished + 1), finished[5]};
    return finished[0] == REPLY_FINISHED;
}
