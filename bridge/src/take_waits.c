/*
 * Taken over from the C library: poll and select. The kernel's own tell of a node's descriptor what ready.c makes it show,
 * but for two things, which are mended here: a pending event shows as readable too, and a node of which neither queue can
 * ever give a buffer shows no error.
 */
#define _GNU_SOURCE
#include "bridge.h"
#include "next.h"
#include <poll.h>
#include <sys/select.h>
#include <time.h>
#include <unistd.h>

#define DATA (POLLIN | POLLOUT | POLLRDNORM | POLLWRNORM)

static int mend(struct pollfd *fds, nfds_t count)
{
    int found = 0;

    for (nfds_t i = 0; i < count; i++) {
        struct node *node = node_of(fds[i].fd);

        if (node && !node->is_readable)
            fds[i].revents &= (short)~(POLLIN | POLLRDNORM);
        if (node && node->is_idle && fds[i].events & DATA)
            fds[i].revents |= POLLERR;
        found += fds[i].revents != 0;
    }
    return found;
}

static bool has_idle(const struct pollfd *fds, nfds_t count)
{
    for (nfds_t i = 0; i < count; i++) {
        struct node *node = node_of(fds[i].fd);

        if (node && node->is_idle && fds[i].events & DATA)
            return true;
    }
    return false;
}

static struct timespec now(void)
{
    struct timespec time;

    clock_gettime(CLOCK_MONOTONIC, &time);
    return time;
}

static struct timespec end_of(const struct timespec *timeout)
{
    struct timespec end = now();

    end.tv_sec += timeout->tv_sec;
    end.tv_nsec += timeout->tv_nsec;
    if (end.tv_nsec >= 1000000000) {
        end.tv_sec++;
        end.tv_nsec -= 1000000000;
    }
    return end;
}

static struct timespec left_until(const struct timespec *end)
{
    struct timespec begin = now(), left = {end->tv_sec - begin.tv_sec, end->tv_nsec - begin.tv_nsec};

    if (left.tv_nsec < 0) {
        left.tv_sec--;
        left.tv_nsec += 1000000000;
    }
    return left.tv_sec < 0 ? (struct timespec){0, 0} : left;
}

/* Where only an event is pending that nobody asked for, the kernel's poll does not wait; then it is asked each millisecond. */
int ppoll(struct pollfd *fds, nfds_t count, const struct timespec *timeout, const sigset_t *mask)
{
    struct timespec none = {0, 0}, left = timeout ? *timeout : none, end = timeout ? end_of(timeout) : none;
    int raw, found;

    for (;;) {
        raw = NEXT(ppoll)(fds, count, has_idle(fds, count) ? &none : timeout ? &left : NULL, mask);
        found = raw < 0 ? raw : mend(fds, count);
        if (raw <= 0 || found > 0)
            return found;
        usleep(1000);
        if (timeout)
            left = left_until(&end);
    }
}

int poll(struct pollfd *fds, nfds_t count, int timeout)
{
    struct timespec time = {timeout / 1000, timeout % 1000 * 1000000l};

    return ppoll(fds, count, timeout < 0 ? NULL : &time, NULL);
}

int __poll_chk(struct pollfd *fds, nfds_t count, int timeout, size_t size)
{
    (void)size;
    return poll(fds, count, timeout);
}

static int mend_set(int count, fd_set *in)
{
    int cleared = 0;

    for (int fd = 0; fd < count; fd++) {
        struct node *node = FD_ISSET(fd, in) ? node_of(fd) : NULL;

        if (node && !node->is_readable) {
            FD_CLR(fd, in);
            cleared++;
        }
    }
    return cleared;
}

int select(int count, fd_set *in, fd_set *out, fd_set *urgent, struct timeval *timeout)
{
    fd_set none, asked_in, asked_out, asked_urgent;
    int found;

    FD_ZERO(&none);
    asked_in = in ? *in : none;
    asked_out = out ? *out : none;
    asked_urgent = urgent ? *urgent : none;
    for (;;) {
        found = NEXT(select)(count, in, out, urgent, timeout);      /* which tells in the timeout what is left of it */
        if (found <= 0 || !in)
            return found;
        found -= mend_set(count, in);
        if (found > 0)
            return found;
        *in = asked_in;
        if (out)
            *out = asked_out;
        if (urgent)
            *urgent = asked_urgent;
        usleep(1000);
    }
}
