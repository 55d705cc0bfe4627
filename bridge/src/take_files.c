/* Taken over from the C library: a node is opened and closed, and looks like a device. */
#define _GNU_SOURCE
#include "bridge.h"
#include "next.h"
#include <errno.h>
#include <fcntl.h>
#include <stdarg.h>
#include <stdio.h>
#include <string.h>
#include <sys/mman.h>
#include <sys/stat.h>
#include <sys/sysmacros.h>
#include <unistd.h>

/* -1: none of ours. */
static bool opens_ours(const char *path, int flags, int *fd)
{
    const struct place *place = place_of(path);
    int number = errno;

    *fd = place ? node_open(place, flags) : media_open(path);
    if (!place && *fd < 0 && errno == ENOENT) {
        errno = number;
        return false;
    }
    return true;
}

#define OPEN(name, parameters, arguments)                                                                             \
    int name parameters                                                                                               \
    {                                                                                                                 \
        mode_t mode = 0;                                                                                              \
        va_list list;                                                                                                 \
        int fd;                                                                                                       \
                                                                                                                      \
        if (opens_ours(path, flags, &fd))                                                                             \
            return fd;                                                                                                \
        if (flags & O_CREAT || (flags & O_TMPFILE) == O_TMPFILE) {                                                    \
            va_start(list, flags);                                                                                    \
            mode = va_arg(list, mode_t);                                                                              \
            va_end(list);                                                                                             \
        }                                                                                                             \
        return NEXT(name) arguments;                                                                                  \
    }

OPEN(open, (const char *path, int flags, ...), (path, flags, mode))
OPEN(open64, (const char *path, int flags, ...), (path, flags, mode))
OPEN(openat, (int at, const char *path, int flags, ...), (at, path, flags, mode))
OPEN(openat64, (int at, const char *path, int flags, ...), (at, path, flags, mode))

int __open_2(const char *path, int flags) { return open(path, flags); }
int __open64_2(const char *path, int flags) { return open64(path, flags); }
int __openat_2(int at, const char *path, int flags) { return openat(at, path, flags); }
int __openat64_2(int at, const char *path, int flags) { return openat64(at, path, flags); }

int close(int fd)
{
    bool is_ours = node_of(fd) != NULL;
    int result = NEXT(close)(fd);

    if (is_ours) {
        lock();
        nodes_reap();
        unlock();
    }
    return result;
}

static int show_node(const struct place *place, struct stat *state)
{
    memset(state, 0, sizeof(*state));
    state->st_mode = S_IFCHR | 0660;
    state->st_nlink = 1;
    state->st_rdev = makedev(81, place->minor);
    return 0;
}

#define STAT(name, type)                                                                                              \
    int name(const char *path, struct type *state)                                                                    \
    {                                                                                                                 \
        const struct place *place = place_of(path);                                                                   \
                                                                                                                      \
        return place ? show_node(place, (struct stat *)state) : NEXT(name)(path, state);                              \
    }

STAT(stat, stat)
STAT(stat64, stat64)
STAT(lstat, stat)
STAT(lstat64, stat64)

#define FSTAT(name, type)                                                                                             \
    int name(int fd, struct type *state)                                                                              \
    {                                                                                                                 \
        struct node *node = node_of(fd);                                                                              \
                                                                                                                      \
        return node ? show_node(place_of_kind(node->kind), (struct stat *)state) : NEXT(name)(fd, state);             \
    }

FSTAT(fstat, stat)
FSTAT(fstat64, stat64)

int access(const char *path, int mode)
{
    return place_of(path) ? 0 : NEXT(access)(path, mode);
}

/* Tools tell by sysfs what sort of device a node is. */
static FILE *open_uevent(const char *path)
{
    char text[64];
    unsigned minor;
    int fd;

    if (sscanf(path, "/sys/dev/char/81:%u/uevent", &minor) != 1)
        return NULL;
    snprintf(text, sizeof(text), "/dev/video%u", minor);
    if (!place_of(text))
        return NULL;
    fd = memfd_create("uevent", MFD_CLOEXEC);
    snprintf(text, sizeof(text), "MAJOR=81\nMINOR=%u\nDEVNAME=video%u\n", minor, minor);
    if (fd < 0 || write(fd, text, strlen(text)) < 0 || lseek(fd, 0, SEEK_SET) < 0)
        return NULL;
    return fdopen(fd, "r");
}

#define FOPEN(name)                                                                                                   \
    FILE *name(const char *path, const char *mode)                                                                    \
    {                                                                                                                 \
        FILE *file = open_uevent(path);                                                                               \
                                                                                                                      \
        return file ? file : NEXT(name)(path, mode);                                                                  \
    }

FOPEN(fopen)
FOPEN(fopen64)
