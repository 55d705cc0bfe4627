/* Taken over from the C library: who lists /dev finds the two nodes behind the rest. */
#define _GNU_SOURCE
#include "bridge.h"
#include "next.h"
#include <dirent.h>
#include <errno.h>
#include <pthread.h>
#include <stdio.h>
#include <string.h>

enum { LISTS = 16, OURS = 2 };

/* The lists of /dev that are open, and how many of our nodes each has told. */
static struct list {
    DIR *directory;
    unsigned told;
    struct dirent entry;
    struct dirent64 entry64;
} lists[LISTS];
static pthread_mutex_t guard = PTHREAD_MUTEX_INITIALIZER;

static struct list *list_of(const DIR *directory)
{
    for (unsigned i = 0; i < LISTS; i++)
        if (lists[i].directory == directory)
            return &lists[i];
    return NULL;
}

DIR *opendir(const char *path)
{
    DIR *directory = NEXT(opendir)(path);
    struct list *list;

    if (!directory || (strcmp(path, "/dev") != 0 && strcmp(path, "/dev/") != 0))
        return directory;
    pthread_mutex_lock(&guard);
    list = list_of(NULL);
    if (list)
        *list = (struct list){.directory = directory};
    pthread_mutex_unlock(&guard);
    return directory;
}

static struct list *tell_next(const DIR *directory)
{
    struct list *list;

    pthread_mutex_lock(&guard);
    list = list_of(directory);
    if (list && list->told >= OURS)
        list = NULL;
    if (list)
        list->told++;
    pthread_mutex_unlock(&guard);
    return list;
}

#define READDIR(name, type, field)                                                                                    \
    struct type *name(DIR *directory)                                                                                 \
    {                                                                                                                 \
        int number = errno;                                                                                           \
        struct type *entry = NEXT(name)(directory);                                                                   \
        struct list *list = entry || errno != number ? NULL : tell_next(directory);                                   \
                                                                                                                      \
        if (!list)                                                                                                    \
            return entry;                                                                                             \
        list->field = (struct type){.d_ino = 1, .d_reclen = sizeof(struct type), .d_type = DT_CHR};                   \
        snprintf(list->field.d_name, sizeof(list->field.d_name), "video%u", 39 + list->told);                         \
        return &list->field;                                                                                          \
    }

READDIR(readdir, dirent, entry)
READDIR(readdir64, dirent64, entry64)

int closedir(DIR *directory)
{
    struct list *list;

    pthread_mutex_lock(&guard);
    list = list_of(directory);
    if (list)
        list->directory = NULL;
    pthread_mutex_unlock(&guard);
    return NEXT(closedir)(directory);
}
