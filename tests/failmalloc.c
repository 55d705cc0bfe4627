// A library for LD_PRELOAD that refuses allocations of a program: tests/refuse-each-allocation uses it. It is plain C over
// the GNU C library, and nothing of it is proved.
//
// The calls of malloc, calloc, realloc, aligned_alloc and posix_memalign are counted from 1, over all threads.
//
//     FAIL_ALLOC=N      call N is refused: no memory comes of it, and errno is ENOMEM
//     FAIL_FROM=1       all calls behind it are refused too
//     FAIL_COUNT=FILE   the number of calls is written into FILE when the program ends

#include <errno.h>
#include <stdatomic.h>
#include <stdio.h>
#include <stdlib.h>
#include <sys/syscall.h>
#include <unistd.h>

extern void *__libc_malloc(size_t size);
extern void *__libc_calloc(size_t count, size_t size);
extern void *__libc_realloc(void *old, size_t size);
extern void *__libc_memalign(size_t alignment, size_t size);

static atomic_long calls;
static long refused;       // the number of the call that is refused, 0 for none
static int and_all_behind; // whether the calls behind that one are refused too
static int counting;       // whether the program has begun

__attribute__((constructor)) static void begin(void)
{
    const char *number = getenv("FAIL_ALLOC");

    refused = number ? atol(number) : 0;
    and_all_behind = getenv("FAIL_FROM") != NULL;
    counting = 1;
}

static void write_count(void)
{
    const char *path = getenv("FAIL_COUNT");
    FILE *file;

    counting = 0;
    file = path ? fopen(path, "w") : NULL;
    if (file) {
        fprintf(file, "%ld\n", atomic_load(&calls));
        fclose(file);
    }
}

__attribute__((destructor)) static void end(void)
{
    write_count();
}

// A program may end without its destructors.
__attribute__((noreturn)) void _exit(int status)
{
    write_count();
    for (;;)
        syscall(SYS_exit_group, status);
}

static int is_refused(void)
{
    long call;

    if (!counting)
        return 0;
    call = atomic_fetch_add(&calls, 1) + 1;
    if (refused == 0 || call < refused || (call > refused && !and_all_behind))
        return 0;
    errno = ENOMEM;
    return 1;
}

void *malloc(size_t size)
{
    return is_refused() ? NULL : __libc_malloc(size);
}

void *calloc(size_t count, size_t size)
{
    return is_refused() ? NULL : __libc_calloc(count, size);
}

void *realloc(void *old, size_t size)
{
    return is_refused() ? NULL : __libc_realloc(old, size);
}

void *aligned_alloc(size_t alignment, size_t size)
{
    return is_refused() ? NULL : __libc_memalign(alignment, size);
}

int posix_memalign(void **place, size_t alignment, size_t size)
{
    void *memory = is_refused() ? NULL : __libc_memalign(alignment, size);

    if (!memory)
        return ENOMEM;
    *place = memory;
    return 0;
}
