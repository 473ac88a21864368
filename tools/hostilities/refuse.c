/* Refuses one call of the system or of the allocator, for `tools/hostile`: preloaded into a program, with
   REFUSE=KIND NUMBER HOW in the environment.

   KIND is `memory` (malloc, calloc, realloc), `thread`, `open`, `read` or `write`. NUMBER counts from 1.
   HOW is `once`; `on`, which is from there on; `short`, of reads and writes, which passes on one byte;
   or `again`, which is interrupted once. A file that TOLD names gets the number of calls of that kind. */
#define _GNU_SOURCE
#include <dlfcn.h>
#include <errno.h>
#include <fcntl.h>
#include <pthread.h>
#include <stdarg.h>
#include <stdio.h>
#include <stdlib.h>
#include <string.h>
#include <sys/types.h>

extern void *__libc_malloc(size_t);
extern void *__libc_calloc(size_t, size_t);
extern void *__libc_realloc(void *, size_t);

static char kind[16], how[16];
static long number;
static _Atomic long count;

__attribute__((constructor)) static void read_environment(void)
{
    const char *said = getenv("REFUSE");
    if (!said || sscanf(said, "%15s %ld %15s", kind, &number, how) != 3)
        number = 0;
}

static int is_refused(const char *of)
{
    if (!number || strcmp(of, kind) != 0)
        return 0;
    long now = ++count;
    return strcmp(how, "on") == 0 ? now >= number : now == number;
}

__attribute__((destructor)) static void tell(void)
{
    const char *path = getenv("TOLD");
    FILE *(*opened)(const char *, const char *) = dlsym(RTLD_NEXT, "fopen");
    long now = count;
    number = 0;
    FILE *file = path ? opened(path, "w") : 0;
    if (file) {
        fprintf(file, "%ld", now);
        fclose(file);
    }
}

void _exit(int status)
{
    void (*next)(int) = dlsym(RTLD_NEXT, "_exit");
    tell();
    next(status);
    __builtin_unreachable();
}

void *malloc(size_t size)
{
    if (is_refused("memory")) {
        errno = ENOMEM;
        return 0;
    }
    return __libc_malloc(size);
}

void *calloc(size_t many, size_t size)
{
    if (is_refused("memory")) {
        errno = ENOMEM;
        return 0;
    }
    return __libc_calloc(many, size);
}

void *realloc(void *old, size_t size)
{
    if (is_refused("memory")) {
        errno = ENOMEM;
        return 0;
    }
    return __libc_realloc(old, size);
}

int pthread_create(pthread_t *thread, const pthread_attr_t *attributes, void *(*start)(void *), void *argument)
{
    int (*next)(pthread_t *, const pthread_attr_t *, void *(*)(void *), void *) = dlsym(RTLD_NEXT, "pthread_create");
    return is_refused("thread") ? EAGAIN : next(thread, attributes, start, argument);
}

int open(const char *path, int flags, ...)
{
    int (*next)(const char *, int, ...) = dlsym(RTLD_NEXT, "open");
    va_list rest;
    va_start(rest, flags);
    int mode = va_arg(rest, int);
    va_end(rest);
    if (is_refused("open")) {
        errno = strcmp(how, "again") == 0 ? EINTR : EMFILE;
        return -1;
    }
    return next(path, flags, mode);
}

/* How many bytes of a read or write are passed on: -1 where it is refused. */
static ssize_t passed(const char *of, size_t size, int error)
{
    if (!is_refused(of))
        return (ssize_t)size;
    if (strcmp(how, "short") == 0)
        return size ? 1 : 0;
    errno = strcmp(how, "again") == 0 ? EINTR : error;
    return -1;
}

ssize_t read(int file, void *into, size_t size)
{
    ssize_t (*next)(int, void *, size_t) = dlsym(RTLD_NEXT, "read");
    ssize_t most = passed("read", size, EIO);
    return most < 0 ? -1 : next(file, into, (size_t)most);
}

ssize_t write(int file, const void *from, size_t size)
{
    ssize_t (*next)(int, const void *, size_t) = dlsym(RTLD_NEXT, "write");
    ssize_t most = passed("write", size, ENOSPC);
    return most < 0 ? -1 : next(file, from, (size_t)most);
}
