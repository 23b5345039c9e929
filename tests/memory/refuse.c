/* Loaded before the C library (LD_PRELOAD): refuses requests for memory of the program that it is loaded into.
   REFUSE=N refuses request N alone, REFUSE=N.. that one and all later ones; requests count from 1.
   At the end it writes how many requests there were into the file that REFUSE_COUNT names. */

#define _GNU_SOURCE
#include <dlfcn.h>
#include <errno.h>
#include <fcntl.h>
#include <stdio.h>
#include <stdlib.h>
#include <string.h>
#include <sys/syscall.h>
#include <unistd.h>

static unsigned long asked, refused;
static int and_later;

__attribute__((constructor)) static void begin(void)
{
    const char *given = getenv("REFUSE");
    char *rest;

    asked = 0; /* the loader's own requests don't count */
    if (given) {
        refused = strtoul(given, &rest, 10);
        and_later = !strcmp(rest, "..");
    }
}

/* Ends the program at once. */
__attribute__((noreturn)) static void leave(int status)
{
    for (;;)
        syscall(SYS_exit_group, status);
}

__attribute__((destructor)) static void end(void)
{
    const char *name = getenv("REFUSE_COUNT");
    char text[32];
    int file, length = snprintf(text, sizeof text, "%lu\n", asked);

    if (!name || (file = open(name, O_WRONLY | O_CREAT | O_TRUNC, 0666)) < 0)
        return;
    if (write(file, text, length) != length)
        leave(99);
    close(file);
}

/* A program that may have threads ends so, past what others do at their end. */
__attribute__((noreturn)) void _exit(int status)
{
    end();
    leave(status);
}

static int refuses(void)
{
    asked++;
    if (!refused || asked < refused || (asked > refused && !and_later))
        return 0;
    errno = ENOMEM;
    return 1;
}

/* The function of that name in the C library. */
static void *next(const char *name)
{
    void *it = dlsym(RTLD_NEXT, name);
    if (!it)
        leave(98);
    return it;
}

void *malloc(size_t size)
{
    static void *(*real)(size_t);
    if (!real)
        real = (void *(*)(size_t))next("malloc");
    return refuses() ? NULL : real(size);
}

void *realloc(void *old, size_t size)
{
    static void *(*real)(void *, size_t);
    if (!real)
        real = (void *(*)(void *, size_t))next("realloc");
    return refuses() ? NULL : real(old, size);
}

int posix_memalign(void **at, size_t alignment, size_t size)
{
    static int (*real)(void **, size_t, size_t);
    if (!real)
        real = (int (*)(void **, size_t, size_t))next("posix_memalign");
    return refuses() ? ENOMEM : real(at, alignment, size);
}

void *aligned_alloc(size_t alignment, size_t size)
{
    static void *(*real)(size_t, size_t);
    if (!real)
        real = (void *(*)(size_t, size_t))next("aligned_alloc");
    return refuses() ? NULL : real(alignment, size);
}
