/* Loaded before the C library (LD_PRELOAD): standard input gives and standard output takes little at once, or fails, in
   the program that it is loaded into.
   READ_PIECE=N, WRITE_PIECE=N   at most N bytes at once
   FAIL_READ=K, FAIL_WRITE=K     call K fails (counted from 0), that one alone; K.. that one and all later ones
   At the end it writes into the file that CALLS names how many reads and writes there were. */

#define _GNU_SOURCE
#include <dlfcn.h>
#include <errno.h>
#include <fcntl.h>
#include <stdio.h>
#include <stdlib.h>
#include <string.h>
#include <sys/syscall.h>
#include <unistd.h>

struct stream {
    size_t piece;
    long calls, fails;
    int and_later;
};

static struct stream in = {0, 0, -1, 0}, out = {0, 0, -1, 0};

static void set(struct stream *it, const char *piece, const char *fails)
{
    char *rest;

    if (piece)
        it->piece = strtoul(piece, &rest, 10);
    if (fails) {
        it->fails = strtol(fails, &rest, 10);
        it->and_later = !strcmp(rest, "..");
    }
}

__attribute__((constructor)) static void begin(void)
{
    set(&in, getenv("READ_PIECE"), getenv("FAIL_READ"));
    set(&out, getenv("WRITE_PIECE"), getenv("FAIL_WRITE"));
}

/* The function of that name in the C library. */
static void *next(const char *name)
{
    void *it = dlsym(RTLD_NEXT, name);
    if (!it)
        _exit(98);
    return it;
}

/* Ends the program at once. */
__attribute__((noreturn)) static void leave(int status)
{
    for (;;)
        syscall(SYS_exit_group, status);
}

__attribute__((destructor)) static void end(void)
{
    ssize_t (*to)(int, const void *, size_t) = (ssize_t (*)(int, const void *, size_t))next("write");
    const char *name = getenv("CALLS");
    char text[64];
    int file, length = snprintf(text, sizeof text, "%ld %ld\n", in.calls, out.calls);

    if (!name || (file = open(name, O_WRONLY | O_CREAT | O_TRUNC, 0666)) < 0)
        return;
    if (to(file, text, length) != length)
        leave(99);
    close(file);
}

/* A program that may have threads ends so, past what others do at their end. */
__attribute__((noreturn)) void _exit(int status)
{
    end();
    leave(status);
}

/* Counts a call; whether it fails. */
static int fails(struct stream *it)
{
    long call = it->calls++;

    if (it->fails < 0 || call < it->fails || (call > it->fails && !it->and_later))
        return 0;
    errno = EIO;
    return 1;
}

static size_t least(const struct stream *it, size_t size)
{
    return it->piece && it->piece < size ? it->piece : size;
}

ssize_t read(int file, void *bytes, size_t size)
{
    ssize_t (*from)(int, void *, size_t) = (ssize_t (*)(int, void *, size_t))next("read");

    if (file != 0)
        return from(file, bytes, size);
    return fails(&in) ? -1 : from(file, bytes, least(&in, size));
}

ssize_t write(int file, const void *bytes, size_t size)
{
    ssize_t (*to)(int, const void *, size_t) = (ssize_t (*)(int, const void *, size_t))next("write");

    if (file != 1)
        return to(file, bytes, size);
    return fails(&out) ? -1 : to(file, bytes, least(&out, size));
}
