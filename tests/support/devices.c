/* Files and outputs that fail where a stored case says so. tests/support/case_runs.py compiles and preloads it, so that it
   takes the calls that the program makes of the C library: open, read and write.

   FINDER_SHELF="PIECE CALL.."         a read gives at most PIECE bytes, and the calls of these numbers fail, counted
                                       from 1 over openings and readings
   FINDER_OUT_SINK="ROOM PIECE CALL.." standard output takes ROOM bytes in all, PIECE in a write, and these writes fail
   FINDER_ERR_SINK="ROOM PIECE CALL.." the same of standard error
   FINDER_NAMELESS=PATH                the file whose name is empty is the one of this path
   FINDER_ERRNO=NUMBER                 the error of the calls that fail; without it EIO
   FINDER_INTERRUPTS=COUNT             a signal interrupts each read and write so many times before it moves a byte; these
                                       calls have no number

   A device that is not named does all that it is asked. */
#define _GNU_SOURCE
#include <errno.h>
#include <fcntl.h>
#include <stdint.h>
#include <stdlib.h>
#include <sys/syscall.h>
#include <unistd.h>

struct device {
    size_t room;
    size_t piece;
    const char *failing;
    unsigned long calls;
};

static struct device shelf = {SIZE_MAX, SIZE_MAX, "", 0};
static struct device out_sink = {SIZE_MAX, SIZE_MAX, "", 0};
static struct device err_sink = {SIZE_MAX, SIZE_MAX, "", 0};
static int error_of_failures = EIO;
static unsigned long interrupts;
static unsigned long interrupted;

/* Reads a number in front of the words, and returns what follows it. */
static const char *take_number(const char *words, size_t *number) {
    char *rest;
    *number = strtoul(words, &rest, 10);
    return rest;
}

static void read_sink(const char *variable, struct device *sink) {
    const char *words = getenv(variable);
    if (words) {
        sink->failing = take_number(take_number(words, &sink->room), &sink->piece);
    }
}

__attribute__((constructor)) static void read_devices(void) {
    const char *words = getenv("FINDER_SHELF");
    if (words) {
        shelf.failing = take_number(words, &shelf.piece);
    }
    words = getenv("FINDER_ERRNO");
    if (words) {
        error_of_failures = atoi(words);
    }
    words = getenv("FINDER_INTERRUPTS");
    if (words) {
        interrupts = strtoul(words, NULL, 10);
    }
    read_sink("FINDER_OUT_SINK", &out_sink);
    read_sink("FINDER_ERR_SINK", &err_sink);
}

/* Counts a call. Whether it is to fail: its number is among those listed. */
static int fails(struct device *device) {
    const char *at = device->failing;
    device->calls++;
    for (;;) {
        char *rest;
        unsigned long number = strtoul(at, &rest, 10);
        if (rest == at) {
            return 0;
        }
        if (number == device->calls) {
            errno = error_of_failures;
            return 1;
        }
        at = rest;
    }
}

/* Whether a signal interrupts this call, which is then made again. */
static int is_interrupted(void) {
    if (interrupted == interrupts) {
        interrupted = 0;
        return 0;
    }
    interrupted++;
    errno = EINTR;
    return 1;
}

static size_t least(size_t one, size_t other) {
    return one < other ? one : other;
}

int open(const char *path, int flags, ...) {
    const char *nameless = getenv("FINDER_NAMELESS");
    if (fails(&shelf)) {
        return -1;
    }
    return (int)syscall(SYS_openat, AT_FDCWD, nameless && !*path ? nameless : path, flags, 0);
}

ssize_t read(int file, void *bytes, size_t count) {
    if (is_interrupted() || fails(&shelf)) {
        return -1;
    }
    return syscall(SYS_read, file, bytes, least(count, shelf.piece));
}

ssize_t write(int file, const void *bytes, size_t count) {
    struct device *sink = file == STDERR_FILENO ? &err_sink : &out_sink;
    ssize_t taken;
    if (is_interrupted() || fails(sink)) {
        return -1;
    }
    count = least(count, least(sink->room, sink->piece));
    taken = count ? syscall(SYS_write, file, bytes, count) : 0;
    if (taken > 0 && sink->room != SIZE_MAX) {
        sink->room -= (size_t)taken;
    }
    return taken;
}

ssize_t __write(int file, const void *bytes, size_t count) {
    return write(file, bytes, count);
}
