/* A `write` that puts one byte on standard error in a call, or on the file of the number NARROW, and fails after as many of
   them as ROOM says. */
#define _GNU_SOURCE
#include <dlfcn.h>
#include <errno.h>
#include <stdlib.h>
#include <unistd.h>
static long room = -1, narrow;
ssize_t write(int file, const void *bytes, size_t count) {
    static ssize_t (*next)(int, const void *, size_t);
    if (!next) next = (ssize_t (*)(int, const void *, size_t))dlsym(RTLD_NEXT, "write");
    if (room < 0) {
        const char *text = getenv("ROOM"), *number = getenv("NARROW");
        room = text ? atol(text) : 0;
        narrow = number ? atol(number) : 2;
    }
    if (file != narrow || count == 0) return next(file, bytes, count);
    if (room == 0) { errno = ENOSPC; return -1; }
    room--;
    return next(file, bytes, 1);
}
ssize_t __write(int file, const void *bytes, size_t count) { return write(file, bytes, count); }
