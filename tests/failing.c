/* An allocator of which one call fails: the one whose number, from 1, stands in FAILS. It says so by a byte in the file `hit`. */
#define _GNU_SOURCE
#include <dlfcn.h>
#include <errno.h>
#include <fcntl.h>
#include <stdlib.h>
#include <unistd.h>
static long calls, fails = -1;
static int refused(void) {
    if (fails < 0) { const char *text = getenv("FAILS"); fails = text ? atol(text) : 0; }
    if (++calls != fails) return 0;
    int hit = open("hit", O_CREAT | O_WRONLY, 0600);
    if (write(hit, "1", 1) != 1) abort();
    close(hit);
    errno = ENOMEM;
    return 1;
}
void *malloc(size_t size) {
    static void *(*next)(size_t);
    if (!next) next = (void *(*)(size_t))dlsym(RTLD_NEXT, "malloc");
    return refused() ? NULL : next(size);
}
void *realloc(void *old, size_t size) {
    static void *(*next)(void *, size_t);
    if (!next) next = (void *(*)(void *, size_t))dlsym(RTLD_NEXT, "realloc");
    return refused() ? NULL : next(old, size);
}
int posix_memalign(void **at, size_t align, size_t size) {
    static int (*next)(void **, size_t, size_t);
    if (!next) next = (int (*)(void **, size_t, size_t))dlsym(RTLD_NEXT, "posix_memalign");
    return refused() ? ENOMEM : next(at, align, size);
}
void *aligned_alloc(size_t align, size_t size) {
    static void *(*next)(size_t, size_t);
    if (!next) next = (void *(*)(size_t, size_t))dlsym(RTLD_NEXT, "aligned_alloc");
    return refused() ? NULL : next(align, size);
}
