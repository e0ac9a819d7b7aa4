/* Counts a program's calls on files. Of the one whose number, from 1, stands in AT the name goes into the file `hit`, and DO says
   what becomes of it: `pause` holds it up from a file `paused` until a file `go` is there, `end` kills the program at it, `half`
   kills it once a write has put down half of its bytes, and a number is the error with which it fails. ONLY counts the calls of
   this name alone. */
#define _GNU_SOURCE
#include <dlfcn.h>
#include <errno.h>
#include <fcntl.h>
#include <signal.h>
#include <stdarg.h>
#include <stdlib.h>
#include <string.h>
#include <sys/stat.h>
#include <sys/syscall.h>
#include <unistd.h>
static long calls;
static void leave(const char *file, const char *text) {
    int made = syscall(SYS_openat, AT_FDCWD, file, O_CREAT | O_WRONLY, 0600);
    syscall(SYS_write, made, text, strlen(text));
    syscall(SYS_close, made);
}
static int is_hit(const char *name) {
    const char *at = getenv("AT"), *only = getenv("ONLY"), *what = getenv("DO");
    if (!at || !what || (only && strcmp(only, name))) return 0;
    if (++calls != atol(at)) return 0;
    leave("hit", name);
    if (!strcmp(what, "end")) syscall(SYS_kill, getpid(), SIGKILL);
    if (!strcmp(what, "half")) return 1;
    if (strcmp(what, "pause")) return errno = atoi(what);
    leave("paused", "");
    for (int tries = 0; tries < 10000 && syscall(SYS_access, "go", F_OK); tries++) usleep(2000);
    return 0;
}
#define NEXT(type, name, ...) static type (*next)(__VA_ARGS__); if (!next) next = (type (*)(__VA_ARGS__))dlsym(RTLD_NEXT, #name)
static int opens(int (*next)(const char *, int, ...), const char *path, int flags, mode_t mode) {
    return is_hit("open") ? -1 : next(path, flags, mode);
}
int open(const char *path, int flags, ...) {
    va_list rest; va_start(rest, flags); mode_t mode = va_arg(rest, mode_t); va_end(rest);
    NEXT(int, open, const char *, int, ...);
    return opens(next, path, flags, mode);
}
int open64(const char *path, int flags, ...) {
    va_list rest; va_start(rest, flags); mode_t mode = va_arg(rest, mode_t); va_end(rest);
    NEXT(int, open64, const char *, int, ...);
    return opens(next, path, flags, mode);
}
int statx(int dir, const char *restrict path, int flags, unsigned mask, struct statx *restrict found) {
    NEXT(int, statx, int, const char *, int, unsigned, struct statx *);
    return is_hit("statx") ? -1 : next(dir, path, flags, mask, found);
}
ssize_t readlink(const char *restrict path, char *restrict to, size_t room) {
    NEXT(ssize_t, readlink, const char *, char *, size_t);
    return is_hit("readlink") ? -1 : next(path, to, room);
}
int flock(int file, int how) { NEXT(int, flock, int, int); return is_hit("flock") ? -1 : next(file, how); }
int fchown(int file, uid_t owner, gid_t group) { NEXT(int, fchown, int, uid_t, gid_t); return is_hit("fchown") ? -1 : next(file, owner, group); }
int fchmod(int file, mode_t mode) { NEXT(int, fchmod, int, mode_t); return is_hit("fchmod") ? -1 : next(file, mode); }
int fsync(int file) { NEXT(int, fsync, int); return is_hit("fsync") ? -1 : next(file); }
int rename(const char *from, const char *to) { NEXT(int, rename, const char *, const char *); return is_hit("rename") ? -1 : next(from, to); }
int unlink(const char *path) { NEXT(int, unlink, const char *); return is_hit("unlink") ? -1 : next(path); }
ssize_t read(int file, void *to, size_t room) {
    NEXT(ssize_t, read, int, void *, size_t);
    return file > 2 && is_hit("read") ? -1 : next(file, to, room);
}
ssize_t write(int file, const void *bytes, size_t count) {
    NEXT(ssize_t, write, int, const void *, size_t);
    if (file <= 2 || !is_hit("write")) return next(file, bytes, count);
    if (strcmp(getenv("DO"), "half")) return -1;
    next(file, bytes, count / 2);
    return syscall(SYS_kill, getpid(), SIGKILL);
}
