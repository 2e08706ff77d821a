// Preloaded: of the calls that open, read, write, sync, link or rename a file, the one of number FAIL_AT, counted from 1, fails with EIO. If SHORT
// is set, each read and write does one byte at most. Files that are opened by a path from the root, and what is written to standard error, don't count.
// If NO_RANDOM is set, the system has no random bytes; if NO_SYNC is set, no file is synced (EIO); if NO_LINK is set, no file is linked (EPERM), and if
// NO_RENAME is set, none is renamed (EIO).
#define _GNU_SOURCE
#include <dlfcn.h>
#include <errno.h>
#include <fcntl.h>
#include <stdarg.h>
#include <stdio.h>
#include <stdlib.h>
#include <unistd.h>

static ssize_t (*next_read)(int, void *, size_t);
static ssize_t (*next_write)(int, const void *, size_t);
static int (*next_open)(const char *, int, ...);
static long fail_at;
static int (*next_random)(void *, size_t);
static int (*next_sync)(int);
static int (*next_link)(const char *, const char *);
static int (*next_rename)(const char *, const char *);
static long count;
static int is_short;

__attribute__((constructor)) static void begin(void) {
    const char *number = getenv("FAIL_AT");
    next_read = dlsym(RTLD_NEXT, "read");
    next_write = dlsym(RTLD_NEXT, "write");
    next_open = dlsym(RTLD_NEXT, "open");
    next_random = dlsym(RTLD_NEXT, "getentropy");
    next_sync = dlsym(RTLD_NEXT, "fsync");
    next_link = dlsym(RTLD_NEXT, "link");
    next_rename = dlsym(RTLD_NEXT, "rename");
    fail_at = number ? atol(number) : 0;
    is_short = getenv("SHORT") != NULL;
}

static int fails(void) {
    count += 1;
    if (count != fail_at) {
        return 0;
    }
    errno = EIO;
    return 1;
}

ssize_t read(int file, void *into, size_t size) {
    if (fails()) {
        return -1;
    }
    return next_read(file, into, is_short && size > 1 ? 1 : size);
}

ssize_t write(int file, const void *from, size_t size) {
    if (file != 2 && fails()) {
        return -1;
    }
    return next_write(file, from, is_short && size > 1 ? 1 : size);
}

ssize_t __write(int file, const void *from, size_t size) {
    return write(file, from, size);
}

int open(const char *path, int flags, ...) {
    va_list more;
    va_start(more, flags);
    int mode = va_arg(more, int);
    va_end(more);
    if (path[0] != '/' && fails()) {
        return -1;
    }
    return next_open(path, flags, mode);
}

static int without(const char *name, int number) {
    if (getenv(name) != NULL) {
        errno = number;
        return 1;
    }
    return fails();
}

int fsync(int file) {
    return without("NO_SYNC", EIO) ? -1 : next_sync(file);
}

int link(const char *from, const char *to) {
    return without("NO_LINK", EPERM) ? -1 : next_link(from, to);
}

int rename(const char *from, const char *to) {
    return without("NO_RENAME", EIO) ? -1 : next_rename(from, to);
}

int getentropy(void *into, size_t size) {
    if (getenv("NO_RANDOM") != NULL) {
        errno = ENOSYS;
        return -1;
    }
    return next_random(into, size);
}
