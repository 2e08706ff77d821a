// Preloaded: each read of a file takes 150 milliseconds longer.
#define _GNU_SOURCE
#include <dlfcn.h>
#include <unistd.h>

ssize_t read(int file, void *into, size_t size) {
    ssize_t (*next)(int, void *, size_t) = dlsym(RTLD_NEXT, "read");
    usleep(150000);
    return next(file, into, size);
}
