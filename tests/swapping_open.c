// Preloaded: before the file SWAPPED is opened for the second time, the file SWAPPED_FOR gets its name.
#define _GNU_SOURCE
#include <dlfcn.h>
#include <stdarg.h>
#include <stdio.h>
#include <stdlib.h>
#include <string.h>

static int (*next_open)(const char *, int, ...);
static int count;

int open(const char *path, int flags, ...) {
    va_list more;
    va_start(more, flags);
    int mode = va_arg(more, int);
    va_end(more);
    const char *swapped = getenv("SWAPPED");
    if (!next_open) {
        next_open = dlsym(RTLD_NEXT, "open");
    }
    if (swapped && strcmp(path, swapped) == 0) {
        count += 1;
        if (count == 2 && rename(getenv("SWAPPED_FOR"), path) != 0) {
            return -1;
        }
    }
    return next_open(path, flags, mode);
}
