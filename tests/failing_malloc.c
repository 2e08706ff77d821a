// Preloaded: the allocation of number FAIL_AT, counted from 1 and without those that shrink a block, gets no memory, and no thread is to be had from the one of number
// THREADS_FAIL_AT on. Where every allocation before FAIL_AT got its memory, tells how many there were. The program has threads: it counts atomically, and the end
// of the program is `_exit`.
#define _GNU_SOURCE
#include <dlfcn.h>
#include <errno.h>
#include <malloc.h>
#include <pthread.h>
#include <stdio.h>
#include <stdlib.h>
#include <sys/syscall.h>
#include <unistd.h>

typedef int create(pthread_t *, const pthread_attr_t *, void *(*)(void *), void *);

static void *(*next_malloc)(size_t);
static void *(*next_realloc)(void *, size_t);
static create *next_create;
static long fail_at;
static long threads_fail_at;
static long count;
static long threads;

static long number_in(const char *name) {
    const char *number = getenv(name);
    return number ? atol(number) : 0;
}

__attribute__((constructor)) static void begin(void) {
    next_malloc = dlsym(RTLD_NEXT, "malloc");
    next_realloc = dlsym(RTLD_NEXT, "realloc");
    next_create = (create *)dlsym(RTLD_NEXT, "pthread_create");
    fail_at = number_in("FAIL_AT");
    threads_fail_at = number_in("THREADS_FAIL_AT");
    count = 0;
}

__attribute__((noreturn)) void _exit(int status) {
    if (count < fail_at) {
        char text[64];
        int length = snprintf(text, sizeof text, "allocations: %ld\n", count);
        if (write(2, text, length) < 0) {
            status = 4;
        }
    }
    syscall(SYS_exit_group, status);
    __builtin_unreachable();
}

static int fails(void) {
    if (__atomic_add_fetch(&count, 1, __ATOMIC_SEQ_CST) != fail_at) {
        return 0;
    }
    errno = ENOMEM;
    return 1;
}

void *malloc(size_t size) {
    if (!next_malloc) {
        next_malloc = dlsym(RTLD_NEXT, "malloc");
    }
    return fails() ? NULL : next_malloc(size);
}

void *realloc(void *block, size_t size) {
    if (!next_realloc) {
        next_realloc = dlsym(RTLD_NEXT, "realloc");
    }
    // A block that shrinks asks for no memory.
    if (block && size <= malloc_usable_size(block)) {
        return next_realloc(block, size);
    }
    return fails() ? NULL : next_realloc(block, size);
}

int pthread_create(pthread_t *thread, const pthread_attr_t *attributes, void *(*run)(void *), void *given) {
    long number = __atomic_add_fetch(&threads, 1, __ATOMIC_SEQ_CST);
    if (threads_fail_at && number >= threads_fail_at) {
        return EAGAIN;
    }
    return next_create(thread, attributes, run, given);
}
