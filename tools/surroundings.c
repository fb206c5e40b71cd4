// Broken surroundings for a program that is linked to the C library dynamically: preloaded, it lets one call fail, or has calls move one byte.
//   REFUSE_ALLOC=N   the N-th call of malloc or realloc gives no memory
//   FAIL_READ=N      the N-th read of standard input fails
//   FAIL_WRITE=N     the N-th write to standard output fails
//   SHORT_READS=1    a read of standard input gives one byte at most
//   SHORT_WRITES=1   a write to standard output takes one byte at most
//   NO_THREADS=1     no thread can be started
// Calls are counted from 1. A call behind a failed one of its kind, which nothing should make, ends the program with status 99.
#define _GNU_SOURCE
#include <dlfcn.h>
#include <errno.h>
#include <pthread.h>
#include <stdatomic.h>
#include <stdlib.h>
#include <unistd.h>

extern void *__libc_malloc(size_t);
extern void *__libc_realloc(void *, size_t);

static long refuse_alloc, fail_read, fail_write, short_reads, short_writes, no_threads;
static atomic_long allocs, reads, writes;

static long number(const char *name) {
    const char *text = getenv(name);
    return text ? atol(text) : 0;
}

__attribute__((constructor)) static void begin(void) {
    fail_read = number("FAIL_READ");
    fail_write = number("FAIL_WRITE");
    short_reads = number("SHORT_READS");
    short_writes = number("SHORT_WRITES");
    no_threads = number("NO_THREADS");
    atomic_store(&allocs, 0);
    refuse_alloc = number("REFUSE_ALLOC");
}

static int refused(void) {
    return refuse_alloc && atomic_fetch_add(&allocs, 1) + 1 == refuse_alloc;
}

void *malloc(size_t size) {
    if (refused()) {
        errno = ENOMEM;
        return NULL;
    }
    return __libc_malloc(size);
}

void *realloc(void *old, size_t size) {
    if (refused()) {
        errno = ENOMEM;
        return NULL;
    }
    return __libc_realloc(old, size);
}

// Whether this call fails; none of its kind comes later.
static int fails(atomic_long *calls, long which) {
    long call = atomic_fetch_add(calls, 1) + 1;
    if (which && call > which) _exit(99);
    return which && call == which;
}

ssize_t read(int file, void *buffer, size_t size) {
    static ssize_t (*next)(int, void *, size_t);
    if (!next) next = dlsym(RTLD_NEXT, "read");
    if (file != 0) return next(file, buffer, size);
    if (fails(&reads, fail_read)) {
        errno = EIO;
        return -1;
    }
    return next(file, buffer, short_reads && size > 1 ? 1 : size);
}

ssize_t write(int file, const void *bytes, size_t size) {
    static ssize_t (*next)(int, const void *, size_t);
    if (!next) next = dlsym(RTLD_NEXT, "write");
    if (file != 1) return next(file, bytes, size);
    if (fails(&writes, fail_write)) {
        errno = EIO;
        return -1;
    }
    return next(file, bytes, short_writes && size > 1 ? 1 : size);
}

ssize_t __write(int file, const void *bytes, size_t size) {
    return write(file, bytes, size);
}

int pthread_create(pthread_t *thread, const pthread_attr_t *kind, void *(*body)(void *), void *with) {
    static int (*next)(pthread_t *, const pthread_attr_t *, void *(*)(void *), void *);
    if (!next) next = dlsym(RTLD_NEXT, "pthread_create");
    return no_threads ? EAGAIN : next(thread, kind, body, with);
}
