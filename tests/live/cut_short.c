/* Cuts short each CUT_SHORT-th read and write of the program that it is loaded into, as a signal
 * does: nothing is moved, and the error is EINTR. */
#define _GNU_SOURCE
#include <dlfcn.h>
#include <errno.h>
#include <stdatomic.h>
#include <stdlib.h>
#include <unistd.h>

static atomic_long calls;

static int is_cut(void) {
    const char *n = getenv("CUT_SHORT");
    long every = n ? atol(n) : 0;
    if (!every || (atomic_fetch_add(&calls, 1) + 1) % every) return 0;
    errno = EINTR;
    return 1;
}

ssize_t read(int file, void *bytes, size_t n) {
    static ssize_t (*next)(int, void *, size_t);
    if (!next) next = dlsym(RTLD_NEXT, "read");
    return is_cut() ? -1 : next(file, bytes, n);
}

ssize_t write(int file, const void *bytes, size_t n) {
    static ssize_t (*next)(int, const void *, size_t);
    if (!next) next = dlsym(RTLD_NEXT, "write");
    return is_cut() ? -1 : next(file, bytes, n);
}
