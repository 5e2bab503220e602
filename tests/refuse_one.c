/* Refuses one allocation of the program that it is loaded into: of the number that REFUSED_GROWTH
 * says, from 1. A byte to the file REFUSED_GROWTH_COUNT tells that it came. Each allocation, refused
 * or not, is a byte to the file COUNTED_GROWTHS, where that is given. */
#define _GNU_SOURCE
#include <errno.h>
#include <stdatomic.h>
#include <stddef.h>
#include <stdlib.h>
#include <unistd.h>

extern void *__libc_malloc(size_t);
extern void *__libc_calloc(size_t, size_t);
extern void *__libc_realloc(void *, size_t);
extern void *__libc_memalign(size_t, size_t);

static atomic_long calls;
static long refused;
static int counted = -1, each = -1;

__attribute__((constructor)) static void begin(void) {
    const char *n = getenv("REFUSED_GROWTH"), *fd = getenv("REFUSED_GROWTH_COUNT");
    const char *all = getenv("COUNTED_GROWTHS");
    counted = fd ? atoi(fd) : -1;
    each = all ? atoi(all) : -1;
    atomic_store(&calls, 0);
    refused = n ? atol(n) : 0;
}

/* Whether this is the call to be refused. A byte tells that it came. */
static int is_refused(void) {
    if (each >= 0 && write(each, "x", 1) != 1) abort();
    if (!refused || atomic_fetch_add(&calls, 1) + 1 != refused) return 0;
    if (counted >= 0 && write(counted, "x", 1) != 1) abort();
    errno = ENOMEM;
    return 1;
}

void *malloc(size_t n) { return is_refused() ? NULL : __libc_malloc(n); }
void *calloc(size_t n, size_t m) { return is_refused() ? NULL : __libc_calloc(n, m); }
void *realloc(void *p, size_t n) { return is_refused() ? NULL : __libc_realloc(p, n); }
void *memalign(size_t a, size_t n) { return is_refused() ? NULL : __libc_memalign(a, n); }
void *aligned_alloc(size_t a, size_t n) { return is_refused() ? NULL : __libc_memalign(a, n); }
int posix_memalign(void **p, size_t a, size_t n) {
    void *q = is_refused() ? NULL : __libc_memalign(a, n);
    if (!q) return ENOMEM;
    *p = q;
    return 0;
}
