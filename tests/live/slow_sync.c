/* Has each sync of a file's data take SLOW_SYNC microseconds, and do nothing else, in the program
 * that it is loaded into: a disk whose time is known. */
#define _GNU_SOURCE
#include <stdlib.h>
#include <unistd.h>

int fdatasync(int file) {
    const char *n = getenv("SLOW_SYNC");
    (void)file;
    if (n) usleep((useconds_t)atol(n));
    return 0;
}
