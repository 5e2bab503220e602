/* Refuses to sync a file's data, or a file or folder whole, but for the first REFUSED_SYNC times, in
 * the program that it is loaded into. A byte in the file TOLD_SYNCS tells of each: `f` of a file,
 * `d` of a folder. */
#define _GNU_SOURCE
#include <errno.h>
#include <fcntl.h>
#include <stdatomic.h>
#include <stdlib.h>
#include <sys/stat.h>
#include <unistd.h>

static atomic_long calls;

static int asked(int file) {
    const char *n = getenv("REFUSED_SYNC"), *told = getenv("TOLD_SYNCS");
    struct stat found;
    if (told && !fstat(file, &found)) {
        int log = open(told, O_WRONLY | O_CREAT | O_APPEND | O_CLOEXEC, 0600);
        if (log < 0 || write(log, S_ISDIR(found.st_mode) ? "d" : "f", 1) != 1) abort();
        close(log);
    }
    if (atomic_fetch_add(&calls, 1) < (n ? atol(n) : 0)) return 0;
    errno = EIO;
    return -1;
}

int fdatasync(int file) { return asked(file); }
int fsync(int file) { return asked(file); }
