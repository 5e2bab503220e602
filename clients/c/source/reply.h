/* The reader of replies (docs/SCRIPT.md, "Replies"). It reads what comes from a pipe, and trusts
 * none of it. */
#ifndef CONSORTIUM_REPLY_H
#define CONSORTIUM_REPLY_H

#include <stdbool.h>
#include <stddef.h>
#include <stdint.h>

#include "objects.h"

enum answer {
    MALFORMED, POSTED, BARRED, PENDING, DELIVERED, NEW_COMM, NULL_COMM, NO_ROOM, DENIED, INFO,
    REFUSED, BAD, PONG, OPEN_REQUESTS, NEXT_REQUEST, LEFT, EXHAUSTED, UNBOOKED, DISMISSED,
    RUN_ENDED
};

struct reply {
    enum answer answer;
    uint64_t request;            /* POSTED, BARRED, NEXT_REQUEST; PONG: the number of the ping */
    uint32_t number, rank, size; /* NEW_COMM, INFO */
    char rule[MPIX_MAX_NAME], process[MPIX_MAX_NAME], label[MPIX_MAX_NAME]; /* DENIED */
    char reason[MPIX_MAX_NAME];                                             /* REFUSED, BAD */
    const char *blocks, *end; /* DELIVERED; OPEN_REQUESTS: the numbers */
};

/* Reads a line without its LF. */
void reply_read(const char *line, size_t length, struct reply *reply);

/* The numbers of OPEN_REQUESTS: how many, or -1 where they are not such, in ascending order, or more
 * than MOST_REQUESTS. */
int reply_requests(const struct reply *reply, uint64_t *numbers);

/* Where a delivery is read. */
struct blocks {
    const char *at, *end;
};

enum block { NO_BLOCK, MISSING_BLOCK, OPEN_BLOCK, BAD_BLOCK };

/* The next block. After OPEN_BLOCK its numbers follow, one for each call of `blocks_number`, which
 * gives 1, 0 at the end of the block, and -1 where it is none. */
enum block blocks_next(struct blocks *blocks);
int blocks_number(struct blocks *blocks, enum element element, int64_t *value);
/* Reads numbers of the element `wire` into the elements of a span: as `blocks_number`, and 1 where
 * the span is full. */
int blocks_span(struct blocks *blocks, enum element wire, const struct run *run, char *at,
                MPI_Count count);

#endif
