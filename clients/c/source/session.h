/* The session with the server: lines out, lines in. */
#ifndef CONSORTIUM_SESSION_H
#define CONSORTIUM_SESSION_H

#include <stdbool.h>
#include <stddef.h>
#include <stdint.h>

#include "reply.h"

/* A text that grows. */
struct text {
    char *bytes;
    size_t length, room;
};

/* Room for `more` bytes behind what is there: false where there is no memory. */
bool text_reserve(struct text *text, size_t more);
/* Appends, as printf would. */
bool text_add(struct text *text, const char *form, ...) __attribute__((format(printf, 2, 3)));

/* What earlier programs of a process have left: their requests that are not taken, in ascending
 * order. */
struct past {
    int open;
    uint64_t requests[MOST_REQUESTS];
};

/* Opens the pipes of process `name` in `folder`, waits until the server has, and drops what earlier
 * programs did not read. An error class. */
int session_open(const char *folder, const char *name, struct past *past);
/* Whether there is a session: else MPIX_ERR_GONE, or MPI_ERR_OTHER before and after MPI. */
int session_check(void);
/* Says that it leaves. */
void session_leave(void);
void session_close(void);

/* Writes lines, each with its LF. An error class. */
int session_write(const char *bytes, size_t length);
/* Reads the next line and what it says. `reply` stays good until the next line is read. */
int session_read(struct reply *reply);
/* Writes one line, which is given without its LF, and reads the reply. */
int session_ask(struct reply *reply, const char *form, ...) __attribute__((format(printf, 2, 3)));

/* The number that the next post gets which counts. */
uint64_t session_next_request(void);
void session_count_request(void);

#endif
