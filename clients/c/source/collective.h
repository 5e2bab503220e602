/* What a collective is made of, and its way to the server and back. */
#ifndef CONSORTIUM_COLLECTIVE_H
#define CONSORTIUM_COLLECTIVE_H

#include "objects.h"
#include "session.h"

enum who { NOBODY, ALL, ROOT, OTHERS, NOT_FIRST };
enum shape { ONE, WHOLE, RANKS, SLOTS };
enum field { NO_FIELD, FIELD_ROOT, FIELD_OP, FIELD_TYPE, FIELD_COUNT, FIELD_COUNTS };

/* A line of table/collectives.txt. */
struct kind {
    const char *name; /* as docs/KINDS.md has it */
    enum who giver;
    enum shape gives;
    enum who getter;
    enum shape gets;
    enum field fields[5];
};

/* An array of int, or of MPI_Count or MPI_Aint. */
struct numbers {
    const void *at;
    int width;
};

/* The buffer that a process gives from, or gets into, and how it is laid out. */
struct side {
    void *buffer;
    MPI_Count count;
    struct numbers counts, places;
    MPI_Datatype type;
    const MPI_Datatype *types;
};

struct call {
    const struct kind *kind;
    struct side give, get;
    MPI_Op op;
    int root;
    MPI_Comm comm;
    MPI_Count piece, pieces; /* where it is cut: which piece of how many is at hand */
};

/* What a constructor's communicator will be. */
struct plan {
    MPI_Group group; /* NULL where a split decides it */
    struct grid *grid;
    bool is_duplicate; /* which gets the attributes too */
};

struct ompi_request_t {
    enum { REQUEST_IDLE, REQUEST_POSTED, REQUEST_DONE } state;
    bool is_persistent, is_resumed;
    uint64_t number;  /* of the first piece; the others' follow */
    MPI_Count posted; /* pieces of a call, or 1 */
    int error;        /* of the outcome, once it is done */
    size_t bytes;     /* that a resumed one has delivered */
    /* What the outcome is for: a collective, or where `made` is given a communicator, or where it is
     * resumed all that comes, one element behind the other. */
    struct call call;
    MPI_Comm *made;
    struct plan *plan;
};

/* Posts a call, for `request` to be settled later. An error class, and then nothing is kept. */
int call_post(struct ompi_request_t *request);
/* Posts a constructor, whose line is given. */
int line_post(struct ompi_request_t *request, const char *line);
/* Takes the outcome of the next piece from a reply. */
void call_settle(struct ompi_request_t *request, const struct reply *reply);

/* The three forms that a function can have. */
int blocking(struct call *call, const char *function);
int nonblocking(struct call *call, MPI_Request *request, const char *function);
int persistent(struct call *call, MPI_Request *request, const char *function);

/* A request that holds the objects of its call until it is released; NULL without memory. */
MPI_Request request_new(const struct call *call);
void request_release(MPI_Request request);
/* Waits for a request that is posted: the class of what came. */
int request_wait(MPI_Request request);

#endif
