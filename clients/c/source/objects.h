/* What stands behind the handles. Each predefined object fills the room that Open MPI gives it, so
 * that a program which was linked to that library can hold a copy of it. */
#ifndef CONSORTIUM_OBJECTS_H
#define CONSORTIUM_OBJECTS_H

#include <stdbool.h>
#include <stdint.h>

#include "mpi.h"

enum { MOST_MEMBERS = 256, MOST_ELEMENTS = 65536, MOST_REQUESTS = 256 };

/* What an element is, as docs/KINDS.md names it. OPAQUE is for types that only have a size. */
enum element { OPAQUE, INT8, INT16, INT32, INT64, UINT8, UINT16, UINT32, UINT64, PAIR };

/* Which operations a type takes. */
enum use { USE_NONE, USE_NUMBER, USE_LOGICAL, USE_BYTES, USE_PAIR };

struct attribute {
    int keyval;
    void *value;
    struct attribute *next;
};

/* `count` elements one after the other, from byte `at` on. `outside` is the width of each in the
 * form external32. */
struct run {
    MPI_Aint at;
    MPI_Count count;
    enum element element;
    int width, outside;
};

struct ompi_datatype_t {
    char name[MPI_MAX_OBJECT_NAME];
    enum element element; /* of all its runs, or OPAQUE */
    enum use use;
    bool is_predefined, is_committed;
    int references;
    int combiner;
    MPI_Count elements, size; /* the elements and bytes that it moves */
    MPI_Aint lower, extent;
    size_t run_count;
    const struct run *runs;
    struct attribute *attributes;
};

/* A member is a rank of the world, or, where a split does not tell which, a number below 0 that
 * stands for one rank of one communicator. */
struct ompi_group_t {
    int references, size;
    int *members;
};

struct grid {
    int dimensions;
    int *sides, *is_periodic;
};

struct ompi_communicator_t {
    bool is_local; /* of this process alone: the server knows nothing of it */
    int references;
    uint32_t number;
    int rank, size;
    MPI_Group group;
    struct grid *grid;
    MPI_Errhandler handler;
    MPI_Info info;
    struct attribute *attributes;
    char name[MPI_MAX_OBJECT_NAME];
};

struct ompi_errhandler_t {
    enum { HANDLER_NONE, HANDLER_FATAL, HANDLER_RETURN, HANDLER_CALL } does;
    int references;
    MPI_Comm_errhandler_function *function;
};

struct ompi_op_t {
    const char *name; /* as the server spells it */
    int number;
};

struct pair {
    char *key, *value;
    struct pair *next;
};

struct ompi_info_t {
    struct pair *first;
};

enum operation {
    OP_NONE, OP_MAX, OP_MIN, OP_SUM, OP_PROD, OP_LAND, OP_LOR, OP_LXOR, OP_BAND, OP_BOR, OP_BXOR,
    OP_MAXLOC, OP_MINLOC, OP_REPLACE, OP_NO_OP
};

#define PREDEFINED(kind, bytes)                                                                    \
    struct ompi_predefined_##kind##_t {                                                            \
        union {                                                                                    \
            struct ompi_##kind##_t it;                                                             \
            char room[bytes];                                                                      \
        } as;                                                                                      \
    }
PREDEFINED(communicator, 512);
PREDEFINED(datatype, 512);
PREDEFINED(group, 256);
PREDEFINED(errhandler, 1024);
PREDEFINED(info, 256);
PREDEFINED(op, 2048);
struct ompi_predefined_request_t {
    char room[256];
};
struct ompi_predefined_message_t {
    char room[256];
};
struct ompi_predefined_win_t {
    char room[512];
};
struct ompi_predefined_file_t {
    char room[1536];
};

#endif
