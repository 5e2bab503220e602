/* Handles as numbers, as Fortran has them. */
#include <stdlib.h>

#include "errors.h"
#include "objects.h"

static void **known;
static int known_count;

static MPI_Fint number_of(void *handle) {
    for (int number = 0; number < known_count; number++) {
        if (known[number] == handle) {
            return number;
        }
    }
    void **more = realloc(known, ((size_t)known_count + 1) * sizeof *more);
    if (more == NULL) {
        return -1;
    }
    known = more;
    known[known_count] = handle;
    return known_count++;
}

static void *handle_of(MPI_Fint number, void *none) {
    return number >= 0 && number < known_count ? known[number] : none;
}

#define NUMBERED(Name, Type, none)                                                                 \
    MPI_Fint MPI_##Name##_c2f(Type handle) { return number_of((void *)handle); }                   \
    Type MPI_##Name##_f2c(MPI_Fint number) { return handle_of(number, none); }
NUMBERED(Comm, MPI_Comm, MPI_COMM_NULL)
NUMBERED(Group, MPI_Group, MPI_GROUP_NULL)
NUMBERED(Type, MPI_Datatype, MPI_DATATYPE_NULL)
NUMBERED(Op, MPI_Op, MPI_OP_NULL)
NUMBERED(Request, MPI_Request, MPI_REQUEST_NULL)
NUMBERED(Errhandler, MPI_Errhandler, MPI_ERRHANDLER_NULL)
NUMBERED(Info, MPI_Info, MPI_INFO_NULL)
NUMBERED(Message, MPI_Message, MPI_MESSAGE_NULL)
NUMBERED(File, MPI_File, MPI_FILE_NULL)
NUMBERED(Win, MPI_Win, MPI_WIN_NULL)
