/* MPI for a process of a consortium: the functions of MPI that the server of docs/SERVE.md can
 * carry out, and the names of the others, which answer MPI_ERR_UNSUPPORTED_OPERATION. docs/MPI.md
 * lists them. Handles, constants and the layout of a status are those of Open MPI 4.1, so that a
 * program which was built for it finds this library in its place. */
#ifndef CONSORTIUM_MPI_H
#define CONSORTIUM_MPI_H

#include <stddef.h>
#include <stdint.h>

#ifdef __cplusplus
extern "C" {
#endif

#define MPI_VERSION 3
#define MPI_SUBVERSION 1

typedef ptrdiff_t MPI_Aint;
typedef long long MPI_Offset;
typedef long long MPI_Count;
typedef int MPI_Fint;

typedef struct ompi_communicator_t *MPI_Comm;
typedef struct ompi_datatype_t *MPI_Datatype;
typedef struct ompi_errhandler_t *MPI_Errhandler;
typedef struct ompi_file_t *MPI_File;
typedef struct ompi_group_t *MPI_Group;
typedef struct ompi_info_t *MPI_Info;
typedef struct ompi_op_t *MPI_Op;
typedef struct ompi_request_t *MPI_Request;
typedef struct ompi_message_t *MPI_Message;
typedef struct ompi_win_t *MPI_Win;

typedef struct {
    int MPI_SOURCE;
    int MPI_TAG;
    int MPI_ERROR;
    int cancelled; /* this and the next are the library's own */
    size_t bytes;
} MPI_Status;

typedef void(MPI_User_function)(void *, void *, int *, MPI_Datatype *);
typedef void(MPI_User_function_c)(void *, void *, MPI_Count *, MPI_Datatype *);
typedef void(MPI_Comm_errhandler_function)(MPI_Comm *, int *, ...);
typedef void(MPI_Win_errhandler_function)(MPI_Win *, int *, ...);
typedef void(MPI_File_errhandler_function)(MPI_File *, int *, ...);
typedef MPI_Comm_errhandler_function MPI_Comm_errhandler_fn;
typedef int(MPI_Comm_copy_attr_function)(MPI_Comm, int, void *, void *, void *, int *);
typedef int(MPI_Comm_delete_attr_function)(MPI_Comm, int, void *, void *);
typedef int(MPI_Type_copy_attr_function)(MPI_Datatype, int, void *, void *, void *, int *);
typedef int(MPI_Type_delete_attr_function)(MPI_Datatype, int, void *, void *);
typedef int(MPI_Win_copy_attr_function)(MPI_Win, int, void *, void *, void *, int *);
typedef int(MPI_Win_delete_attr_function)(MPI_Win, int, void *, void *);
typedef int(MPI_Copy_function)(MPI_Comm, int, void *, void *, void *, int *);
typedef int(MPI_Delete_function)(MPI_Comm, int, void *, void *);
typedef int(MPI_Grequest_query_function)(void *, MPI_Status *);
typedef int(MPI_Grequest_free_function)(void *);
typedef int(MPI_Grequest_cancel_function)(void *, int);
typedef int(MPI_Datarep_extent_function)(MPI_Datatype, MPI_Aint *, void *);
typedef int(MPI_Datarep_conversion_function)(void *, MPI_Datatype, int, void *, MPI_Offset, void *);

/* Ranks, tags and places. */
#define MPI_ANY_SOURCE (-1)
#define MPI_ANY_TAG (-1)
#define MPI_PROC_NULL (-2)
#define MPI_ROOT (-4)
#define MPI_UNDEFINED (-32766)
#define MPI_BOTTOM ((void *)0)
#define MPI_IN_PLACE ((void *)1)
#define MPI_UNWEIGHTED ((int *)2)
#define MPI_WEIGHTS_EMPTY ((int *)3)
#define MPI_STATUS_IGNORE ((MPI_Status *)0)
#define MPI_STATUSES_IGNORE ((MPI_Status *)0)
#define MPI_ERRCODES_IGNORE ((int *)0)
#define MPI_ARGV_NULL ((char **)0)
#define MPI_ARGVS_NULL ((char ***)0)
#define MPI_KEYVAL_INVALID (-1)
#define MPI_BSEND_OVERHEAD 128

/* Lengths of texts, with the zero behind them. */
#define MPI_MAX_PROCESSOR_NAME 256
#define MPI_MAX_ERROR_STRING 256
#define MPI_MAX_OBJECT_NAME 64
#define MPI_MAX_LIBRARY_VERSION_STRING 256
#define MPI_MAX_INFO_KEY 36
#define MPI_MAX_INFO_VAL 256
#define MPI_MAX_PORT_NAME 1024
#define MPI_MAX_DATAREP_STRING 128
#define MPIX_MAX_NAME 33

enum { MPI_IDENT, MPI_CONGRUENT, MPI_SIMILAR, MPI_UNEQUAL };
enum { MPI_THREAD_SINGLE, MPI_THREAD_FUNNELED, MPI_THREAD_SERIALIZED, MPI_THREAD_MULTIPLE };
enum { MPI_CART = 1, MPI_GRAPH = 2, MPI_DIST_GRAPH = 3 };
enum { MPI_COMM_TYPE_SHARED, OMPI_COMM_TYPE_HOST = 9 };
enum { MPI_ORDER_C, MPI_ORDER_FORTRAN };
enum { MPI_DISTRIBUTE_BLOCK, MPI_DISTRIBUTE_CYCLIC, MPI_DISTRIBUTE_NONE };
#define MPI_DISTRIBUTE_DFLT_DARG (-1)
enum { MPI_TYPECLASS_INTEGER = 1, MPI_TYPECLASS_REAL, MPI_TYPECLASS_COMPLEX };
enum {
    MPI_TAG_UB, MPI_HOST, MPI_IO, MPI_WTIME_IS_GLOBAL, MPI_APPNUM, MPI_LASTUSEDCODE,
    MPI_UNIVERSE_SIZE, MPI_WIN_BASE, MPI_WIN_SIZE, MPI_WIN_DISP_UNIT, MPI_WIN_CREATE_FLAVOR,
    MPI_WIN_MODEL
};
enum {
    MPI_COMBINER_NAMED, MPI_COMBINER_DUP, MPI_COMBINER_CONTIGUOUS, MPI_COMBINER_VECTOR,
    MPI_COMBINER_HVECTOR = 5, MPI_COMBINER_INDEXED, MPI_COMBINER_HINDEXED = 8,
    MPI_COMBINER_INDEXED_BLOCK, MPI_COMBINER_STRUCT = 11, MPI_COMBINER_SUBARRAY,
    MPI_COMBINER_DARRAY, MPI_COMBINER_F90_REAL, MPI_COMBINER_F90_COMPLEX,
    MPI_COMBINER_F90_INTEGER, MPI_COMBINER_RESIZED, MPI_COMBINER_HINDEXED_BLOCK
};

/* Files and windows, which this library has not. */
enum {
    MPI_MODE_CREATE = 1, MPI_MODE_RDONLY = 2, MPI_MODE_WRONLY = 4, MPI_MODE_RDWR = 8,
    MPI_MODE_DELETE_ON_CLOSE = 16, MPI_MODE_UNIQUE_OPEN = 32, MPI_MODE_EXCL = 64,
    MPI_MODE_APPEND = 128, MPI_MODE_SEQUENTIAL = 256
};
enum { MPI_SEEK_SET = 600, MPI_SEEK_CUR = 602, MPI_SEEK_END = 604 };
#define MPI_DISPLACEMENT_CURRENT (-54278278)
enum {
    MPI_MODE_NOCHECK = 1, MPI_MODE_NOPRECEDE = 2, MPI_MODE_NOPUT = 4, MPI_MODE_NOSTORE = 8,
    MPI_MODE_NOSUCCEED = 16
};
enum { MPI_LOCK_EXCLUSIVE = 1, MPI_LOCK_SHARED = 2 };
enum {
    MPI_WIN_FLAVOR_CREATE = 1, MPI_WIN_FLAVOR_ALLOCATE = 2, MPI_WIN_FLAVOR_DYNAMIC = 3,
    MPI_WIN_FLAVOR_SHARED = 4
};
enum { MPI_WIN_UNIFIED, MPI_WIN_SEPARATE };

/* Error classes. */
enum {
    MPI_SUCCESS, MPI_ERR_BUFFER, MPI_ERR_COUNT, MPI_ERR_TYPE, MPI_ERR_TAG, MPI_ERR_COMM,
    MPI_ERR_RANK, MPI_ERR_REQUEST, MPI_ERR_ROOT, MPI_ERR_GROUP, MPI_ERR_OP, MPI_ERR_TOPOLOGY,
    MPI_ERR_DIMS, MPI_ERR_ARG, MPI_ERR_UNKNOWN, MPI_ERR_TRUNCATE, MPI_ERR_OTHER, MPI_ERR_INTERN,
    MPI_ERR_IN_STATUS, MPI_ERR_PENDING, MPI_ERR_ACCESS, MPI_ERR_AMODE, MPI_ERR_ASSERT,
    MPI_ERR_BAD_FILE, MPI_ERR_BASE, MPI_ERR_CONVERSION, MPI_ERR_DISP, MPI_ERR_DUP_DATAREP,
    MPI_ERR_FILE_EXISTS, MPI_ERR_FILE_IN_USE, MPI_ERR_FILE, MPI_ERR_INFO_KEY, MPI_ERR_INFO_NOKEY,
    MPI_ERR_INFO_VALUE, MPI_ERR_INFO, MPI_ERR_IO, MPI_ERR_KEYVAL, MPI_ERR_LOCKTYPE, MPI_ERR_NAME,
    MPI_ERR_NO_MEM, MPI_ERR_NOT_SAME, MPI_ERR_NO_SPACE, MPI_ERR_NO_SUCH_FILE, MPI_ERR_PORT,
    MPI_ERR_QUOTA, MPI_ERR_READ_ONLY, MPI_ERR_RMA_CONFLICT, MPI_ERR_RMA_SYNC, MPI_ERR_SERVICE,
    MPI_ERR_SIZE, MPI_ERR_SPAWN, MPI_ERR_UNSUPPORTED_DATAREP, MPI_ERR_UNSUPPORTED_OPERATION,
    MPI_ERR_WIN,
    MPI_ERR_RMA_RANGE = 68, MPI_ERR_RMA_ATTACH, MPI_ERR_RMA_FLAVOR, MPI_ERR_RMA_SHARED,
    /* The server's own: an instance that was denied; a wait that nobody can end, since every other
     * process has left or waits too; a server that has ended the session. */
    MPIX_ERR_DENIED = 89, MPIX_ERR_STUCK = 90, MPIX_ERR_GONE = 91,
    MPI_ERR_LASTCODE = 92
};

/* Handles are the addresses of objects. */
#define CONSORTIUM_HANDLE(type, object) ((type)(void *)&(object))
#define MPI_COMM_NULL CONSORTIUM_HANDLE(MPI_Comm, ompi_mpi_comm_null)
#define MPI_COMM_WORLD CONSORTIUM_HANDLE(MPI_Comm, ompi_mpi_comm_world)
#define MPI_COMM_SELF CONSORTIUM_HANDLE(MPI_Comm, ompi_mpi_comm_self)
#define MPI_GROUP_NULL CONSORTIUM_HANDLE(MPI_Group, ompi_mpi_group_null)
#define MPI_GROUP_EMPTY CONSORTIUM_HANDLE(MPI_Group, ompi_mpi_group_empty)
#define MPI_REQUEST_NULL CONSORTIUM_HANDLE(MPI_Request, ompi_request_null)
#define MPI_MESSAGE_NULL CONSORTIUM_HANDLE(MPI_Message, ompi_message_null)
#define MPI_MESSAGE_NO_PROC CONSORTIUM_HANDLE(MPI_Message, ompi_message_no_proc)
#define MPI_ERRHANDLER_NULL CONSORTIUM_HANDLE(MPI_Errhandler, ompi_mpi_errhandler_null)
#define MPI_ERRORS_ARE_FATAL CONSORTIUM_HANDLE(MPI_Errhandler, ompi_mpi_errors_are_fatal)
#define MPI_ERRORS_RETURN CONSORTIUM_HANDLE(MPI_Errhandler, ompi_mpi_errors_return)
#define MPI_INFO_NULL CONSORTIUM_HANDLE(MPI_Info, ompi_mpi_info_null)
#define MPI_INFO_ENV CONSORTIUM_HANDLE(MPI_Info, ompi_mpi_info_env)
#define MPI_WIN_NULL CONSORTIUM_HANDLE(MPI_Win, ompi_mpi_win_null)
#define MPI_FILE_NULL CONSORTIUM_HANDLE(MPI_File, ompi_mpi_file_null)
extern struct ompi_predefined_communicator_t ompi_mpi_comm_null, ompi_mpi_comm_world,
    ompi_mpi_comm_self;
extern struct ompi_predefined_group_t ompi_mpi_group_null, ompi_mpi_group_empty;
extern struct ompi_predefined_request_t ompi_request_null;
extern struct ompi_predefined_message_t ompi_message_null, ompi_message_no_proc;
extern struct ompi_predefined_errhandler_t ompi_mpi_errhandler_null, ompi_mpi_errors_are_fatal,
    ompi_mpi_errors_return;
extern struct ompi_predefined_info_t ompi_mpi_info_null, ompi_mpi_info_env;
extern struct ompi_predefined_win_t ompi_mpi_win_null;
extern struct ompi_predefined_file_t ompi_mpi_file_null;

/* Functions that may be handed over in place of ones of the program's own. */
int OMPI_C_MPI_COMM_NULL_COPY_FN(MPI_Comm, int, void *, void *, void *, int *);
int OMPI_C_MPI_COMM_DUP_FN(MPI_Comm, int, void *, void *, void *, int *);
int OMPI_C_MPI_COMM_NULL_DELETE_FN(MPI_Comm, int, void *, void *);
int OMPI_C_MPI_TYPE_NULL_COPY_FN(MPI_Datatype, int, void *, void *, void *, int *);
int OMPI_C_MPI_TYPE_DUP_FN(MPI_Datatype, int, void *, void *, void *, int *);
int OMPI_C_MPI_TYPE_NULL_DELETE_FN(MPI_Datatype, int, void *, void *);
int OMPI_C_MPI_WIN_NULL_COPY_FN(MPI_Win, int, void *, void *, void *, int *);
int OMPI_C_MPI_WIN_DUP_FN(MPI_Win, int, void *, void *, void *, int *);
int OMPI_C_MPI_WIN_NULL_DELETE_FN(MPI_Win, int, void *, void *);
#define MPI_COMM_NULL_COPY_FN OMPI_C_MPI_COMM_NULL_COPY_FN
#define MPI_COMM_DUP_FN OMPI_C_MPI_COMM_DUP_FN
#define MPI_COMM_NULL_DELETE_FN OMPI_C_MPI_COMM_NULL_DELETE_FN
#define MPI_TYPE_NULL_COPY_FN OMPI_C_MPI_TYPE_NULL_COPY_FN
#define MPI_TYPE_DUP_FN OMPI_C_MPI_TYPE_DUP_FN
#define MPI_TYPE_NULL_DELETE_FN OMPI_C_MPI_TYPE_NULL_DELETE_FN
#define MPI_WIN_NULL_COPY_FN OMPI_C_MPI_WIN_NULL_COPY_FN
#define MPI_WIN_DUP_FN OMPI_C_MPI_WIN_DUP_FN
#define MPI_WIN_NULL_DELETE_FN OMPI_C_MPI_WIN_NULL_DELETE_FN
#define MPI_NULL_COPY_FN OMPI_C_MPI_COMM_NULL_COPY_FN
#define MPI_DUP_FN OMPI_C_MPI_COMM_DUP_FN
#define MPI_NULL_DELETE_FN OMPI_C_MPI_COMM_NULL_DELETE_FN
#define MPI_CONVERSION_FN_NULL ((MPI_Datarep_conversion_function *)0)

#define MPI_Aint_add(base, bytes) ((MPI_Aint)((char *)(base) + (bytes)))
#define MPI_Aint_diff(one, other) ((MPI_Aint)((char *)(one) - (char *)(other)))

/* The label of this process's elements from now on: a dataset of the policy, or "public". */
int MPIX_Set_label(const char *label);
int MPIX_Get_label(char *label);
/* Why the last denial was: the rule, "star" or "simple", and the process and label that it names.
 * Each has room for MPIX_MAX_NAME bytes. With no denial so far they are empty. */
int MPIX_Denial_get(char *rule, char *process, char *label);

/* A program that dies leaves its process to another one, which goes on where it was (docs/MPI.md,
 * "A program that dies"). That one calls MPIX_Resume before MPI_Init; else MPI_Init fails where an
 * earlier program has posted. What the server wrote to that one and it did not read is lost. */
int MPIX_Resume(void);
/* How many posts of this process count, those of earlier programs too: the next has this number. A
 * call is one post, but for an array that is cut, and for MPI_Comm_split, which may be two. */
int MPIX_Posts(MPI_Count *posts);
/* How many requests earlier programs had not taken as MPI_Init returned: 256 at most. */
int MPIX_Resumed(int *open);
/* One of them, with an index from 0 in the order of the posts, once: the number of its post, and a
 * request for MPI_Wait, MPI_Test and their like. What this process gets stands in `buffer` then,
 * all elements one behind the other, of which MPI_Get_count tells how many came. There is room for
 * `count` of `type`, or it is MPI_ERR_TRUNCATE, and MPI_ERR_TYPE where a number is none of the
 * type. A constructor gives the number of its communicator as one element, or none where this
 * process is in none. */
int MPIX_Resumed_request(int index, MPI_Count *number, void *buffer, int count, MPI_Datatype type,
                         MPI_Request *request);
/* The number by which the server knows a communicator, to be kept for MPIX_Comm_resume. */
int MPIX_Comm_number(MPI_Comm comm, int *number);
/* A communicator that an earlier program of this process has made, but the world. Of its members
 * only this process is known, and of a grid nothing. */
int MPIX_Comm_resume(int number, MPI_Comm *comm);

#include "mpi_functions.h"

#define MPI_LONG_LONG MPI_LONG_LONG_INT
#define MPI_C_COMPLEX MPI_C_FLOAT_COMPLEX
#define MPI_CXX_COMPLEX MPI_CXX_FLOAT_COMPLEX

#ifdef __cplusplus
}
#endif
#endif
