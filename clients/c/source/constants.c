/* The predefined objects that are no types and no operations. */
#include "objects.h"

struct ompi_predefined_communicator_t ompi_mpi_comm_null = {.as.it = {.name = "MPI_COMM_NULL"}};
struct ompi_predefined_communicator_t ompi_mpi_comm_world = {
    .as.it = {.references = 1, .name = "MPI_COMM_WORLD", .handler = MPI_ERRORS_ARE_FATAL}};
struct ompi_predefined_communicator_t ompi_mpi_comm_self = {
    .as.it = {.references = 1, .name = "MPI_COMM_SELF", .handler = MPI_ERRORS_ARE_FATAL}};

static int no_members[1];
struct ompi_predefined_group_t ompi_mpi_group_null;
struct ompi_predefined_group_t ompi_mpi_group_empty = {.as.it = {1, 0, no_members}};

struct ompi_predefined_errhandler_t ompi_mpi_errhandler_null;
struct ompi_predefined_errhandler_t ompi_mpi_errors_are_fatal = {.as.it = {HANDLER_FATAL, 1, NULL}};
struct ompi_predefined_errhandler_t ompi_mpi_errors_return = {.as.it = {HANDLER_RETURN, 1, NULL}};

struct ompi_predefined_info_t ompi_mpi_info_null, ompi_mpi_info_env;
struct ompi_predefined_request_t ompi_request_null;
struct ompi_predefined_message_t ompi_message_null, ompi_message_no_proc;
struct ompi_predefined_win_t ompi_mpi_win_null;
struct ompi_predefined_file_t ompi_mpi_file_null;
