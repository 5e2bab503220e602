/* A program that goes on until its server has died. */
#include <mpi.h>
#include <stdio.h>

int main(void) {
    char text[MPI_MAX_ERROR_STRING];
    int code, length;
    MPI_Init(NULL, NULL);
    MPI_Comm_set_errhandler(MPI_COMM_WORLD, MPI_ERRORS_RETURN);
    do {
        code = MPI_Barrier(MPI_COMM_WORLD);
    } while (code == MPI_SUCCESS);
    MPI_Error_string(code, text, &length);
    printf("%d: %s\n%d\n", code, text, MPI_Barrier(MPI_COMM_WORLD));
    printf("%d\n", MPI_Finalize());
    return 0;
}
