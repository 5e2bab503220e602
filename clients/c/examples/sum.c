/* Each firm gives a figure, and all get the sum, or why they don't. */
#include <mpi.h>
#include <stdio.h>

int main(void) {
    int rank, code, length;
    long long figure, sum;
    char text[MPI_MAX_ERROR_STRING];
    MPI_Init(NULL, NULL);
    MPI_Comm_set_errhandler(MPI_COMM_WORLD, MPI_ERRORS_RETURN);
    MPI_Comm_rank(MPI_COMM_WORLD, &rank);
    figure = 100 + 20 * rank;
    code = MPI_Allreduce(&figure, &sum, 1, MPI_LONG_LONG, MPI_SUM, MPI_COMM_WORLD);
    if (code == MPI_SUCCESS) {
        printf("rank %d: %lld\n", rank, sum);
    } else {
        MPI_Error_string(code, text, &length);
        printf("rank %d: %s\n", rank, text);
    }
    return MPI_Finalize();
}
