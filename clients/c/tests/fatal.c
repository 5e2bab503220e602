/* A program that asks for what has no place here, and handles no error. */
#include <mpi.h>

int main(void) {
    int number = 0;
    MPI_Init(NULL, NULL);
    MPI_Send(&number, 1, MPI_INT, 0, 0, MPI_COMM_WORLD);
    return MPI_Finalize();
}
