/* How long a blocking allreduce takes.
 *
 *     figures COUNT CALLS
 *
 * Rank 0 prints the microseconds of a call, and those of its own processor time, in the program and
 * in the system for it. */
#include <mpi.h>
#include <stdio.h>
#include <stdlib.h>
#include <sys/resource.h>

static double own_time(void) {
    struct rusage usage;
    getrusage(RUSAGE_SELF, &usage);
    return (double)(usage.ru_utime.tv_sec + usage.ru_stime.tv_sec) +
           (double)(usage.ru_utime.tv_usec + usage.ru_stime.tv_usec) * 1e-6;
}

int main(int words, char **word) {
    int rank, count = words > 1 ? atoi(word[1]) : 1, calls = words > 2 ? atoi(word[2]) : 1000;
    long long *given = malloc(sizeof *given * (size_t)count),
              *sum = malloc(sizeof *sum * (size_t)count);
    MPI_Init(NULL, NULL);
    MPI_Comm_rank(MPI_COMM_WORLD, &rank);
    for (int i = 0; i < count; i++) {
        given[i] = 100000 + i;
    }
    MPI_Allreduce(given, sum, count, MPI_LONG_LONG, MPI_SUM, MPI_COMM_WORLD);
    double begin = MPI_Wtime(), own = own_time();
    for (int i = 0; i < calls; i++) {
        MPI_Allreduce(given, sum, count, MPI_LONG_LONG, MPI_SUM, MPI_COMM_WORLD);
    }
    double end = MPI_Wtime(), own_end = own_time();
    if (rank == 0) {
        printf("%.1f %.1f\n", (end - begin) / calls * 1e6, (own_end - own) / calls * 1e6);
    }
    free(given);
    free(sum);
    return MPI_Finalize();
}
