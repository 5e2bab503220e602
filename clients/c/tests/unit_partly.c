/* Two firms that are no rivals, and no rule that sanitises: each holds the other's figures with the
 * first piece of a long maximum, and can give nothing more. */
#include <mpi.h>
#include <string.h>

#include "check.h"

int main(void) {
    enum { LONG = 70000 };
    static int given[LONG], gotten[LONG];
    char rule[MPIX_MAX_NAME], process[MPIX_MAX_NAME], label[MPIX_MAX_NAME];
    int rank;
    MPI_Init(NULL, NULL);
    MPI_Comm_set_errhandler(MPI_COMM_WORLD, MPI_ERRORS_RETURN);
    MPI_Comm_rank(MPI_COMM_WORLD, &rank);
    for (int i = 0; i < LONG; i++) {
        given[i] = rank + 1;
    }
    CHECK(MPI_Allgather(given, LONG, MPI_INT, gotten, LONG, MPI_INT, MPI_COMM_WORLD) ==
          MPI_ERR_COUNT);
    CHECK(MPI_Allreduce(given, gotten, LONG, MPI_INT, MPI_MAX, MPI_COMM_WORLD) == MPIX_ERR_DENIED);
    MPIX_Denial_get(rule, process, label);
    CHECK(strcmp(rule, "star") == 0);
    CHECK(gotten[0] == 2 && gotten[LONG / 2 - 1] == 2 && gotten[LONG / 2] == 0);
    MPI_Finalize();
    return checks_end();
}
