/* Arrays that are longer than a post, over a server whose three processes are nobody's: what is cut
 * gives what MPI says of the whole, and what is not is refused to all members alike. */
#include <mpi.h>
#include <stdlib.h>
#include <string.h>

#include "check.h"

enum { LONG = 150000, SIZE = 3 };

static int rank;
static long long *given, *gotten;

static void fill(int count) {
    for (int i = 0; i < count; i++) {
        given[i] = (long long)i * (rank + 1);
        gotten[i] = -1;
    }
}

/* Whether each number is so many times its place, from a first place on. */
static int are(const long long *numbers, int count, int first, int times) {
    for (int i = 0; i < count; i++) {
        if (numbers[i] != (long long)(first + i) * times) {
            return 0;
        }
    }
    return 1;
}

/* The root's numbers have gaps, in items of three; the others' have none. */
static void from_root(void) {
    MPI_Datatype gaps;
    MPI_Type_vector(3, 1, 2, MPI_LONG_LONG, &gaps);
    MPI_Type_commit(&gaps);
    int is_root = rank == 1;
    for (int i = 0; i < LONG; i++) {
        given[i / 3 * 5 + i % 3 * 2] = i;
        gotten[i] = -1;
    }
    CHECK(MPI_Bcast(is_root ? given : gotten, is_root ? LONG / 3 : LONG,
                    is_root ? gaps : MPI_LONG_LONG, 1, MPI_COMM_WORLD) == MPI_SUCCESS);
    CHECK(is_root || are(gotten, LONG, 0, 1));
    fill(LONG);
    CHECK(MPI_Scatter(given, LONG / 3, MPI_LONG_LONG, rank == 2 ? MPI_IN_PLACE : (void *)gotten,
                      LONG / 3, MPI_LONG_LONG, 2, MPI_COMM_WORLD) == MPI_SUCCESS);
    CHECK(rank == 2 || (are(gotten, LONG / 3, rank * (LONG / 3), 3) && gotten[LONG / 3] == -1));
    MPI_Type_free(&gaps);
}

static void reductions(void) {
    fill(LONG);
    CHECK(MPI_Allreduce(MPI_IN_PLACE, given, LONG, MPI_LONG_LONG, MPI_SUM, MPI_COMM_WORLD) ==
              MPI_SUCCESS && are(given, LONG, 0, 6));
    fill(LONG);
    CHECK(MPI_Reduce(given, gotten, LONG, MPI_LONG_LONG, MPI_MAX, 1, MPI_COMM_WORLD) ==
          MPI_SUCCESS);
    CHECK(rank == 1 ? are(gotten, LONG, 0, 3) : gotten[0] == -1);
    CHECK(MPI_Scan(given, gotten, LONG, MPI_LONG_LONG, MPI_SUM, MPI_COMM_WORLD) == MPI_SUCCESS &&
          are(gotten, LONG, 0, (rank + 1) * (rank + 2) / 2));
    CHECK(MPI_Exscan(given, gotten, LONG, MPI_LONG_LONG, MPI_SUM, MPI_COMM_WORLD) == MPI_SUCCESS);
    CHECK(rank == 0 || are(gotten, LONG, 0, rank * (rank + 1) / 2));
}

static void scattered_reductions(void) {
    const int counts[SIZE] = {100000, 5, LONG - 100005}, first = rank * 100000 - 99995 * (rank > 1);
    fill(LONG);
    CHECK(MPI_Reduce_scatter(given, gotten, counts, MPI_LONG_LONG, MPI_SUM, MPI_COMM_WORLD) ==
          MPI_SUCCESS);
    CHECK(are(gotten, counts[rank], first, 6) && gotten[counts[rank]] == -1);
    CHECK(MPI_Reduce_scatter(MPI_IN_PLACE, given, counts, MPI_LONG_LONG, MPI_SUM,
                             MPI_COMM_WORLD) == MPI_SUCCESS &&
          are(given, counts[rank], first, 6));
    fill(LONG);
    CHECK(MPI_Reduce_scatter_block(given, gotten, LONG / 3, MPI_LONG_LONG, MPI_SUM,
                                   MPI_COMM_WORLD) == MPI_SUCCESS);
    CHECK(are(gotten, LONG / 3, rank * (LONG / 3), 6) && gotten[LONG / 3] == -1);
}

/* The pieces of one that is under way stand in front of what is posted later. */
static void started(void) {
    MPI_Request requests[3];
    int own = rank + 1, sum = 0, flag = 0;
    fill(LONG);
    MPI_Iallreduce(given, gotten, LONG, MPI_LONG_LONG, MPI_SUM, MPI_COMM_WORLD, &requests[0]);
    MPI_Iallreduce(&own, &sum, 1, MPI_INT, MPI_SUM, MPI_COMM_WORLD, &requests[1]);
    MPI_Ibcast(given, LONG, MPI_LONG_LONG, 0, MPI_COMM_WORLD, &requests[2]);
    CHECK(MPI_Waitall(3, requests, MPI_STATUSES_IGNORE) == MPI_SUCCESS);
    CHECK(are(gotten, LONG, 0, 6) && sum == 6 && are(given, LONG, 0, 1));
    fill(LONG);
    MPI_Allreduce_init(given, gotten, LONG, MPI_LONG_LONG, MPI_SUM, MPI_COMM_WORLD, MPI_INFO_NULL,
                       requests);
    for (int round = 0; round < 2; round++) {
        memset(gotten, 0, LONG * sizeof *gotten);
        CHECK(MPI_Start(requests) == MPI_SUCCESS);
        for (flag = 0; !flag;) {
            CHECK(MPI_Test(requests, &flag, MPI_STATUS_IGNORE) == MPI_SUCCESS);
        }
        CHECK(are(gotten, LONG, 0, 6));
    }
    MPI_Request_free(requests);
}

/* Each of them is refused before anything is posted: what follows is as ever. */
static void refusals(void) {
    const int counts[SIZE] = {LONG, 1, 1}, places[SIZE] = {0, LONG, LONG + 1};
    enum { TOO_LONG = 256 * 65536 + 1 };
    MPI_Request request;
    char *bytes = calloc(TOO_LONG, 1);
    CHECK(MPI_Allgather(given, 65537, MPI_LONG_LONG, gotten, 65537, MPI_LONG_LONG,
                        MPI_COMM_WORLD) == MPI_ERR_COUNT);
    CHECK(MPI_Alltoall(given, 30000, MPI_LONG_LONG, gotten, 30000, MPI_LONG_LONG,
                       MPI_COMM_WORLD) == MPI_ERR_COUNT);
    CHECK(MPI_Gather(given, 65537, MPI_LONG_LONG, gotten, 65537, MPI_LONG_LONG, 0,
                     MPI_COMM_WORLD) == MPI_ERR_COUNT);
    CHECK(MPI_Reduce_scatter(given, gotten, counts, MPI_LONG_LONG, MPI_SUM, MPI_COMM_WORLD) ==
          MPI_ERR_COUNT);
    if (rank == 0) { /* the others cannot know */
        CHECK(MPI_Scatterv(given, counts, places, MPI_LONG_LONG, gotten, LONG, MPI_LONG_LONG, 0,
                           MPI_COMM_WORLD) == MPI_ERR_COUNT);
    }
    CHECK(MPI_Ibcast(bytes, TOO_LONG, MPI_BYTE, 0, MPI_COMM_WORLD, &request) == MPI_ERR_NO_SPACE);
    CHECK(MPI_Bcast_c(bytes, (MPI_Count)1 << 62, MPI_BYTE, 3, MPI_COMM_WORLD) == MPI_ERR_ROOT);
    free(bytes);
    int own = rank, sum;
    CHECK(MPI_Allreduce(&own, &sum, 1, MPI_INT, MPI_SUM, MPI_COMM_WORLD) == MPI_SUCCESS &&
          sum == 3);
}

int main(void) {
    given = calloc(2 * LONG, sizeof *given);
    gotten = calloc(2 * LONG, sizeof *gotten);
    MPI_Init(NULL, NULL);
    MPI_Comm_set_errhandler(MPI_COMM_WORLD, MPI_ERRORS_RETURN);
    MPI_Comm_rank(MPI_COMM_WORLD, &rank);
    from_root();
    reductions();
    scattered_reductions();
    started();
    refusals();
    free(given);
    free(gotten);
    MPI_Finalize();
    return checks_end();
}
