/* Calls over a server whose three processes are nobody's. What a member gets is what MPI 4.1
 * says. */
#include <mpi.h>
#include <string.h>

#include "check.h"

static int rank, size;

/* Each dimension's two neighbours may be one rank, and this rank itself. What is given for a slot
 * arrives in the opposite slot of the neighbour there. */
static void neighbours(void) {
    MPI_Comm grid;
    int sides[2] = {2, 1}, periods[2] = {1, 1}, place;
    MPI_Cart_create(MPI_COMM_WORLD, 2, sides, periods, 0, &grid);
    CHECK((grid == MPI_COMM_NULL) == (rank == 2));
    if (grid != MPI_COMM_NULL) {
        MPI_Comm_rank(grid, &place);
        int given[4], gotten[4] = {-1, -1, -1, -1}, other = 1 - place;
        for (int slot = 0; slot < 4; slot++) {
            given[slot] = 10 * place + slot;
        }
        CHECK(MPI_Neighbor_alltoall(given, 1, MPI_INT, gotten, 1, MPI_INT, grid) == MPI_SUCCESS);
        CHECK(gotten[0] == 10 * other + 1 && gotten[1] == 10 * other);
        CHECK(gotten[2] == 10 * place + 3 && gotten[3] == 10 * place + 2);
        CHECK(MPI_Neighbor_alltoall(MPI_IN_PLACE, 1, MPI_INT, gotten, 1, MPI_INT, grid) !=
              MPI_SUCCESS);
        MPI_Comm_free(&grid);
    }
    CHECK(MPI_Neighbor_allgather(&rank, 1, MPI_INT, &place, 1, MPI_INT, MPI_COMM_WORLD) ==
          MPI_ERR_TOPOLOGY);
}

static void persistent(void) {
    long given = 0, gotten;
    int flag;
    MPI_Request requests[2];
    MPI_Status status;
    MPI_Allreduce_init(&given, &gotten, 1, MPI_LONG, MPI_SUM, MPI_COMM_WORLD, MPI_INFO_NULL,
                       requests);
    MPI_Barrier_init(MPI_COMM_WORLD, MPI_INFO_NULL, requests + 1);
    CHECK(MPI_Wait(requests, &status) == MPI_SUCCESS && status.MPI_SOURCE == MPI_ANY_SOURCE);
    for (int round = 0; round < 3; round++) {
        given = rank + round;
        CHECK(MPI_Start(requests) == MPI_SUCCESS);
        CHECK(MPI_Start(requests) == MPI_ERR_REQUEST);
        CHECK(MPI_Wait(requests, MPI_STATUS_IGNORE) == MPI_SUCCESS);
        CHECK(gotten == 3 + 3 * round && requests[0] != MPI_REQUEST_NULL);
    }
    given = 5;
    CHECK(MPI_Startall(2, requests) == MPI_SUCCESS);
    do {
        MPI_Testall(2, requests, &flag, MPI_STATUSES_IGNORE);
    } while (!flag);
    CHECK(gotten == 15);
    CHECK(MPI_Request_free(requests) == MPI_SUCCESS && requests[0] == MPI_REQUEST_NULL);
    CHECK(MPI_Request_free(requests + 1) == MPI_SUCCESS);
    CHECK(MPI_Request_free(requests) == MPI_ERR_REQUEST);
}

/* A type without a sign, and one with one, at the top of their range. */
static void signs(void) {
    unsigned long given = rank == 1 ? ~0ul : 5, most;
    MPI_Offset place = rank == 1 ? -1 : 5, least;
    MPI_Allreduce(&given, &most, 1, MPI_UNSIGNED_LONG, MPI_MAX, MPI_COMM_WORLD);
    MPI_Allreduce(&place, &least, 1, MPI_OFFSET, MPI_MIN, MPI_COMM_WORLD);
    CHECK(most == ~0ul && least == -1);
}

static void large_counts(void) {
    short given[3] = {(short)rank, (short)(rank + 10), (short)(rank + 20)}, gotten[12];
    MPI_Count counts[3] = {1, 2, 3};
    MPI_Aint places[3] = {9, 5, 0};
    memset(gotten, 0, sizeof gotten);
    CHECK(MPI_Allgatherv_c(given, rank + 1, MPI_SHORT, gotten, counts, places, MPI_SHORT,
                           MPI_COMM_WORLD) == MPI_SUCCESS);
    const short wanted[12] = {2, 12, 22, 0, 0, 1, 11, 0, 0, 0, 0, 0};
    CHECK(memcmp(gotten, wanted, sizeof wanted) == 0);
    /* A type for each rank: what goes to rank 0 is of one byte, to rank 1 of two, to rank 2 of
     * eight. */
    signed char to_first = (signed char)(-1 - rank);
    unsigned short to_second = (unsigned short)(65535 - rank);
    uint64_t to_third = UINT64_MAX - (uint64_t)rank, from_all[3] = {0, 0, 0};
    MPI_Datatype types[3] = {MPI_SIGNED_CHAR, MPI_UNSIGNED_SHORT, MPI_UINT64_T}, own[3];
    MPI_Aint from[3], to[3];
    MPI_Count ones[3] = {1, 1, 1};
    MPI_Get_address(&to_first, &from[0]);
    MPI_Get_address(&to_second, &from[1]);
    MPI_Get_address(&to_third, &from[2]);
    for (int i = 0; i < 3; i++) {
        MPI_Get_address(&from_all[i], &to[i]);
        own[i] = types[rank];
    }
    CHECK(MPI_Alltoallw_c(MPI_BOTTOM, ones, from, types, MPI_BOTTOM, ones, to, own,
                          MPI_COMM_WORLD) == MPI_SUCCESS);
    for (uint64_t i = 0; i < 3; i++) {
        uint64_t mask = rank == 0 ? 0xff : rank == 1 ? 0xffff : UINT64_MAX;
        CHECK(from_all[i] == ((UINT64_MAX - i) & mask));
    }
}

static void refusals(void) {
    static int many[65537], gotten[3];
    double one = 1, two;
    char text[MPI_MAX_ERROR_STRING];
    int length;
    CHECK(MPI_Bcast(many, 65537, MPI_INT, 0, MPI_COMM_WORLD) == MPI_SUCCESS);
    CHECK(MPI_Bcast(many, 65536, MPI_INT, 0, MPI_COMM_WORLD) == MPI_SUCCESS);
    CHECK(MPI_Allreduce(&one, &two, 1, MPI_DOUBLE, MPI_SUM, MPI_COMM_WORLD) == MPI_ERR_TYPE);
    CHECK(MPI_Send(many, 1, MPI_INT, 0, 0, MPI_COMM_WORLD) == MPI_ERR_UNSUPPORTED_OPERATION);
    CHECK(MPI_Allreduce(many, gotten, 1, MPI_INT, MPI_OP_NULL, MPI_COMM_WORLD) == MPI_ERR_OP);
    CHECK(MPI_Allreduce(many, gotten, 1, MPI_2INT, MPI_SUM, MPI_COMM_WORLD) == MPI_ERR_OP);
    CHECK(MPI_Bcast(many, 1, MPI_INT, 3, MPI_COMM_WORLD) == MPI_ERR_ROOT);
    CHECK(MPI_Error_string(MPI_ERR_UNSUPPORTED_OPERATION, text, &length) == MPI_SUCCESS &&
          length > 0);
    /* More comes than there is room for: the others are as ever. */
    int counts[3] = {2, 2, 1}, places[3] = {0, 0, 0};
    int code = MPI_Allgatherv(many, 2, MPI_INT, many + 9, counts, places, MPI_INT, MPI_COMM_WORLD);
    CHECK(code == MPI_ERR_TRUNCATE);
    /* Another member was first, and stated another count. */
    MPI_Comm twin;
    MPI_Request request;
    MPI_Comm_dup(MPI_COMM_WORLD, &twin);
    if (rank == 0) {
        MPI_Ibcast(many, 2, MPI_INT, 0, twin, &request);
    }
    MPI_Barrier(MPI_COMM_WORLD);
    if (rank != 0) {
        CHECK(MPI_Ibcast(many, 3, MPI_INT, 0, twin, &request) == MPI_ERR_NOT_SAME);
        CHECK(MPI_Bcast(many, 3, MPI_INT, 0, twin) == MPI_ERR_NOT_SAME);
        CHECK(MPI_Ibcast(many, 2, MPI_INT, 0, twin, &request) == MPI_SUCCESS);
    }
    CHECK(MPI_Wait(&request, MPI_STATUS_IGNORE) == MPI_SUCCESS);
    MPI_Comm_free(&twin);
}

/* Communicators that the server knows nothing of. */
static void alone(void) {
    MPI_Comm own, grid;
    int number = 7 + rank, gotten[2] = {0, 0}, count, kept = -1, period = 1, side = 1;
    MPI_Comm_split_type(MPI_COMM_WORLD, MPI_COMM_TYPE_SHARED, 0, MPI_INFO_NULL, &own);
    MPI_Comm_size(own, &count);
    CHECK(count == 1);
    CHECK(MPI_Allreduce(&number, gotten, 1, MPI_INT, MPI_SUM, own) == MPI_SUCCESS &&
          gotten[0] == number);
    CHECK(MPI_Exscan(&number, &kept, 1, MPI_INT, MPI_SUM, own) == MPI_SUCCESS && kept == -1);
    CHECK(MPI_Bcast(&number, 1, MPI_INT, 0, MPI_COMM_SELF) == MPI_SUCCESS && number == 7 + rank);
    CHECK(MPI_Barrier(MPI_COMM_SELF) == MPI_SUCCESS);
    CHECK(MPI_Cart_create(own, 1, &side, &period, 0, &grid) == MPI_SUCCESS);
    int two[2] = {3, 4};
    CHECK(MPI_Neighbor_alltoall(two, 1, MPI_INT, gotten, 1, MPI_INT, grid) == MPI_SUCCESS);
    CHECK(gotten[0] == 4 && gotten[1] == 3);
    MPI_Comm_free(&grid);
    MPI_Comm_free(&own);
}

/* One process alone, by the server and without it: places are bytes. */
static void places(void) {
    MPI_Comm comms[2] = {MPI_COMM_SELF, MPI_COMM_NULL};
    MPI_Comm_split(MPI_COMM_WORLD, rank, 0, &comms[1]);
    for (int i = 0; i < 2; i++) {
        int given[3] = {1, 2 + rank, 3}, gotten[4] = {0, 0, 0, 0}, one = 1, from = 4, to = 8;
        MPI_Datatype type = MPI_INT;
        CHECK(MPI_Alltoallw(given, &one, &from, &type, gotten, &one, &to, &type, comms[i]) ==
              MPI_SUCCESS);
        CHECK(gotten[2] == 2 + rank && gotten[0] == 0 && gotten[1] == 0 && gotten[3] == 0);
    }
    MPI_Comm_free(&comms[1]);
}

/* In place, each pair of ranks trades as many numbers of a type of its own: 1 + both ranks. */
static void traded(void) {
    const MPI_Datatype TYPES[] = {MPI_SHORT, MPI_INT, MPI_UNSIGNED_CHAR, MPI_LONG, MPI_SIGNED_CHAR};
    MPI_Datatype types[3];
    MPI_Request request;
    int counts[3], places[3], size_of_one, length;
    char room[3 * 64];
    for (int other = 0; other < 3; other++) {
        types[other] = TYPES[rank + other];
        counts[other] = 1 + rank + other;
        places[other] = 64 * other;
        memset(room + places[other], 10 * rank + other, 64);
    }
    CHECK(MPI_Ialltoallw(MPI_IN_PLACE, NULL, NULL, NULL, room, counts, places, types,
                         MPI_COMM_WORLD, &request) == MPI_SUCCESS);
    CHECK(MPI_Wait(&request, MPI_STATUS_IGNORE) == MPI_SUCCESS);
    for (int other = 0; other < 3; other++) {
        MPI_Type_size(types[other], &size_of_one);
        length = counts[other] * size_of_one;
        CHECK(room[64 * other] == 10 * other + rank);
        CHECK(room[64 * other + length - 1] == 10 * other + rank);
        CHECK(room[64 * other + length] == 10 * rank + other);
    }
}

/* The last member leaves, and so nobody can end this wait. */
static void stuck(void) {
    if (rank != 0) {
        return;
    }
    char text[MPI_MAX_ERROR_STRING];
    int length, index;
    MPI_Request requests[2];
    CHECK(MPI_Barrier(MPI_COMM_WORLD) == MPIX_ERR_STUCK);
    MPI_Ibarrier(MPI_COMM_WORLD, &requests[1]);
    MPI_Ibarrier(MPI_COMM_WORLD, &requests[0]);
    CHECK(MPI_Waitany(2, requests, &index, MPI_STATUS_IGNORE) == MPIX_ERR_STUCK && index == 1);
    MPI_Error_string(MPIX_ERR_STUCK, text, &length);
    CHECK(strncmp(text, "stuck", 5) == 0);
}

int main(int count, char **words) {
    int flag, provided;
    CHECK(MPI_Initialized(&flag) == MPI_SUCCESS && !flag);
    MPI_Init_thread(&count, &words, MPI_THREAD_MULTIPLE, &provided);
    CHECK(provided == MPI_THREAD_SERIALIZED);
    MPI_Comm_set_errhandler(MPI_COMM_WORLD, MPI_ERRORS_RETURN);
    MPI_Comm_rank(MPI_COMM_WORLD, &rank);
    MPI_Comm_size(MPI_COMM_WORLD, &size);
    CHECK(size == 3);
    neighbours();
    persistent();
    signs();
    large_counts();
    refusals();
    alone();
    places();
    traded();
    stuck();
    MPI_Finalize();
    CHECK(MPI_Finalized(&flag) == MPI_SUCCESS && flag);
    return checks_end();
}
