/* Calls over a server whose three processes belong to rivals, under which a sum of three firms is
 * sanitised. */
#include <mpi.h>
#include <string.h>

#include "check.h"

static int rank;

static int is_denial(const char *rule, const char *process, const char *label) {
    char found[3][MPIX_MAX_NAME];
    MPIX_Denial_get(found[0], found[1], found[2]);
    return strcmp(found[0], rule) == 0 && strcmp(found[1], process) == 0 &&
           strcmp(found[2], label) == 0;
}

static void denials(void) {
    int figure = 5, kept = -1, length;
    char text[MPI_MAX_ERROR_STRING], label[MPIX_MAX_NAME];
    MPI_Request requests[2];
    MPI_Status statuses[2];
    CHECK(is_denial("", "", ""));
    CHECK(MPI_Allreduce(&figure, &kept, 1, MPI_INT, MPI_SUM, MPI_COMM_WORLD) == MPI_SUCCESS &&
          kept == 15);
    figure = rank == 0 ? 5 : -1;
    CHECK(MPI_Bcast(&figure, 1, MPI_INT, 0, MPI_COMM_WORLD) == MPIX_ERR_DENIED);
    CHECK(figure == (rank == 0 ? 5 : -1) && is_denial("simple", "p1", "firm0"));
    MPI_Error_string(MPIX_ERR_DENIED, text, &length);
    CHECK(strcmp(text, "denied: simple rule, process p1, label firm0") == 0);
    MPI_Iallreduce(&figure, &kept, 1, MPI_INT, MPI_MAX, MPI_COMM_WORLD, &requests[0]);
    MPI_Ibarrier(MPI_COMM_WORLD, &requests[1]);
    CHECK(MPI_Waitall(2, requests, statuses) == MPI_ERR_IN_STATUS && kept == 15);
    CHECK(statuses[0].MPI_ERROR == MPIX_ERR_DENIED && statuses[1].MPI_ERROR == MPI_SUCCESS);
    CHECK(MPIX_Set_label("No Name") == MPI_ERR_ARG);
    if (rank == 2) {
        CHECK(MPIX_Set_label("public") == MPI_SUCCESS);
    }
    CHECK(MPI_Allreduce(&figure, &kept, 1, MPI_INT, MPI_SUM, MPI_COMM_WORLD) == MPIX_ERR_DENIED);
    CHECK(is_denial("star", "p2", "public"));
    MPIX_Set_label(rank == 0 ? "firm0" : rank == 1 ? "firm1" : "firm2");
    MPIX_Get_label(label);
    CHECK(label[4] == '0' + rank);
}

/* An array that is cut is denied at its first piece, and nothing has moved; a sanitised sum of it is
 * delivered. */
static void long_arrays(void) {
    enum { LONG = 70000 };
    static int given[LONG], gotten[LONG];
    MPI_Request request;
    for (int i = 0; i < LONG; i++) {
        given[i] = rank == 0 ? i : -1;
    }
    CHECK(MPI_Bcast(given, LONG, MPI_INT, 0, MPI_COMM_WORLD) == MPIX_ERR_DENIED);
    CHECK(given[LONG - 1] == (rank == 0 ? LONG - 1 : -1) && is_denial("simple", "p1", "firm0"));
    CHECK(MPI_Ibcast(given, LONG, MPI_INT, 0, MPI_COMM_WORLD, &request) == MPI_SUCCESS);
    CHECK(MPI_Wait(&request, MPI_STATUS_IGNORE) == MPIX_ERR_DENIED);
    CHECK(given[0] == (rank == 0 ? 0 : -1) && request == MPI_REQUEST_NULL);
    CHECK(MPI_Allreduce(given, gotten, LONG, MPI_INT, MPI_SUM, MPI_COMM_WORLD) == MPI_SUCCESS);
    CHECK(gotten[0] == -2 && gotten[LONG - 1] == LONG - 3);
}

/* Who is in a communicator that a split made, nobody tells; all else can be done with it. */
static void splits(void) {
    MPI_Comm half, again;
    MPI_Group some, all, own;
    int count, place, ranks[2] = {0, 1}, found[2], result;
    MPI_Comm_split(MPI_COMM_WORLD, rank < 2 ? 1 : MPI_UNDEFINED, -rank, &half);
    CHECK((half == MPI_COMM_NULL) == (rank == 2));
    if (half == MPI_COMM_NULL) {
        return;
    }
    MPI_Comm_rank(half, &place);
    MPI_Comm_size(half, &count);
    CHECK(count == 2 && place == 1 - rank);
    MPI_Comm_group(half, &some);
    MPI_Comm_group(MPI_COMM_WORLD, &all);
    CHECK(MPI_Group_translate_ranks(some, 1, &place, all, found) == MPI_SUCCESS &&
          found[0] == rank);
    CHECK(MPI_Group_translate_ranks(some, 2, ranks, all, found) == MPI_ERR_UNSUPPORTED_OPERATION);
    CHECK(MPI_Comm_compare(half, MPI_COMM_WORLD, &result) == MPI_SUCCESS && result == MPI_UNEQUAL);
    ranks[0] = 1, ranks[1] = 0;
    MPI_Group_incl(some, 2, ranks, &own);
    CHECK(MPI_Comm_create(half, own, &again) == MPI_SUCCESS && again != MPI_COMM_NULL);
    MPI_Comm_rank(again, &place);
    CHECK(place == rank);
    CHECK(MPI_Comm_compare(half, again, &result) == MPI_SUCCESS && result == MPI_SIMILAR);
    CHECK(MPI_Barrier(again) == MPI_SUCCESS);
    MPI_Group_free(&some);
    MPI_Group_free(&all);
    MPI_Group_free(&own);
    MPI_Comm_free(&half);
    MPI_Comm_free(&again);
}

int main(void) {
    MPI_Init(NULL, NULL);
    MPI_Comm_set_errhandler(MPI_COMM_WORLD, MPI_ERRORS_RETURN);
    MPI_Comm_rank(MPI_COMM_WORLD, &rank);
    denials();
    long_arrays();
    splits();
    MPI_Finalize();
    return checks_end();
}
