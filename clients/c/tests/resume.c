/* A process of two whose programs die, and the other one. The first word says which:
 *
 *     dies      posts, takes one outcome of seven, and is killed
 *     plain     begins as if there had been nobody
 *     goes_on   goes on behind the first, and looks at all that it gets
 *     other     the other process of these three
 *     again N   goes on behind whoever was there, up to N sums, and stays
 *     last N    the same, and ends
 *     any       goes on with two requests, of which the second is done first
 *     steady N  the other process of these two */
#include <mpi.h>
#include <signal.h>
#include <stdlib.h>
#include <string.h>
#include <time.h>
#include <unistd.h>

#include "check.h"

enum { POSTS = 7 };

static int rank;

/* As long as the other program is gone, a wait is told so. */
static int wait_on(MPI_Request *request, MPI_Status *status) {
    int code = MPI_Wait(request, status);
    for (; code == MPIX_ERR_STUCK; code = MPI_Wait(request, status)) {
        nanosleep(&(struct timespec){0, 1000000}, NULL);
    }
    return code;
}

static void begin(void) {
    CHECK(MPI_Init(NULL, NULL) == MPI_SUCCESS);
    MPI_Comm_set_errhandler(MPI_COMM_WORLD, MPI_ERRORS_RETURN);
    MPI_Comm_set_errhandler(MPI_COMM_SELF, MPI_ERRORS_RETURN);
    MPI_Comm_rank(MPI_COMM_WORLD, &rank);
}

/* What both post, and where it arrives. */
static MPI_Request posts[POSTS];
static int sums[3], gathered[4], pairs[4];
static short told[4] = {5, 6, 7, 8};
static long long large;
static MPI_Comm twin;

static void post_all(void) {
    static const int ones[3] = {1, 2, 3}, tens[3] = {10, 20, 30};
    static const int here[4] = {3, 0, 4, 0}, there[4] = {9, 1, 2, 1};
    static const long long much = 1000000000000;
    MPI_Comm world = MPI_COMM_WORLD;
    MPI_Iallreduce(rank == 0 ? ones : tens, sums, 3, MPI_INT, MPI_SUM, world, &posts[0]);
    MPI_Igather(rank == 0 ? ones : tens, 2, MPI_INT, gathered, 2, MPI_INT, 0, world, &posts[1]);
    MPI_Comm_idup(world, &twin, &posts[2]);
    MPI_Ibcast(told, 4, MPI_SHORT, 1, world, &posts[3]);
    MPI_Iallreduce(&much, &large, 1, MPI_LONG_LONG, MPI_SUM, world, &posts[4]);
    MPI_Iallreduce(rank == 0 ? here : there, pairs, 2, MPI_2INT, MPI_MAXLOC, world, &posts[5]);
    MPI_Ibarrier(world, &posts[6]);
}

static int dies(void) {
    MPI_Count next;
    begin();
    post_all();
    CHECK(MPIX_Posts(&next) == MPI_SUCCESS && next == POSTS);
    CHECK(wait_on(&posts[6], MPI_STATUS_IGNORE) == MPI_SUCCESS);
    kill(getpid(), SIGKILL);
    return 1;
}

/* Sums at the twin of the world, and in the world. */
static void end(void) {
    MPI_Request request;
    int one = rank + 1, sum = 0;
    MPI_Iallreduce(&one, &sum, 1, MPI_INT, MPI_SUM, twin, &request);
    CHECK(wait_on(&request, MPI_STATUS_IGNORE) == MPI_SUCCESS && sum == 3);
    MPI_Ibarrier(MPI_COMM_WORLD, &request);
    CHECK(wait_on(&request, MPI_STATUS_IGNORE) == MPI_SUCCESS);
    CHECK(MPI_Finalize() == MPI_SUCCESS);
}

static int other(void) {
    begin();
    post_all();
    for (int i = 0; i < POSTS; i++) {
        CHECK(wait_on(&posts[i], MPI_STATUS_IGNORE) == MPI_SUCCESS);
    }
    CHECK(sums[2] == 33 && large == 2000000000000 && pairs[0] == 9 && pairs[2] == 4);
    end();
    return checks_end();
}

static void looks_at_numbers(MPI_Request *requests) {
    MPI_Datatype three;
    MPI_Count number;
    MPI_Type_contiguous(3, MPI_INT, &three);
    MPI_Type_commit(&three);
    CHECK(MPIX_Resumed_request(6, &number, sums, 1, MPI_INT, requests) == MPI_ERR_REQUEST);
    CHECK(MPIX_Resumed_request(0, &number, sums, 1, MPI_FLOAT, requests) == MPI_ERR_TYPE);
    CHECK(MPIX_Resumed_request(0, &number, sums, -1, MPI_INT, requests) == MPI_ERR_COUNT);
    CHECK(MPIX_Resumed_request(0, &number, sums, 1, three, &requests[0]) == MPI_SUCCESS);
    CHECK(number == 0);
    CHECK(MPIX_Resumed_request(0, &number, sums, 1, three, &requests[1]) == MPI_ERR_REQUEST);
    MPI_Type_free(&three);
    void *places[6] = {0, gathered, &twin, told, &large, pairs};
    const int rooms[6] = {0, 9, 1, 2, 1, 2};
    const MPI_Datatype types[6] = {0, MPI_INT, MPI_INT, MPI_SHORT, MPI_INT, MPI_2INT};
    for (int i = 1; i < 6; i++) {
        CHECK(MPIX_Resumed_request(i, &number, places[i], rooms[i], types[i], &requests[i]) ==
              MPI_SUCCESS);
        CHECK(number == i);
    }
}

static int goes_on(void) {
    MPI_Request requests[6];
    MPI_Status statuses[2];
    MPI_Count next;
    int open, count, number, index;
    CHECK(MPIX_Resume() == MPI_SUCCESS);
    begin();
    CHECK(MPIX_Resume() == MPI_ERR_OTHER);
    CHECK(MPIX_Posts(&next) == MPI_SUCCESS && next == POSTS);
    CHECK(MPIX_Resumed(&open) == MPI_SUCCESS && open == 6);
    looks_at_numbers(requests);
    memset(sums, 0, sizeof sums);
    CHECK(MPI_Waitall(2, requests, statuses) == MPI_SUCCESS);
    CHECK(sums[0] == 11 && sums[1] == 22 && sums[2] == 33);
    CHECK(gathered[0] == 1 && gathered[1] == 2 && gathered[2] == 10 && gathered[3] == 20);
    MPI_Get_count(&statuses[0], MPI_INT, &count);
    CHECK(count == 3);
    MPI_Get_count(&statuses[1], MPI_INT, &count);
    CHECK(count == 4);
    /* (of the constructor it is the number of the communicator) */
    CHECK(wait_on(&requests[2], &statuses[0]) == MPI_SUCCESS);
    memcpy(&number, &twin, sizeof number);
    CHECK(number == 1 && MPIX_Comm_resume(number, &twin) == MPI_SUCCESS);
    CHECK(MPIX_Comm_number(twin, &number) == MPI_SUCCESS && number == 1);
    CHECK(MPI_Comm_size(twin, &count) == MPI_SUCCESS && count == 2);
    CHECK(MPIX_Comm_resume(7, &twin) == MPI_ERR_COMM);
    CHECK(MPIX_Comm_number(MPI_COMM_SELF, &number) == MPI_ERR_COMM);
    memset(told, 0, sizeof told);
    CHECK(wait_on(&requests[3], MPI_STATUS_IGNORE) == MPI_ERR_TRUNCATE);
    CHECK(told[0] == 5 && told[1] == 6 && told[2] == 0);
    CHECK(MPI_Waitany(2, &requests[4], &index, MPI_STATUS_IGNORE) == MPI_ERR_TYPE && index == 0);
    CHECK(MPI_Test(&requests[5], &count, &statuses[0]) == MPI_SUCCESS && count == 1);
    MPI_Get_count(&statuses[0], MPI_2INT, &count);
    CHECK(count == 2 && pairs[0] == 9 && pairs[1] == 1 && pairs[2] == 4 && pairs[3] == 0);
    end();
    return checks_end();
}

/* How many requests it found, and which sums did not come out. */
static int sums_on(MPI_Count rounds, int stays) {
    MPI_Count next, number;
    MPI_Request request;
    long long given, sum;
    int open = 0, wrong = 0;
    MPIX_Resume();
    begin();
    MPIX_Resumed(&open);
    for (int i = 0; i < open; i++) {
        MPIX_Resumed_request(i, &number, &sum, 1, MPI_LONG_LONG, &request);
        wrong += wait_on(&request, MPI_STATUS_IGNORE) != MPI_SUCCESS || sum != 2 * number;
    }
    for (MPIX_Posts(&next); next < rounds; MPIX_Posts(&next)) {
        given = next;
        MPI_Iallreduce(&given, &sum, 1, MPI_LONG_LONG, MPI_SUM, MPI_COMM_WORLD, &request);
        wrong += wait_on(&request, MPI_STATUS_IGNORE) != MPI_SUCCESS || sum != 2 * given;
    }
    if (stays) {
        sleep(60);
    }
    MPI_Ibarrier(MPI_COMM_WORLD, &request);
    wrong += wait_on(&request, MPI_STATUS_IGNORE) != MPI_SUCCESS;
    MPI_Finalize();
    printf("%d open, %d wrong\n", open, wrong);
    return wrong;
}

static int any(void) {
    MPI_Request requests[2];
    MPI_Count number;
    int index;
    MPIX_Resume();
    begin();
    for (int i = 0; i < 2; i++) {
        CHECK(MPIX_Resumed_request(i, &number, NULL, 0, MPI_INT, &requests[i]) == MPI_SUCCESS);
    }
    /* (They may be of different communicators.) */
    CHECK(MPI_Waitany(2, requests, &index, MPI_STATUS_IGNORE) == MPI_SUCCESS && index == 1);
    MPI_Finalize();
    return checks_end();
}

int main(int count, char **words) {
    const char *word = count > 1 ? words[1] : "";
    MPI_Count rounds = count > 2 ? atoll(words[2]) : 0;
    if (strcmp(word, "dies") == 0) {
        return dies();
    }
    if (strcmp(word, "goes_on") == 0) {
        return goes_on();
    }
    if (strcmp(word, "other") == 0) {
        return other();
    }
    if (strcmp(word, "any") == 0) {
        return any();
    }
    if (strcmp(word, "plain") == 0) {
        begin();
        return 1;
    }
    return sums_on(rounds, strcmp(word, "again") == 0);
}
