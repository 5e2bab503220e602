/* Random cases, the same for each process and each MPI library.
 *
 *     cases SEED FIRST COUNT FILE
 *
 * Runs the cases FIRST to FIRST + COUNT - 1 of a seed, and writes what comes of each as a line to
 * FILE.RANK. All communicators of a run grow from the world, those of others from others. */
#include "cases.h"

static MPI_Comm comms[MOST_COMMS];
static int comm_count = 1;

/* Puts a new communicator behind the others, or in place of one of them but the world. */
static void keep(MPI_Comm made, struct dice *dice) {
    int is_full = comm_count == MOST_COMMS;
    int place = is_full ? 1 + throw(dice, MOST_COMMS - 1) : comm_count++;
    if (is_full && comms[place] != MPI_COMM_NULL) {
        MPI_Comm_free(&comms[place]);
    }
    comms[place] = made;
    int rank = -1, size = -1, result = -1;
    if (made != MPI_COMM_NULL) {
        MPI_Comm_rank(made, &rank);
        MPI_Comm_size(made, &size);
        MPI_Comm_compare(made, MPI_COMM_WORLD, &result);
    }
    printf(" at %d rank %d size %d compare %d", place, rank, size, result);
}

static MPI_Comm made_grid(MPI_Comm comm, int size, struct dice *dice) {
    MPI_Comm made;
    int sides[3] = {1, 1, 1}, is_periodic[3], dimensions = 1 + throw(dice, 3), whole = 1;
    for (int d = 0; d < dimensions; d++) {
        sides[d] = 1 + throw(dice, size / whole);
        whole *= sides[d];
        is_periodic[d] = throw(dice, 2);
    }
    MPI_Cart_create(comm, dimensions, sides, is_periodic, 0, &made);
    return made;
}

static MPI_Comm made_comm(MPI_Comm comm, struct dice *dice) {
    MPI_Comm made = MPI_COMM_NULL;
    int rank, size, status, keep_sides[8], dimensions, kind = throw(dice, 8);
    MPI_Comm_rank(comm, &rank);
    MPI_Comm_size(comm, &size);
    MPI_Topo_test(comm, &status);
    struct dice own = {mixed(dice->state, (uint64_t)rank)};
    switch (kind) {
    case 0: MPI_Comm_dup(comm, &made); break;
    case 1: {
        MPI_Request request;
        MPI_Comm_idup(comm, &made, &request);
        MPI_Wait(&request, MPI_STATUS_IGNORE);
        break;
    }
    case 2: {
        int colour = throw(&own, 4), key = throw(&own, 3) - 1;
        MPI_Comm_split(comm, colour == 3 ? MPI_UNDEFINED : colour, key, &made);
        break;
    }
    case 3: {
        /* Each half is a group of its own, in falling order, or the second half is in none. */
        int ranks[MOST_TESTED], count = 0, is_second = rank >= size / 2,
                                with_second = throw(dice, 2);
        MPI_Group all, some;
        MPI_Comm_group(comm, &all);
        for (int r = size - 1; r >= 0; r--) {
            if ((r >= size / 2) == is_second && (with_second || !is_second)) {
                ranks[count++] = r;
            }
        }
        MPI_Group_incl(all, count, ranks, &some);
        MPI_Comm_create(comm, some, &made);
        MPI_Group_free(&some);
        MPI_Group_free(&all);
        break;
    }
    case 4:
        if (status == MPI_CART) {
            MPI_Cartdim_get(comm, &dimensions);
            for (int d = 0; d < dimensions; d++) {
                keep_sides[d] = throw(dice, 3) > 0;
            }
            MPI_Cart_sub(comm, keep_sides, &made);
            break;
        }
        made = made_grid(comm, size, dice);
        break;
    default: made = made_grid(comm, size, dice);
    }
    printf("made %d", kind);
    return made;
}

static void run_case(uint64_t seed, int number) {
    struct dice dice = {mixed(seed, (uint64_t)number)};
    int kind = throw(&dice, 24);
    MPI_Comm comm = comms[throw(&dice, comm_count)];
    printf("%d: ", number);
    if (kind >= 21 && IS_MPICH) {
        printf("passed over");
    } else if (comm == MPI_COMM_NULL) {
        printf("not in it");
        if (kind < 2) {
            keep(MPI_COMM_NULL, &dice);
        }
    } else if (kind < 2) {
        struct dice making = {dice.state};
        keep(made_comm(comm, &making), &dice);
    } else if (kind < 9) {
        try_collective(comm, dice);
    } else if (kind < 14) {
        try_reduction(comm, dice);
    } else if (kind < 18) {
        try_neighbours(comm, dice);
    } else if (kind < 19) {
        try_requests(comm, dice);
    } else if (kind < 20) {
        try_groups(comm, dice);
    } else if (kind < 21) {
        try_grid(comm, dice);
    } else if (kind < 22) {
        try_types(dice);
    } else if (kind < 23) {
        try_errors(comm, dice);
    } else {
        try_objects(comm, dice);
    }
    printf("\n");
}

int main(int count, char **words) {
    char path[4096];
    int rank;
    MPI_Init(&count, &words);
    if (count != 5) {
        fprintf(stderr, "usage: cases SEED FIRST COUNT FILE\n");
        MPI_Abort(MPI_COMM_WORLD, 5);
    }
    MPI_Comm_set_errhandler(MPI_COMM_WORLD, MPI_ERRORS_RETURN);
    MPI_Comm_set_errhandler(MPI_COMM_SELF, MPI_ERRORS_RETURN);
    MPI_Comm_rank(MPI_COMM_WORLD, &rank);
    snprintf(path, sizeof path, "%s.%d", words[4], rank);
    if (freopen(path, "w", stdout) == NULL) {
        MPI_Abort(MPI_COMM_WORLD, 3);
    }
    comms[0] = MPI_COMM_WORLD;
    uint64_t seed = strtoull(words[1], NULL, 10);
    int first = atoi(words[2]), cases = atoi(words[3]);
    for (int number = first; number < first + cases; number++) {
        run_case(seed, number);
        fflush(stdout);
    }
    return MPI_Finalize();
}
