/* Grids. Ranks go through the last dimension first. */
#include <stdio.h>
#include <stdlib.h>
#include <string.h>

#include "comms.h"
#include "errors.h"

enum { MOST_DIMENSIONS = 64 };

struct grid *grid_new(int dimensions, const int *sides, const int *is_periodic) {
    struct grid *grid = calloc(1, sizeof *grid);
    int *numbers = calloc(2 * (size_t)dimensions + 1, sizeof *numbers);
    if (grid == NULL || numbers == NULL) {
        free(grid);
        free(numbers);
        return NULL;
    }
    *grid = (struct grid){dimensions, numbers, numbers + dimensions};
    for (int d = 0; d < dimensions; d++) {
        grid->sides[d] = sides[d];
        grid->is_periodic[d] = is_periodic[d] != 0;
    }
    return grid;
}

void grid_free(struct grid *grid) {
    if (grid != NULL) {
        free(grid->sides);
        free(grid);
    }
}

static void coordinates_of(const struct grid *grid, int rank, int *coordinates) {
    for (int d = grid->dimensions - 1; d >= 0; d--) {
        coordinates[d] = rank % grid->sides[d];
        rank /= grid->sides[d];
    }
}

/* MPI_PROC_NULL where a coordinate is out of a dimension that is not periodic. */
static int rank_at(const struct grid *grid, const int *coordinates) {
    int rank = 0;
    for (int d = 0; d < grid->dimensions; d++) {
        int side = grid->sides[d], at = coordinates[d];
        if ((at < 0 || at >= side) && !grid->is_periodic[d]) {
            return MPI_PROC_NULL;
        }
        rank = rank * side + (at % side + side) % side;
    }
    return rank;
}

static int grid_check(MPI_Comm comm) {
    if (!comm_is_good(comm)) {
        return MPI_ERR_COMM;
    }
    return comm->grid == NULL ? MPI_ERR_TOPOLOGY : MPI_SUCCESS;
}

/* Appends ",1,2" or what the list is; "-" where it is empty. */
static void add_list(char *line, size_t room, int count, const int *numbers, bool is_mark) {
    size_t length = strlen(line);
    if (count == 0) {
        snprintf(line + length, room - length, " -");
    }
    for (int i = 0; i < count && length < room; i++) {
        int number = is_mark ? numbers[i] != 0 : numbers[i];
        length += (size_t)snprintf(line + length, room - length, "%c%d", i > 0 ? ',' : ' ', number);
    }
}

static MPI_Group lowest_members(MPI_Comm comm, long long size) {
    MPI_Group group = size > comm->size ? NULL : group_new((int)size);
    for (int rank = 0; group != NULL && rank < size; rank++) {
        group->members[rank] = comm->group->members[rank];
    }
    return group;
}

int MPI_Cart_create(MPI_Comm comm, int dimensions, const int *sides, const int *is_periodic,
                    int reorder, MPI_Comm *made) {
    char line[1000];
    long long size = 1;
    (void)reorder; /* ranks keep their order */
    if (!comm_is_good(comm)) {
        return raised(comm, MPI_ERR_COMM, __func__);
    }
    if (dimensions < 0 || dimensions > MOST_DIMENSIONS) {
        return raised(comm, MPI_ERR_DIMS, __func__);
    }
    for (int d = 0; d < dimensions; d++) {
        size = sides[d] < 1 || size > MOST_MEMBERS ? MOST_MEMBERS + 1 : size * sides[d];
    }
    if (size > comm->size) {
        return raised(comm, MPI_ERR_ARG, __func__);
    }
    snprintf(line, sizeof line, "post %u cart_create", comm->number);
    add_list(line, sizeof line, dimensions, sides, false);
    add_list(line, sizeof line, dimensions, is_periodic, true);
    struct plan *plan =
        plan_new(lowest_members(comm, size), grid_new(dimensions, sides, is_periodic));
    return raised(comm, comm_construct(comm, line, plan, made), __func__);
}

int MPI_Cart_sub(MPI_Comm comm, const int *keep, MPI_Comm *made) {
    char line[1000];
    int code = grid_check(comm);
    if (code != MPI_SUCCESS) {
        return raised(comm, code, __func__);
    }
    struct grid *grid = comm->grid;
    int at[MOST_DIMENSIONS], own[MOST_DIMENSIONS];
    int sides[MOST_DIMENSIONS], is_periodic[MOST_DIMENSIONS], kept = 0;
    for (int d = 0; d < grid->dimensions; d++) {
        if (keep[d]) {
            sides[kept] = grid->sides[d];
            is_periodic[kept++] = grid->is_periodic[d];
        }
    }
    coordinates_of(grid, comm->rank, own);
    MPI_Group group = group_new(comm->size);
    if (group != NULL) {
        group->size = 0;
    }
    for (int rank = 0; group != NULL && rank < comm->size; rank++) {
        bool is_mate = true;
        coordinates_of(grid, rank, at);
        for (int d = 0; d < grid->dimensions; d++) {
            is_mate &= keep[d] || at[d] == own[d];
        }
        if (is_mate) {
            group->members[group->size++] = comm->group->members[rank];
        }
    }
    snprintf(line, sizeof line, "post %u cart_sub", comm->number);
    add_list(line, sizeof line, grid->dimensions, keep, true);
    struct plan *plan = plan_new(group, grid_new(kept, sides, is_periodic));
    return raised(comm, comm_construct(comm, line, plan, made), __func__);
}

int MPI_Cartdim_get(MPI_Comm comm, int *dimensions) {
    int code = grid_check(comm);
    if (code == MPI_SUCCESS) {
        *dimensions = comm->grid->dimensions;
    }
    return raised(comm, code, __func__);
}

int MPI_Cart_get(MPI_Comm comm, int most, int *sides, int *is_periodic, int *coordinates) {
    int own[MOST_DIMENSIONS], code = grid_check(comm);
    if (code == MPI_SUCCESS) {
        coordinates_of(comm->grid, comm->rank, own);
        for (int d = 0; d < comm->grid->dimensions && d < most; d++) {
            sides[d] = comm->grid->sides[d];
            is_periodic[d] = comm->grid->is_periodic[d];
            coordinates[d] = own[d];
        }
    }
    return raised(comm, code, __func__);
}

int MPI_Cart_rank(MPI_Comm comm, const int *coordinates, int *rank) {
    int code = grid_check(comm);
    if (code == MPI_SUCCESS) {
        *rank = rank_at(comm->grid, coordinates);
        code = *rank == MPI_PROC_NULL ? MPI_ERR_ARG : MPI_SUCCESS;
    }
    return raised(comm, code, __func__);
}

int MPI_Cart_coords(MPI_Comm comm, int rank, int most, int *coordinates) {
    int found[MOST_DIMENSIONS], code = grid_check(comm);
    if (code == MPI_SUCCESS && (rank < 0 || rank >= comm->size)) {
        code = MPI_ERR_RANK;
    }
    if (code == MPI_SUCCESS) {
        coordinates_of(comm->grid, rank, found);
        for (int d = 0; d < comm->grid->dimensions && d < most; d++) {
            coordinates[d] = found[d];
        }
    }
    return raised(comm, code, __func__);
}

int MPI_Cart_shift(MPI_Comm comm, int dimension, int distance, int *source, int *target) {
    int at[MOST_DIMENSIONS], code = grid_check(comm);
    if (code == MPI_SUCCESS && (dimension < 0 || dimension >= comm->grid->dimensions)) {
        code = MPI_ERR_DIMS;
    }
    if (code == MPI_SUCCESS) {
        coordinates_of(comm->grid, comm->rank, at);
        int own = at[dimension], side = comm->grid->sides[dimension];
        int steps = comm->grid->is_periodic[dimension] ? distance % side : distance;
        bool is_far = steps > side || steps < -side;
        at[dimension] = is_far ? -1 : own + steps;
        *target = rank_at(comm->grid, at);
        at[dimension] = is_far ? -1 : own - steps;
        *source = rank_at(comm->grid, at);
    }
    return raised(comm, code, __func__);
}

int MPI_Topo_test(MPI_Comm comm, int *status) {
    if (!comm_is_good(comm)) {
        return raised(comm, MPI_ERR_COMM, __func__);
    }
    *status = comm->grid == NULL ? MPI_UNDEFINED : MPI_CART;
    return MPI_SUCCESS;
}

int MPI_Cart_map(MPI_Comm comm, int dimensions, const int *sides, const int *is_periodic,
                 int *rank) {
    long long size = 1;
    (void)is_periodic;
    if (!comm_is_good(comm)) {
        return raised(comm, MPI_ERR_COMM, __func__);
    }
    for (int d = 0; d < dimensions; d++) {
        if (sides[d] < 1) {
            return raised(comm, MPI_ERR_DIMS, __func__);
        }
        size = size > MOST_MEMBERS ? size : size * sides[d];
    }
    if (dimensions < 0 || size > comm->size) {
        return raised(comm, MPI_ERR_DIMS, __func__);
    }
    *rank = comm->rank < size ? comm->rank : MPI_UNDEFINED;
    return MPI_SUCCESS;
}

static int largest_prime(int number) {
    int largest = 1;
    for (int divisor = 2; divisor <= number; divisor++) {
        for (; number % divisor == 0; number /= divisor) {
            largest = divisor;
        }
    }
    return largest;
}

static int by_falling_size(const void *one, const void *other) {
    return *(const int *)other - *(const int *)one;
}

/* The largest prime factors first, each to the side that is smallest so far. */
int MPI_Dims_create(int nodes, int dimensions, int *sides) {
    int left = nodes, free_sides = 0, made[MOST_DIMENSIONS];
    for (int d = 0; d < dimensions; d++) {
        if (sides[d] < 0 || (sides[d] > 0 && left % sides[d] != 0)) {
            return raised(NULL, MPI_ERR_DIMS, __func__);
        }
        left = sides[d] > 0 ? left / sides[d] : left;
        free_sides += sides[d] == 0;
    }
    bool is_whole = free_sides > 0 || left == 1;
    if (nodes < 1 || dimensions < 0 || free_sides > MOST_DIMENSIONS || !is_whole) {
        return raised(NULL, MPI_ERR_DIMS, __func__);
    }
    for (int d = 0; d < free_sides; d++) {
        made[d] = 1;
    }
    for (int prime; (prime = largest_prime(left)) > 1; left /= prime) {
        int smallest = 0;
        for (int d = 1; d < free_sides; d++) {
            smallest = made[d] < made[smallest] ? d : smallest;
        }
        made[smallest] *= prime;
    }
    qsort(made, (size_t)free_sides, sizeof *made, by_falling_size);
    for (int d = 0, next = 0; d < dimensions; d++) {
        sides[d] = sides[d] == 0 ? made[next++] : sides[d];
    }
    return MPI_SUCCESS;
}
