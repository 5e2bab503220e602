/* Random collectives: arguments of all kinds, and what stands in the buffers afterwards. */
#include "cases.h"

static char give[ROOM], get[ROOM];

/* Where the blocks of a side stand: as many as there are ranks or slots. */
struct layout {
    int counts[MOST_TESTED], places[MOST_TESTED];
    MPI_Aint bytes[MOST_TESTED];
};

/* How many pairs of elements go from one rank to another. */
static int pairs(uint64_t seed, int from, int to) {
    uint64_t value = mixed(mixed(seed, (uint64_t)from), (uint64_t)to);
    return value % 3 == 0 ? 0 : (int)(value / 3 % 4);
}

/* Blocks with gaps; an item of one element has twice as many. */
static void lay(struct layout *layout, int block, int amount, struct form form, int *next,
                struct dice *dice) {
    layout->counts[block] = amount * (form.per_item == 2 ? 1 : 2);
    layout->places[block] = *next + throw(dice, 3);
    *next = layout->places[block] + layout->counts[block] + throw(dice, 2);
}

static void show(int code) {
    printf(" code %d", code);
    tell("give", give, ROOM);
    tell("get", get, ROOM);
}

/* Ends a call that may have been started only. */
static int ended(int code, int is_started, MPI_Request *request, struct dice *dice) {
    if (!is_started || code != MPI_SUCCESS) {
        return code;
    }
    if (throw(dice, 2)) {
        return MPI_Wait(request, MPI_STATUS_IGNORE);
    }
    for (int flag = 0; !flag;) {
        code = MPI_Test(request, &flag, MPI_STATUS_IGNORE);
    }
    printf(" %s", *request == MPI_REQUEST_NULL ? "null" : "kept");
    return code;
}

#define CALL(blocking, started) (is_started ? (started) : (blocking))

void try_collective(MPI_Comm comm, struct dice dice) {
    int rank, size, kind = throw(&dice, 11), is_started = throw(&dice, 2), code = 0;
    MPI_Comm_rank(comm, &rank);
    MPI_Comm_size(comm, &size);
    int root = throw(&dice, size), in_place = throw(&dice, 3) == 0, amount = throw(&dice, 5);
    MPI_Datatype base = base_type(&dice);
    uint64_t seed = dice.state;
    struct dice own = {mixed(seed, 1000 + (uint64_t)rank)};
    struct form from = form_of(base, &own), to = form_of(base, &own);
    int given = amount * (from.per_item == 2 ? 1 : 2), gotten = amount * (to.per_item == 2 ? 1 : 2);
    fill(give, ROOM, mixed(seed, 2000 + (uint64_t)rank), base);
    fill(get, ROOM, mixed(seed, 3000 + (uint64_t)rank), base);
    MPI_Request r = MPI_REQUEST_NULL;
    const void *source = in_place ? MPI_IN_PLACE : give;
    void *target = in_place && rank == root ? MPI_IN_PLACE : (void *)get;
    struct layout out = {0}, in = {0};
    MPI_Datatype out_types[MOST_TESTED], in_types[MOST_TESTED];
    int next_out = 0, next_in = 0;
    for (int block = 0; block < MOST_TESTED; block++) {
        /* Open MPI 4.1.4 reads more of these than there are ranks, where a grid has many slots. */
        out_types[block] = in_types[block] = MPI_INT;
    }
    int all_blocks = kind == 1 || kind == 3; /* gatherv, allgatherv: a length for each rank */
    for (int other = 0; other < size; other++) {
        int length_in = all_blocks ? pairs(seed, other, 0) : pairs(seed, other, rank);
        int length_out = kind == 5 ? pairs(seed, 0, other) : pairs(seed, rank, other);
        if (kind >= 8 && in_place) {
            length_in = pairs(seed, rank < other ? rank : other, rank < other ? other : rank);
        }
        lay(&out, other, length_out, from, &next_out, &own);
        lay(&in, other, length_in, to, &next_in, &own);
        out_types[other] = from.type;
        in_types[other] = to.type;
    }
    int own_count = pairs(seed, all_blocks ? rank : 0, all_blocks ? 0 : rank);
    int give_count = own_count * (from.per_item == 2 ? 1 : 2);
    int get_count = own_count * (to.per_item == 2 ? 1 : 2);
    printf("collective %d root %d size %d", kind, root, size);
    int is_otherwise = kind == 10 && (size == 1 || (in_place && is_started));
    if (is_otherwise || (IS_MPICH && kind == 3 && size == 1)) {
        /* Alone, Open MPI 4.1.4 takes the places of MPI_Alltoallw in items and not in bytes, and
         * MPICH 4.0.2 puts the block of MPI_Allgatherv at place 0. In place, MPI_Ialltoallw takes the
         * length of one block for that of another, over both. */
        printf(" passed over");
        form_drop(&from);
        form_drop(&to);
        return;
    }
    switch (kind) {
    case 0: {
        const void *gives = in_place && rank == root ? MPI_IN_PLACE : (const void *)give;
        code = CALL(MPI_Gather(gives, given, from.type, get, gotten, to.type, root, comm),
                    MPI_Igather(gives, given, from.type, get, gotten, to.type, root, comm, &r));
        break;
    }
    case 1: {
        const void *gives = in_place && rank == root ? MPI_IN_PLACE : (const void *)give;
        code = CALL(MPI_Gatherv(gives, give_count, from.type, get, in.counts, in.places, to.type,
                                root, comm),
                    MPI_Igatherv(gives, give_count, from.type, get, in.counts, in.places, to.type,
                                 root, comm, &r));
        break;
    }
    case 2:
        code = CALL(MPI_Allgather(source, given, from.type, get, gotten, to.type, comm),
                    MPI_Iallgather(source, given, from.type, get, gotten, to.type, comm, &r));
        break;
    case 3:
        code = CALL(
            MPI_Allgatherv(source, give_count, from.type, get, in.counts, in.places, to.type, comm),
            MPI_Iallgatherv(source, give_count, from.type, get, in.counts, in.places, to.type, comm,
                            &r));
        break;
    case 4:
        code = CALL(MPI_Scatter(give, given, from.type, target, gotten, to.type, root, comm),
                    MPI_Iscatter(give, given, from.type, target, gotten, to.type, root, comm, &r));
        break;
    case 5:
        code = CALL(MPI_Scatterv(give, out.counts, out.places, from.type, target, get_count,
                                 to.type, root, comm),
                    MPI_Iscatterv(give, out.counts, out.places, from.type, target, get_count,
                                  to.type, root, comm, &r));
        break;
    case 6:
        code = CALL(MPI_Bcast(give, given, from.type, root, comm),
                    MPI_Ibcast(give, given, from.type, root, comm, &r));
        break;
    case 7: code = CALL(MPI_Barrier(comm), MPI_Ibarrier(comm, &r)); break;
    case 8:
        code = CALL(MPI_Alltoall(source, given, from.type, get, gotten, to.type, comm),
                    MPI_Ialltoall(source, given, from.type, get, gotten, to.type, comm, &r));
        break;
    case 9:
        code = CALL(MPI_Alltoallv(source, out.counts, out.places, from.type, get, in.counts,
                                  in.places, to.type, comm),
                    MPI_Ialltoallv(source, out.counts, out.places, from.type, get, in.counts,
                                   in.places, to.type, comm, &r));
        break;
    default: {
        /* Each pair of ranks has a type of its own, and places are bytes. */
        MPI_Datatype pair_types[2][MOST_TESTED];
        for (int other = 0; other < size; other++) {
            int low = rank < other ? rank : other, high = rank < other ? other : rank;
            struct dice both = {
                mixed(seed, (uint64_t)(in_place ? low * 64 + high : rank * 64 + other))};
            struct dice back = {
                mixed(seed, (uint64_t)(in_place ? low * 64 + high : other * 64 + rank))};
            pair_types[0][other] = number_type(&both);
            pair_types[1][other] = number_type(&back);
            out_types[other] = pair_types[0][other];
            in_types[other] = pair_types[1][other];
            out.counts[other] = pairs(seed, in_place ? low : rank, in_place ? high : other);
            in.counts[other] = pairs(seed, in_place ? low : other, in_place ? high : rank);
            out.places[other] *= 16;
            in.places[other] *= 16;
        }
        code = CALL(MPI_Alltoallw(source, out.counts, out.places, out_types, get, in.counts,
                                  in.places, in_types, comm),
                    MPI_Ialltoallw(source, out.counts, out.places, out_types, get, in.counts,
                                   in.places, in_types, comm, &r));
    }
    }
    show(ended(code, is_started, &r, &own));
    form_drop(&from);
    form_drop(&to);
}

void try_reduction(MPI_Comm comm, struct dice dice) {
    int rank, size, kind = throw(&dice, 6), is_started = throw(&dice, 2), code = 0;
    MPI_Comm_rank(comm, &rank);
    MPI_Comm_size(comm, &size);
    int root = throw(&dice, size), in_place = throw(&dice, 3) == 0, count = throw(&dice, 9);
    MPI_Datatype base = number_type(&dice);
    MPI_Op op = operation(base, &dice);
    uint64_t seed = dice.state;
    struct dice own = {mixed(seed, (uint64_t)rank)};
    fill(give, ROOM, mixed(seed, 2000 + (uint64_t)rank), base);
    fill(get, ROOM, mixed(seed, 3000 + (uint64_t)rank), base);
    MPI_Request r = MPI_REQUEST_NULL;
    const void *source = in_place ? MPI_IN_PLACE : give;
    const void *at_root = in_place && rank == root ? MPI_IN_PLACE : (const void *)give;
    int counts[MOST_TESTED];
    for (int other = 0; other < size; other++) {
        counts[other] = pairs(seed, other, other);
    }
    printf("reduction %d root %d size %d", kind, root, size);
    if (IS_MPICH && has_no_sign(base) && (op == MPI_MAX || op == MPI_MIN)) {
        printf(" passed over"); /* it takes them for numbers with a sign */
        return;
    }
    switch (kind) {
    case 0:
        code = CALL(MPI_Reduce(at_root, get, count, base, op, root, comm),
                    MPI_Ireduce(at_root, get, count, base, op, root, comm, &r));
        break;
    case 1:
        code = CALL(MPI_Allreduce(source, get, count, base, op, comm),
                    MPI_Iallreduce(source, get, count, base, op, comm, &r));
        break;
    case 2:
        code = CALL(MPI_Reduce_scatter(source, get, counts, base, op, comm),
                    MPI_Ireduce_scatter(source, get, counts, base, op, comm, &r));
        break;
    case 3:
        code = CALL(MPI_Reduce_scatter_block(source, get, count, base, op, comm),
                    MPI_Ireduce_scatter_block(source, get, count, base, op, comm, &r));
        break;
    case 4:
        code = CALL(MPI_Scan(source, get, count, base, op, comm),
                    MPI_Iscan(source, get, count, base, op, comm, &r));
        break;
    default:
        code = CALL(MPI_Exscan(source, get, count, base, op, comm),
                    MPI_Iexscan(source, get, count, base, op, comm, &r));
    }
    code = ended(code, is_started, &r, &own);
    /* What a reduction leaves behind the elements of its result, in place, MPI does not say. */
    int width, is_undefined = (kind == 2 || kind == 3) && in_place;
    MPI_Type_size(base, &width);
    int length = kind == 2 ? counts[rank] : count;
    int is_empty = (kind == 5 && rank == 0) || (kind == 0 && rank != root);
    if (is_empty || is_undefined) {
        memset(get + (is_empty ? 0 : length * width), 0,
               ROOM - (size_t)(is_empty ? 0 : length * width));
    }
    show(code);
}

/* Where one rank is the neighbour on both sides, Open MPI 4.1.4 puts the two blocks that it gives
 * into the slots in another order than MPI 4.1 (section 8.6) has them. */
static int is_own_opposite(MPI_Comm comm, int dimensions) {
    int sides[8], is_periodic[8], at[8], found = 0;
    MPI_Cart_get(comm, dimensions, sides, is_periodic, at);
    for (int d = 0; d < dimensions; d++) {
        found |= is_periodic[d] && sides[d] <= 2;
    }
    return found;
}

void try_neighbours(MPI_Comm comm, struct dice dice) {
    int rank, kind = throw(&dice, 5), is_started = throw(&dice, 2), code = 0, dimensions, status;
    MPI_Topo_test(comm, &status);
    if (status != MPI_CART) {
        printf("neighbours none");
        return;
    }
    MPI_Comm_rank(comm, &rank);
    MPI_Cartdim_get(comm, &dimensions);
    int slots = 2 * dimensions, around[MOST_TESTED];
    for (int d = 0; d < dimensions; d++) {
        MPI_Cart_shift(comm, d, 1, &around[2 * d], &around[2 * d + 1]);
    }
    MPI_Datatype base = base_type(&dice);
    int amount = throw(&dice, 4);
    uint64_t seed = dice.state;
    struct dice own = {mixed(seed, 1000 + (uint64_t)rank)};
    struct form from = form_of(base, &own), to = form_of(base, &own);
    int given = amount * (from.per_item == 2 ? 1 : 2), gotten = amount * (to.per_item == 2 ? 1 : 2);
    int own_count = pairs(seed, rank, 0) * (from.per_item == 2 ? 1 : 2);
    fill(give, ROOM, mixed(seed, 2000 + (uint64_t)rank), base);
    fill(get, ROOM, mixed(seed, 3000 + (uint64_t)rank), base);
    MPI_Request r = MPI_REQUEST_NULL;
    struct layout out = {0}, in = {0};
    MPI_Datatype out_types[MOST_TESTED], in_types[MOST_TESTED];
    int next_out = 0, next_in = 0;
    for (int slot = 0; slot < slots; slot++) {
        /* What I give for a slot arrives in the opposite slot of the neighbour there. */
        int from_rank = around[slot] < 0 ? 63 : around[slot];
        int length_in = kind == 1 ? pairs(seed, from_rank, 0) : pairs(seed, from_rank, slot ^ 1);
        lay(&out, slot, pairs(seed, rank, slot), from, &next_out, &own);
        lay(&in, slot, length_in, to, &next_in, &own);
        out_types[slot] = from.type;
        in_types[slot] = to.type;
        MPI_Aint lower, extent;
        MPI_Type_get_extent(from.type, &lower, &extent);
        out.bytes[slot] = out.places[slot] * extent;
        MPI_Type_get_extent(to.type, &lower, &extent);
        in.bytes[slot] = in.places[slot] * extent;
    }
    printf("neighbours %d dims %d", kind, dimensions);
    if (kind >= 2 && is_own_opposite(comm, dimensions)) {
        printf(" passed over");
        form_drop(&from);
        form_drop(&to);
        return;
    }
    switch (kind) {
    case 0:
        code =
            CALL(MPI_Neighbor_allgather(give, given, from.type, get, gotten, to.type, comm),
                 MPI_Ineighbor_allgather(give, given, from.type, get, gotten, to.type, comm, &r));
        break;
    case 1:
        code = CALL(MPI_Neighbor_allgatherv(give, own_count, from.type, get, in.counts, in.places,
                                            to.type, comm),
                    MPI_Ineighbor_allgatherv(give, own_count, from.type, get, in.counts, in.places,
                                             to.type, comm, &r));
        break;
    case 2:
        code = CALL(MPI_Neighbor_alltoall(give, given, from.type, get, gotten, to.type, comm),
                    MPI_Ineighbor_alltoall(give, given, from.type, get, gotten, to.type, comm, &r));
        break;
    case 3:
        code = CALL(MPI_Neighbor_alltoallv(give, out.counts, out.places, from.type, get, in.counts,
                                           in.places, to.type, comm),
                    MPI_Ineighbor_alltoallv(give, out.counts, out.places, from.type, get, in.counts,
                                            in.places, to.type, comm, &r));
        break;
    default:
        code = CALL(MPI_Neighbor_alltoallw(give, out.counts, out.bytes, out_types, get, in.counts,
                                           in.bytes, in_types, comm),
                    MPI_Ineighbor_alltoallw(give, out.counts, out.bytes, out_types, get, in.counts,
                                            in.bytes, in_types, comm, &r));
    }
    show(ended(code, is_started, &r, &own));
    form_drop(&from);
    form_drop(&to);
}

/* Several requests at once, ended in one of four ways. Open MPI starts them in this order too. */
void try_requests(MPI_Comm comm, struct dice dice) {
    enum { MOST = 6 };
    int rank, size, count = 1 + throw(&dice, MOST), left = count, way = throw(&dice, 5);
    long long sums[MOST], own[MOST];
    MPI_Request requests[MOST + 1];
    MPI_Status statuses[MOST + 1];
    MPI_Comm_rank(comm, &rank);
    MPI_Comm_size(comm, &size);
    for (int i = 0; i < count; i++) {
        own[i] = rank * 10 + i;
        sums[i] = -1;
        MPI_Iallreduce(&own[i], &sums[i], 1, MPI_LONG_LONG, i % 2 ? MPI_SUM : MPI_MAX, comm,
                       &requests[i]);
    }
    requests[count] = MPI_REQUEST_NULL;
    printf("requests %d way %d", count, way);
    while (left > 0) {
        int index, flag, done, indices[MOST + 1];
        switch (way) {
        case 0:
            MPI_Waitall(count + 1, requests, statuses);
            left = 0;
            break;
        case 1:
            MPI_Testall(count + 1, requests, &flag, MPI_STATUSES_IGNORE);
            left = flag ? 0 : left;
            break;
        case 2:
            MPI_Waitany(count + 1, requests, &index, &statuses[0]);
            left--;
            break;
        case 3:
            MPI_Waitsome(count + 1, requests, &done, indices, statuses);
            left -= done;
            break;
        default:
            MPI_Testany(count + 1, requests, &index, &flag, MPI_STATUS_IGNORE);
            left -= flag && index != MPI_UNDEFINED;
        }
    }
    int index, flag, done, indices[MOST + 1];
    MPI_Waitany(count + 1, requests, &index, &statuses[0]);
    MPI_Testany(count + 1, requests, &done, &flag, &statuses[0]);
    int source = statuses[0].MPI_SOURCE;
    printf(" %s %d %d %d", index == MPI_UNDEFINED ? "all" : "some", done, flag,
           source == MPI_ANY_SOURCE ? -1 : source);
    MPI_Testsome(count + 1, requests, &done, indices, statuses);
    printf(" %d", done);
    for (int i = 0; i < count; i++) {
        printf(" %lld %d", sums[i], requests[i] == MPI_REQUEST_NULL);
    }
}
