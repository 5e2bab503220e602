/* Random groups, grids, types, errors and other objects: what each process does by itself. */
#include "cases.h"

static MPI_Group random_group(MPI_Group all, struct dice *dice) {
    int size, ranks[MOST_TESTED], count = 0, is_out = throw(dice, 2), ranges[2][3];
    MPI_Group made;
    MPI_Group_size(all, &size);
    if (throw(dice, 4) == 0) {
        int first = throw(dice, size), last = throw(dice, size), step = 1 + throw(dice, 2);
        ranges[0][0] = first;
        ranges[0][1] = last;
        ranges[0][2] = first <= last ? step : -step;
        (is_out ? MPI_Group_range_excl : MPI_Group_range_incl)(all, 1, ranges, &made);
        return made;
    }
    for (int rank = 0; rank < size; rank++) {
        if (throw(dice, 2)) {
            ranks[count++] = rank;
        }
    }
    for (int i = count - 1; i > 0; i--) {
        int other = throw(dice, i + 1), kept = ranks[i];
        ranks[i] = ranks[other];
        ranks[other] = kept;
    }
    (is_out ? MPI_Group_excl : MPI_Group_incl)(all, count, ranks, &made);
    return made;
}

static void show_group(MPI_Group group, MPI_Group all) {
    int size, rank, count, ranks[MOST_TESTED], found[MOST_TESTED];
    MPI_Group_size(group, &size);
    MPI_Group_rank(group, &rank);
    MPI_Group_size(all, &count);
    for (int i = 0; i < size; i++) {
        ranks[i] = i;
    }
    MPI_Group_translate_ranks(group, size, ranks, all, found);
    printf(" [%d of %d:", rank, size);
    for (int i = 0; i < size; i++) {
        printf(" %d", found[i]);
    }
    printf("]");
}

void try_groups(MPI_Comm comm, struct dice dice) {
    MPI_Group all, one, other, made[3];
    int result, world_result;
    MPI_Comm_group(comm, &all);
    one = random_group(all, &dice);
    other = random_group(all, &dice);
    MPI_Group_union(one, other, &made[0]);
    MPI_Group_intersection(one, other, &made[1]);
    MPI_Group_difference(one, other, &made[2]);
    MPI_Group_compare(one, other, &result);
    MPI_Comm_compare(comm, MPI_COMM_WORLD, &world_result);
    printf("groups %d %d", result, world_result);
    show_group(one, all);
    show_group(other, all);
    for (int i = 0; i < 3; i++) {
        show_group(made[i], all);
        MPI_Group_free(&made[i]);
    }
    int size, ranks[2] = {0, MPI_PROC_NULL}, found[2] = {-5, -5};
    MPI_Group world;
    MPI_Comm_group(MPI_COMM_WORLD, &world);
    MPI_Group_size(all, &size);
    ranks[0] = throw(&dice, size);
    MPI_Group_translate_ranks(all, 2, ranks, world, found);
    printf(" world %d %d", found[0], shown_rank(found[1]));
    MPI_Group_free(&world);
    MPI_Group_free(&one);
    MPI_Group_free(&other);
    MPI_Group_free(&all);
    printf(" %d", all == MPI_GROUP_NULL);
}

void try_grid(MPI_Comm comm, struct dice dice) {
    int status, dimensions = 1 + throw(&dice, 3), nodes = 1 + throw(&dice, 96);
    int sides[3] = {0, 0, 0}, code;
    if (throw(&dice, 3) == 0) {
        sides[throw(&dice, dimensions)] = 1 + throw(&dice, 3);
    }
    for (int d = 0; IS_MPICH && d < dimensions; d++) {
        if (sides[d] > 0 && (nodes % sides[d] != 0 || (dimensions == 1 && sides[d] != nodes))) {
            printf("passed over"); /* there it is no error */
            return;
        }
    }
    code = MPI_Dims_create(nodes, dimensions, sides);
    printf("grid dims %d", code == MPI_SUCCESS);
    for (int d = 0; code == MPI_SUCCESS && d < dimensions; d++) {
        printf(" %d", sides[d]);
    }
    MPI_Topo_test(comm, &status);
    printf(" topology %d", status == MPI_CART ? 1 : status);
    if (status != MPI_CART) {
        return;
    }
    int count, size, rank, is_periodic[8], made[8], at[8], source, target, other;
    MPI_Cartdim_get(comm, &count);
    MPI_Comm_size(comm, &size);
    MPI_Cart_get(comm, count, made, is_periodic, at);
    MPI_Cart_rank(comm, at, &rank);
    printf(" rank %d", rank);
    for (int d = 0; d < count; d++) {
        MPI_Cart_shift(comm, d, throw(&dice, 7) - 3, &source, &target);
        printf(" (%d %d %d: %d %d)", made[d], is_periodic[d], at[d], shown_rank(source),
               shown_rank(target));
    }
    other = throw(&dice, size);
    MPI_Cart_coords(comm, other, count, at);
    for (int d = 0; d < count; d++) {
        printf(" %d", at[d]);
        at[d] += is_periodic[d] ? made[d] * (throw(&dice, 5) - 2) : 0;
    }
    MPI_Cart_rank(comm, at, &rank);
    printf(" same %d", rank == other);
}

static MPI_Datatype random_type(struct dice *dice, int depth) {
    MPI_Datatype made, inner = depth == 0 ? number_type(dice) : random_type(dice, depth - 1);
    int count = throw(dice, 4), length = throw(dice, 3), step = throw(dice, 4) + 1;
    int lengths[3] = {throw(dice, 3), throw(dice, 3), throw(dice, 3)};
    int places[3] = {7, 2, 0}, sides[2] = {3, 4},
        parts[2] = {1 + throw(dice, 3), 1 + throw(dice, 4)};
    int starts[2] = {throw(dice, 4 - parts[0]), throw(dice, 5 - parts[1])};
    MPI_Aint bytes[3] = {96, 32, 0};
    MPI_Datatype inners[3] = {inner, inner, inner};
    switch (throw(dice, 10)) {
    case 0: MPI_Type_contiguous(count, inner, &made); break;
    case 1: MPI_Type_vector(count, length, step, inner, &made); break;
    case 2: MPI_Type_create_hvector(count, length, step * 8, inner, &made); break;
    case 3: MPI_Type_indexed(3, lengths, places, inner, &made); break;
    case 4: MPI_Type_create_hindexed(3, lengths, bytes, inner, &made); break;
    case 5: MPI_Type_create_indexed_block(3, length, places, inner, &made); break;
    case 6: MPI_Type_create_struct(3, lengths, bytes, inners, &made); break;
    case 7:
        MPI_Type_create_subarray(2, sides, parts, starts,
                                 throw(dice, 2) ? MPI_ORDER_C : MPI_ORDER_FORTRAN, inner, &made);
        break;
    case 8: MPI_Type_create_resized(inner, 0, 128, &made); break;
    default: MPI_Type_dup(inner, &made);
    }
    if (depth > 0) {
        MPI_Type_free(&inner);
    }
    return made;
}

void try_types(struct dice dice) {
    static char items[ROOM], packed[ROOM], back[ROOM];
    MPI_Datatype type = random_type(&dice, throw(&dice, 3));
    int size, need, position = 0, count = throw(&dice, 3);
    MPI_Aint lower, extent, true_lower, true_extent, place = 0;
    MPI_Type_commit(&type);
    MPI_Type_size(type, &size);
    MPI_Type_get_extent(type, &lower, &extent);
    MPI_Type_get_true_extent(type, &true_lower, &true_extent);
    printf("types %d", size);
    if (size > 0) {
        printf(" %ld %ld %ld %ld", (long)lower, (long)extent, (long)true_lower, (long)true_extent);
    }
    fill(items, ROOM, dice.state, MPI_INT);
    memset(back, 0, sizeof back);
    memset(packed, 0, sizeof packed);
    if (lower < 0 || true_extent + 2 * extent > ROOM / 2) {
        return;
    }
    MPI_Pack_size(count, type, MPI_COMM_WORLD, &need);
    MPI_Pack(items, count, type, packed, ROOM, &position, MPI_COMM_WORLD);
    printf(" packed %d", position);
    tell("as", packed, (size_t)position);
    position = 0;
    MPI_Unpack(packed, ROOM, &position, back, count, type, MPI_COMM_WORLD);
    tell("back", back, ROOM);
    MPI_Pack_external("external32", items, count, type, packed, ROOM, &place);
    printf(" external %ld", (long)place);
    tell("as", packed, (size_t)place);
    MPI_Datatype base = number_type(&dice);
    MPI_Op op = operation(base, &dice);
    fill(items, 256, dice.state, base);
    fill(back, 256, dice.state + 1, base);
    MPI_Reduce_local(items, back, throw(&dice, 9), base, op);
    tell("local", back, 256);
    MPI_Type_free(&type);
}

void try_errors(MPI_Comm comm, struct dice dice) {
    int size, class, code, kind = throw(&dice, 11), number = 0;
    static char buffer[256];
    MPI_Comm_size(comm, &size);
    MPI_Datatype none = MPI_DATATYPE_NULL;
    MPI_Group group, made;
    MPI_Info info;
    switch (kind) {
    case 0: code = MPI_Bcast(buffer, 1, MPI_INT, size, comm); break;
    case 1: code = MPI_Bcast(buffer, 1, MPI_INT, -1, comm); break;
    case 2: code = MPI_Bcast(buffer, -1, MPI_INT, 0, comm); break;
    case 3: code = MPI_Bcast(buffer, 1, none, 0, comm); break;
    case 4: code = MPI_Allreduce(buffer, buffer + 128, 1, MPI_INT, MPI_OP_NULL, comm); break;
    case 5: code = MPI_Allreduce(buffer, buffer + 128, 1, MPI_INT, MPI_MAXLOC, comm); break;
    case 6: code = MPI_Barrier(MPI_COMM_NULL); break;
    case 7: {
        int ranks[2] = {0, size};
        MPI_Comm_group(comm, &group);
        code = MPI_Group_incl(group, 2, ranks, &made);
        MPI_Group_free(&group);
        break;
    }
    case 8: code = MPI_Cart_coords(MPI_COMM_WORLD, 0, 1, &number); break;
    case 9:
        MPI_Info_create(&info);
        code = MPI_Info_delete(info, "none");
        MPI_Info_free(&info);
        break;
    default: code = MPI_Type_contiguous(-1, MPI_INT, &none); break;
    }
    MPI_Error_class(code, &class);
    printf("errors %d class %d", kind, class);
}

static int copies, deletes;

static int copy(MPI_Comm comm, int key, void *extra, void *in, void *out, int *flag) {
    (void)comm, (void)key, (void)extra;
    copies++;
    *(void **)out = (char *)in + 1;
    *flag = 1;
    return MPI_SUCCESS;
}

static int delete (MPI_Comm comm, int key, void *value, void *extra) {
    (void)comm, (void)key, (void)value, (void)extra;
    deletes++;
    return MPI_SUCCESS;
}

static int handled;

static void handle(MPI_Comm *comm, int *code, ...) {
    (void)comm;
    MPI_Error_class(*code, &handled);
}

void try_objects(MPI_Comm comm, struct dice dice) {
    int key, flag, length, count;
    char text[MPI_MAX_OBJECT_NAME], name[64];
    void *value = NULL;
    MPI_Comm twin;
    copies = deletes = handled = 0;
    MPI_Comm_create_keyval(copy, delete, &key, NULL);
    MPI_Comm_set_attr(comm, key, (void *)(intptr_t)(10 + throw(&dice, 10)));
    MPI_Comm_dup(comm, &twin);
    MPI_Comm_get_attr(twin, key, &value, &flag);
    printf("objects %d %ld", flag, (long)(intptr_t)value);
    MPI_Comm_delete_attr(comm, key);
    MPI_Comm_get_attr(comm, key, &value, &flag);
    snprintf(name, sizeof name, "twin %d", throw(&dice, 100));
    MPI_Comm_set_name(twin, name);
    MPI_Comm_get_name(twin, text, &length);
    printf(" %d '%s' %d", flag, text, length);
    MPI_Errhandler handler;
    MPI_Comm_create_errhandler(handle, &handler);
    MPI_Comm_set_errhandler(twin, handler);
    MPI_Errhandler_free(&handler);
    MPI_Bcast(NULL, -1, MPI_INT, 0, twin);
    MPI_Comm_compare(comm, twin, &flag);
    printf(" handled %d compare %d", handled, flag);
    MPI_Comm_free(&twin);
    MPI_Comm_free_keyval(&key);
    printf(" %d %d %d", twin == MPI_COMM_NULL, copies, deletes);
    MPI_Info info, other;
    MPI_Info_create(&info);
    for (int i = throw(&dice, 5); i >= 0; i--) {
        snprintf(name, sizeof name, "key%d", i % 3);
        snprintf(text, sizeof text, "value%d", i);
        MPI_Info_set(info, name, text);
    }
    MPI_Info_dup(info, &other);
    MPI_Info_delete(info, "key0");
    MPI_Info_get_nkeys(other, &count);
    MPI_Info_get_valuelen(other, "key0", &length, &flag);
    MPI_Info_get(other, "key0", 63, text, &flag);
    printf(" info %d %d %d %s", count, length, flag, text);
    MPI_Info_get(info, "key0", 63, text, &flag);
    printf(" %d", flag);
    MPI_Info_free(&info);
    MPI_Info_free(&other);
}
