/* The blocks of a call, and the checks of its arguments. */
#include "blocks.h"

#include "elements.h"

MPI_Count number_at(struct numbers numbers, int place) {
    if (numbers.width == (int)sizeof(int)) {
        return ((const int *)numbers.at)[place];
    }
    return ((const MPI_Count *)numbers.at)[place];
}

int block_count(enum shape shape, MPI_Comm comm) {
    switch (shape) {
    case WHOLE:
    case RANKS: return comm->size;
    case SLOTS: return comm->grid == NULL ? 0 : 2 * comm->grid->dimensions;
    default: return 1;
    }
}

bool takes_part(enum who who, const struct call *call) {
    switch (who) {
    case ALL: return true;
    case ROOT: return call->comm->rank == call->root;
    case OTHERS: return call->comm->rank != call->root;
    case NOT_FIRST: return call->comm->rank > 0;
    default: return false;
    }
}

static bool is_in_place(const struct side *side) { return side->buffer == MPI_IN_PLACE; }

static struct region side_block(const struct side *side, int block) {
    struct region region = {side->buffer, side->count, side->type};
    if (side->types != NULL) {
        region.type = side->types[block];
        region.count = number_at(side->counts, block);
        region.at += number_at(side->places, block);
    } else if (side->places.at != NULL) {
        region.count = number_at(side->counts, block);
        region.at += number_at(side->places, block) * side->type->extent;
    } else {
        region.at += (MPI_Aint)block * side->count * side->type->extent;
    }
    return region;
}

/* What a member gives to a reduction whose result is scattered: for each rank a block, behind those
 * for the ranks below it. */
static struct region block_of_whole(const struct call *call, int block) {
    const struct side *get = &call->get;
    void *whole = is_in_place(&call->give) ? get->buffer : call->give.buffer;
    struct region region = {whole, get->count, get->type};
    if (get->counts.at == NULL) {
        region.at += block * region.count * region.type->extent;
        return region;
    }
    for (int rank = 0; rank < block; rank++) {
        region.at += number_at(get->counts, rank) * region.type->extent;
    }
    region.count = number_at(get->counts, block);
    return region;
}

struct region given_block(const struct call *call, int block) {
    if (call->kind->gives == WHOLE) {
        return block_of_whole(call, block);
    }
    if (!is_in_place(&call->give)) {
        return side_block(&call->give, block);
    }
    bool is_own = call->kind->gives == ONE && call->kind->gets == RANKS;
    return side_block(&call->get, is_own ? call->comm->rank : block);
}

struct region gotten_block(const struct call *call, int block) {
    struct region region = side_block(&call->get, block);
    if (call->kind->gives == WHOLE && call->get.counts.at != NULL) {
        region.count = number_at(call->get.counts, call->comm->rank);
    }
    return region;
}

static bool is_mixed(const struct call *call) {
    return call->give.types != NULL || call->get.types != NULL;
}

enum element wire_element(const struct call *call) {
    if (is_mixed(call)) {
        return INT64;
    }
    bool is_given = takes_part(call->kind->giver, call) && !is_in_place(&call->give);
    return (is_given ? &call->give : &call->get)->type->element;
}

MPI_Count region_count(const struct call *call, struct region region) {
    int numbers = is_mixed(call) ? element_numbers(region.type->element) : 1;
    return region.count * region.type->elements * numbers;
}

static int type_check(MPI_Datatype type) {
    bool is_good = type != NULL && type != MPI_DATATYPE_NULL && type->is_committed;
    return is_good && type->element != OPAQUE ? MPI_SUCCESS : MPI_ERR_TYPE;
}

/* In place of what is given, what is gotten is taken, and the root of a scatter keeps its own. */
static int in_place_check(const struct call *call, const struct side *side) {
    const struct kind *kind = call->kind;
    bool is_given = side == &call->give;
    bool is_good = is_given ? kind->getter != ROOT || takes_part(ROOT, call)
                            : kind->giver == ROOT && takes_part(kind->giver, call);
    return is_good && kind->gets != SLOTS ? MPI_SUCCESS : MPI_ERR_ARG;
}

static int side_check(const struct call *call, const struct side *side, enum shape shape) {
    if (is_in_place(side)) {
        return in_place_check(call, side);
    }
    bool is_list = side->counts.at != NULL;
    int blocks = block_count(call->kind->gives == WHOLE ? WHOLE : shape, call->comm);
    if (!is_list && side->count < 0) {
        return MPI_ERR_COUNT;
    }
    for (int block = 0; block < blocks; block++) {
        if (is_list && number_at(side->counts, block) < 0) {
            return MPI_ERR_COUNT;
        }
        if (side->types != NULL && type_check(side->types[block]) != MPI_SUCCESS) {
            return MPI_ERR_TYPE;
        }
    }
    return side->types == NULL ? type_check(side->type) : MPI_SUCCESS;
}

int call_check(const struct call *call) {
    const struct kind *kind = call->kind;
    if (call->comm == NULL || call->comm == MPI_COMM_NULL) {
        return MPI_ERR_COMM;
    }
    int code = session_check();
    if (code != MPI_SUCCESS) {
        return code;
    }
    if (kind->gives == SLOTS || kind->gets == SLOTS) {
        if (call->comm->grid == NULL) {
            return MPI_ERR_TOPOLOGY;
        }
    }
    if (call->root < 0 || call->root >= call->comm->size) {
        return MPI_ERR_ROOT;
    }
    if (takes_part(kind->giver, call)) {
        code = side_check(call, &call->give, kind->gives);
    }
    if (code == MPI_SUCCESS && takes_part(kind->getter, call)) {
        code = side_check(call, &call->get, kind->gets);
    }
    bool has_op = kind->fields[0] == FIELD_OP || kind->fields[1] == FIELD_OP;
    if (code == MPI_SUCCESS && has_op) {
        bool is_op = call->op != NULL && takes_operation(call->get.type, call->op);
        code = is_op ? MPI_SUCCESS : MPI_ERR_OP;
    }
    return code;
}
