/* Types: what a program makes of the predefined ones, as runs of elements. */
#include "types.h"

#include <stdio.h>
#include <stdlib.h>
#include <string.h>

#include "comms.h"
#include "errors.h"

void type_retain(MPI_Datatype type) {
    if (!type->is_predefined) {
        type->references++;
    }
}

void type_release(MPI_Datatype type) {
    if (!type->is_predefined && --type->references == 0) {
        type_attributes_drop(type);
        free((void *)type->runs);
        free(type);
    }
}

struct place place_first(void *buffer, MPI_Count count, MPI_Datatype type) {
    return (struct place){buffer, type->elements > 0 ? count : 0, type, 0, 0, -1};
}

void place_cut(struct place *place, MPI_Count first, MPI_Count most) {
    MPI_Count items = place->left > 0 ? first / place->type->elements : 0;
    place->item += items * place->type->extent;
    place->left -= items;
    place->skipped = first - items * place->type->elements;
    place->most = most;
}

static char *next_span(struct place *place, const struct run **run, MPI_Count *count) {
    if (place->left <= 0) {
        return NULL;
    }
    MPI_Datatype type = place->type;
    *run = &type->runs[place->run];
    *count = (*run)->count;
    char *at = place->item + (*run)->at;
    if (type->run_count == 1 && (*run)->count * (*run)->width == type->extent) {
        *count *= place->left; /* items without gaps are one span */
        place->left = 0;
    } else if (++place->run == type->run_count) {
        place->run = 0;
        place->item += type->extent;
        place->left--;
    }
    return at;
}

char *place_span(struct place *place, const struct run **run, MPI_Count *count) {
    char *at = next_span(place, run, count);
    for (; at != NULL && *count <= place->skipped; at = next_span(place, run, count)) {
        place->skipped -= *count;
    }
    if (at == NULL || place->most == 0) {
        return NULL;
    }
    at += place->skipped * (*run)->width;
    *count -= place->skipped;
    place->skipped = 0;
    if (place->most > 0) {
        *count = *count < place->most ? *count : place->most;
        place->most -= *count;
    }
    return at;
}

/* A type that is being made: runs, and the bounds of all items that were put in. */
struct making {
    struct run *runs;
    size_t count, room;
    bool has_bounds, has_failed;
    MPI_Aint lower, upper;
};

static void add_run(struct making *making, struct run run) {
    struct run *last = making->count > 0 ? &making->runs[making->count - 1] : NULL;
    if (last != NULL && last->element == run.element && last->width == run.width &&
        last->outside == run.outside && last->at + last->count * last->width == run.at) {
        last->count += run.count;
        return;
    }
    if (making->count == making->room) {
        size_t room = 2 * making->room + 4;
        struct run *more = realloc(making->runs, room * sizeof *more);
        if (more == NULL) {
            making->has_failed = true;
            return;
        }
        making->runs = more;
        making->room = room;
    }
    making->runs[making->count++] = run;
}

/* Puts `count` items of a type at byte `at` and behind. */
static void add_items(struct making *making, MPI_Datatype type, MPI_Aint at, MPI_Count count) {
    for (MPI_Count item = 0; item < count && !making->has_failed; item++) {
        MPI_Aint base = at + item * type->extent;
        for (size_t i = 0; i < type->run_count && type->elements > 0; i++) {
            struct run run = type->runs[i];
            run.at += base;
            add_run(making, run);
        }
        MPI_Aint lower = base + type->lower, upper = lower + type->extent;
        making->lower = !making->has_bounds || lower < making->lower ? lower : making->lower;
        making->upper = !making->has_bounds || upper > making->upper ? upper : making->upper;
        making->has_bounds = true;
    }
}

static int finish(struct making *making, MPI_Datatype old, int combiner, MPI_Datatype *made) {
    MPI_Datatype type = making->has_failed ? NULL : calloc(1, sizeof *type);
    if (type == NULL) {
        free(making->runs);
        return MPI_ERR_NO_MEM;
    }
    *type = (struct ompi_datatype_t){
        .element = old->element,
        .use = old->use,
        .references = 1,
        .combiner = combiner,
        .lower = making->lower,
        .extent = making->upper - making->lower,
        .runs = making->runs,
        .run_count = making->count,
    };
    for (size_t i = 0; i < making->count; i++) {
        type->elements += making->runs[i].count;
        type->size += making->runs[i].count * making->runs[i].width;
        if (making->runs[i].element != type->element) {
            type->element = OPAQUE;
        }
    }
    *made = type;
    return MPI_SUCCESS;
}

static bool is_bad(MPI_Datatype type) { return type == NULL || type == MPI_DATATYPE_NULL; }

/* `count` blocks of `length` items, which stand `stride` bytes from each other. */
static int strided(MPI_Count count, MPI_Count length, MPI_Aint stride, MPI_Datatype old,
                   int combiner, MPI_Datatype *made, const char *function) {
    struct making making = {0};
    if (is_bad(old) || count < 0 || length < 0) {
        return raised(NULL, is_bad(old) ? MPI_ERR_TYPE : MPI_ERR_COUNT, function);
    }
    for (MPI_Count block = 0; block < count; block++) {
        add_items(&making, old, block * stride, length);
    }
    return raised(NULL, finish(&making, old, combiner, made), function);
}

int MPI_Type_contiguous(int count, MPI_Datatype old, MPI_Datatype *made) {
    return strided(1, count, 0, old, MPI_COMBINER_CONTIGUOUS, made, __func__);
}

int MPI_Type_contiguous_c(MPI_Count count, MPI_Datatype old, MPI_Datatype *made) {
    return strided(1, count, 0, old, MPI_COMBINER_CONTIGUOUS, made, __func__);
}

int MPI_Type_vector(int count, int length, int stride, MPI_Datatype old, MPI_Datatype *made) {
    MPI_Aint bytes = is_bad(old) ? 0 : stride * old->extent;
    return strided(count, length, bytes, old, MPI_COMBINER_VECTOR, made, __func__);
}

int MPI_Type_vector_c(MPI_Count count, MPI_Count length, MPI_Count stride, MPI_Datatype old,
                      MPI_Datatype *made) {
    MPI_Aint bytes = is_bad(old) ? 0 : (MPI_Aint)stride * old->extent;
    return strided(count, length, bytes, old, MPI_COMBINER_VECTOR, made, __func__);
}

int MPI_Type_create_hvector(int count, int length, MPI_Aint stride, MPI_Datatype old,
                            MPI_Datatype *made) {
    return strided(count, length, stride, old, MPI_COMBINER_HVECTOR, made, __func__);
}

/* Blocks at places of their own: in items of the type, or where `bytes` is given in bytes. */
static int placed(int count, const int *lengths, int length, const int *items,
                  const MPI_Aint *bytes, MPI_Datatype old, int combiner, MPI_Datatype *made,
                  const char *function) {
    struct making making = {0};
    if (is_bad(old) || count < 0) {
        return raised(NULL, is_bad(old) ? MPI_ERR_TYPE : MPI_ERR_COUNT, function);
    }
    for (int block = 0; block < count; block++) {
        MPI_Aint at = bytes != NULL ? bytes[block] : items[block] * old->extent;
        add_items(&making, old, at, lengths != NULL ? lengths[block] : length);
    }
    return raised(NULL, finish(&making, old, combiner, made), function);
}

int MPI_Type_indexed(int count, const int *lengths, const int *places, MPI_Datatype old,
                     MPI_Datatype *made) {
    return placed(count, lengths, 0, places, NULL, old, MPI_COMBINER_INDEXED, made, __func__);
}

int MPI_Type_create_hindexed(int count, const int *lengths, const MPI_Aint *places,
                             MPI_Datatype old, MPI_Datatype *made) {
    return placed(count, lengths, 0, NULL, places, old, MPI_COMBINER_HINDEXED, made, __func__);
}

int MPI_Type_create_indexed_block(int count, int length, const int *places, MPI_Datatype old,
                                  MPI_Datatype *made) {
    return placed(count, NULL, length, places, NULL, old, MPI_COMBINER_INDEXED_BLOCK, made,
                  __func__);
}

int MPI_Type_create_hindexed_block(int count, int length, const MPI_Aint *places, MPI_Datatype old,
                                   MPI_Datatype *made) {
    return placed(count, NULL, length, NULL, places, old, MPI_COMBINER_HINDEXED_BLOCK, made,
                  __func__);
}

int MPI_Type_create_struct(int count, const int *lengths, const MPI_Aint *places,
                           const MPI_Datatype *types, MPI_Datatype *made) {
    struct making making = {0};
    for (int block = 0; block < count; block++) {
        if (is_bad(types[block])) {
            free(making.runs);
            return raised(NULL, MPI_ERR_TYPE, __func__);
        }
        add_items(&making, types[block], places[block], lengths[block]);
    }
    MPI_Datatype first = count > 0 ? types[0] : MPI_BYTE;
    return raised(NULL, finish(&making, first, MPI_COMBINER_STRUCT, made), __func__);
}

/* A part of an array: the rows of its last dimension in memory, one after the other. */
int MPI_Type_create_subarray(int dimensions, const int *sides, const int *parts, const int *starts,
                             int order, MPI_Datatype old, MPI_Datatype *made) {
    enum { MOST = 32 };
    struct making making = {0};
    MPI_Aint steps[MOST], whole = is_bad(old) ? 0 : old->extent;
    int at[MOST] = {0};
    bool is_good = !is_bad(old) && dimensions >= 1 && dimensions <= MOST;
    for (int i = 0; is_good && i < dimensions; i++) {
        int d = order == MPI_ORDER_C ? dimensions - 1 - i : i;
        is_good = parts[d] >= 1 && starts[d] >= 0 && starts[d] <= sides[d] - parts[d];
        steps[d] = whole;
        whole *= sides[d];
    }
    if (!is_good) {
        return raised(NULL, MPI_ERR_ARG, __func__);
    }
    for (int moved = 0; moved < dimensions;) {
        MPI_Aint place = 0;
        for (int d = 0; d < dimensions; d++) {
            place += (starts[d] + at[d]) * steps[d];
        }
        add_items(&making, old, place, 1);
        for (moved = 0; moved < dimensions; moved++) {
            int d = order == MPI_ORDER_C ? dimensions - 1 - moved : moved;
            if (++at[d] < parts[d]) {
                break;
            }
            at[d] = 0;
        }
    }
    making.lower = 0;
    making.upper = whole;
    return raised(NULL, finish(&making, old, MPI_COMBINER_SUBARRAY, made), __func__);
}

int MPI_Type_create_resized(MPI_Datatype old, MPI_Aint lower, MPI_Aint extent, MPI_Datatype *made) {
    struct making making = {0};
    if (is_bad(old)) {
        return raised(NULL, MPI_ERR_TYPE, __func__);
    }
    add_items(&making, old, 0, 1);
    making.lower = lower;
    making.upper = lower + extent;
    return raised(NULL, finish(&making, old, MPI_COMBINER_RESIZED, made), __func__);
}

int MPI_Type_dup(MPI_Datatype old, MPI_Datatype *made) {
    struct making making = {0};
    if (is_bad(old)) {
        return raised(NULL, MPI_ERR_TYPE, __func__);
    }
    add_items(&making, old, 0, 1);
    int code = finish(&making, old, MPI_COMBINER_DUP, made);
    if (code == MPI_SUCCESS) {
        (*made)->is_committed = old->is_committed;
        code = type_attributes_copy(old, *made);
    }
    return raised(NULL, code, __func__);
}

int MPI_Type_commit(MPI_Datatype *type) {
    if (is_bad(*type)) {
        return raised(NULL, MPI_ERR_TYPE, __func__);
    }
    (*type)->is_committed = true;
    return MPI_SUCCESS;
}

int MPI_Type_free(MPI_Datatype *type) {
    if (is_bad(*type) || (*type)->is_predefined) {
        return raised(NULL, MPI_ERR_TYPE, __func__);
    }
    type_release(*type);
    *type = MPI_DATATYPE_NULL;
    return MPI_SUCCESS;
}
