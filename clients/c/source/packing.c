/* What a process does with data by itself: packing, and reductions of two buffers. */
#include <string.h>

#include "blocks.h"
#include "comms.h"
#include "elements.h"
#include "errors.h"
#include "types.h"

static bool is_bad(MPI_Datatype type) { return type == NULL || type == MPI_DATATYPE_NULL; }

/* The bytes that `count` items take when they are packed; -1 where the form knows none. */
static MPI_Count packed_size(MPI_Count count, MPI_Datatype type, bool is_outside) {
    MPI_Count size = 0;
    for (size_t i = 0; i < type->run_count; i++) {
        const struct run *run = &type->runs[i];
        if (is_outside && run->element == OPAQUE) {
            return -1;
        }
        size += run->count * (is_outside ? run->outside : run->width);
    }
    return count * size;
}

/* A number with its highest byte first. */
static void put_outside(enum element element, const char *at, char *packed, int width) {
    uint64_t value = (uint64_t)element_load(element, at);
    for (int byte = width - 1; byte >= 0; byte--, value >>= 8) {
        packed[byte] = (char)(value & 0xff);
    }
}

static void get_outside(enum element element, char *at, const char *packed, int width) {
    bool is_negative = element <= INT64 && (packed[0] & 0x80) != 0;
    uint64_t value = is_negative ? UINT64_MAX : 0;
    for (int byte = 0; byte < width; byte++) {
        value = value << 8 | (unsigned char)packed[byte];
    }
    element_store(element, at, (int64_t)value);
}

static void move(const struct run *run, char *at, char *packed, bool is_out, bool is_outside) {
    int halves = run->element == PAIR ? 2 : 1, width = run->outside / halves;
    enum element element = run->element == PAIR ? INT32 : run->element;
    if (!is_outside) {
        memcpy(is_out ? packed : at, is_out ? at : packed, (size_t)run->width);
    }
    for (int half = 0; is_outside && half < halves; half++) {
        if (is_out) {
            put_outside(element, at + half * 4, packed + half * width, width);
        } else {
            get_outside(element, at + half * 4, packed + half * width, width);
        }
    }
}

/* Between `count` items and the bytes from `*position` of a buffer of `size` bytes on. */
static int moved(void *items, MPI_Count count, MPI_Datatype type, char *packed, MPI_Aint size,
                 MPI_Aint *position, bool is_out, bool is_outside) {
    if (is_bad(type) || count < 0) {
        return is_bad(type) ? MPI_ERR_TYPE : MPI_ERR_COUNT;
    }
    MPI_Count need = packed_size(count, type, is_outside);
    if (need < 0 || *position < 0 || need > size - *position) {
        return need < 0 ? MPI_ERR_TYPE : MPI_ERR_TRUNCATE;
    }
    struct place place = place_first(items, count, type);
    const struct run *run;
    MPI_Count span;
    for (char *at; (at = place_span(&place, &run, &span)) != NULL;) {
        for (; span > 0; span--, at += run->width) {
            move(run, at, packed + *position, is_out, is_outside);
            *position += is_outside ? run->outside : run->width;
        }
    }
    return MPI_SUCCESS;
}

int MPI_Pack(const void *items, int count, MPI_Datatype type, void *packed, int size, int *position,
             MPI_Comm comm) {
    MPI_Aint place = *position;
    int code = moved((void *)items, count, type, packed, size, &place, true, false);
    *position = (int)place;
    return raised(comm, code, __func__);
}

int MPI_Unpack(const void *packed, int size, int *position, void *items, int count,
               MPI_Datatype type, MPI_Comm comm) {
    MPI_Aint place = *position;
    int code = moved(items, count, type, (void *)packed, size, &place, false, false);
    *position = (int)place;
    return raised(comm, code, __func__);
}

int MPI_Pack_size(int count, MPI_Datatype type, MPI_Comm comm, int *size) {
    if (is_bad(type) || count < 0) {
        return raised(comm, is_bad(type) ? MPI_ERR_TYPE : MPI_ERR_COUNT, __func__);
    }
    *size = (int)(count * type->size);
    return MPI_SUCCESS;
}

/* The one form that MPI names has the highest byte first. */
static bool is_external(const char *form) { return strcmp(form, "external32") == 0; }

int MPI_Pack_external(const char *form, const void *items, int count, MPI_Datatype type,
                      void *packed, MPI_Aint size, MPI_Aint *position) {
    int code = is_external(form)
                   ? moved((void *)items, count, type, packed, size, position, true, true)
                   : MPI_ERR_ARG;
    return raised(NULL, code, __func__);
}

int MPI_Unpack_external(const char *form, const void *packed, MPI_Aint size, MPI_Aint *position,
                        void *items, int count, MPI_Datatype type) {
    int code = is_external(form)
                   ? moved(items, count, type, (void *)packed, size, position, false, true)
                   : MPI_ERR_ARG;
    return raised(NULL, code, __func__);
}

int MPI_Pack_external_size(const char *form, int count, MPI_Datatype type, MPI_Aint *size) {
    if (!is_external(form) || is_bad(type)) {
        return raised(NULL, is_bad(type) ? MPI_ERR_TYPE : MPI_ERR_ARG, __func__);
    }
    *size = (MPI_Aint)packed_size(count, type, true);
    return *size < 0 ? raised(NULL, MPI_ERR_TYPE, __func__) : MPI_SUCCESS;
}

static int reduce_local(const void *from, void *into, MPI_Count count, MPI_Datatype type,
                        MPI_Op op) {
    if (is_bad(type) || count < 0) {
        return is_bad(type) ? MPI_ERR_TYPE : MPI_ERR_COUNT;
    }
    bool is_kept = op == MPI_NO_OP || op == MPI_REPLACE;
    if (type->element == OPAQUE) {
        return MPI_ERR_TYPE;
    }
    if (op == NULL || op == MPI_OP_NULL || (!takes_operation(type, op) && !is_kept)) {
        return MPI_ERR_OP;
    }
    struct place one = place_first((void *)from, count, type),
                 other = place_first(into, count, type);
    const struct run *run;
    MPI_Count span;
    for (char *at; (at = place_span(&one, &run, &span)) != NULL;) {
        char *target = place_span(&other, &run, &span);
        for (; span > 0; span--, at += run->width, target += run->width) {
            element_reduce((enum operation)op->number, run->element, at, target);
        }
    }
    return MPI_SUCCESS;
}

int MPI_Reduce_local(const void *from, void *into, int count, MPI_Datatype type, MPI_Op op) {
    return raised(NULL, reduce_local(from, into, count, type, op), __func__);
}

int MPI_Reduce_local_c(const void *from, void *into, MPI_Count count, MPI_Datatype type,
                       MPI_Op op) {
    return raised(NULL, reduce_local(from, into, count, type, op), __func__);
}

/* All twelve are. */
int MPI_Op_commutative(MPI_Op op, int *flag) {
    if (op == NULL || op == MPI_OP_NULL) {
        return raised(NULL, MPI_ERR_OP, __func__);
    }
    *flag = 1;
    return MPI_SUCCESS;
}
