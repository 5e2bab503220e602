/* What a program asks of types and statuses. */
#include <stdio.h>
#include <string.h>

#include "elements.h"
#include "errors.h"
#include "types.h"

static bool is_bad(MPI_Datatype type) { return type == NULL || type == MPI_DATATYPE_NULL; }

static int failed(const char *function) { return raised(NULL, MPI_ERR_TYPE, function); }

/* The bytes from the first that a type moves to behind the last. */
static void true_bounds(MPI_Datatype type, MPI_Aint *lower, MPI_Aint *upper) {
    *lower = *upper = 0;
    for (size_t i = 0; i < type->run_count; i++) {
        const struct run *run = &type->runs[i];
        MPI_Aint end = run->at + run->count * run->width;
        *lower = i == 0 || run->at < *lower ? run->at : *lower;
        *upper = i == 0 || end > *upper ? end : *upper;
    }
}

int MPI_Type_size(MPI_Datatype type, int *size) {
    if (is_bad(type)) {
        return failed(__func__);
    }
    *size = type->size > INT32_MAX ? MPI_UNDEFINED : (int)type->size;
    return MPI_SUCCESS;
}

int MPI_Type_size_x(MPI_Datatype type, MPI_Count *size) {
    if (is_bad(type)) {
        return failed(__func__);
    }
    *size = type->size;
    return MPI_SUCCESS;
}

int MPI_Type_size_c(MPI_Datatype type, MPI_Count *size) { return MPI_Type_size_x(type, size); }

int MPI_Type_get_extent(MPI_Datatype type, MPI_Aint *lower, MPI_Aint *extent) {
    if (is_bad(type)) {
        return failed(__func__);
    }
    *lower = type->lower;
    *extent = type->extent;
    return MPI_SUCCESS;
}

int MPI_Type_get_extent_x(MPI_Datatype type, MPI_Count *lower, MPI_Count *extent) {
    if (is_bad(type)) {
        return failed(__func__);
    }
    *lower = type->lower;
    *extent = type->extent;
    return MPI_SUCCESS;
}

int MPI_Type_get_extent_c(MPI_Datatype type, MPI_Count *lower, MPI_Count *extent) {
    return MPI_Type_get_extent_x(type, lower, extent);
}

int MPI_Type_get_true_extent(MPI_Datatype type, MPI_Aint *lower, MPI_Aint *extent) {
    MPI_Aint upper;
    if (is_bad(type)) {
        return failed(__func__);
    }
    true_bounds(type, lower, &upper);
    *extent = upper - *lower;
    return MPI_SUCCESS;
}

int MPI_Type_get_true_extent_x(MPI_Datatype type, MPI_Count *lower, MPI_Count *extent) {
    MPI_Aint first, bytes;
    int code = MPI_Type_get_true_extent(type, &first, &bytes);
    if (code == MPI_SUCCESS) {
        *lower = first;
        *extent = bytes;
    }
    return code;
}

int MPI_Type_get_name(MPI_Datatype type, char *name, int *length) {
    if (type == NULL) {
        return failed(__func__);
    }
    strcpy(name, type->name);
    *length = (int)strlen(name);
    return MPI_SUCCESS;
}

int MPI_Type_set_name(MPI_Datatype type, const char *name) {
    if (is_bad(type)) {
        return failed(__func__);
    }
    snprintf(type->name, sizeof type->name, "%s", name);
    return MPI_SUCCESS;
}

/* How a type was made is kept of it, and of what it was made is not. */
int MPI_Type_get_envelope(MPI_Datatype type, int *numbers, int *addresses, int *types,
                          int *combiner) {
    if (is_bad(type)) {
        return failed(__func__);
    }
    if (!type->is_predefined) {
        return unsupported(NULL, __func__);
    }
    *numbers = *addresses = *types = 0;
    *combiner = MPI_COMBINER_NAMED;
    return MPI_SUCCESS;
}

int MPI_Type_match_size(int class, int size, MPI_Datatype *type) {
    const struct {
        int class, size;
        MPI_Datatype type;
    } KNOWN[] = {
        {MPI_TYPECLASS_INTEGER, 1, MPI_INTEGER1},   {MPI_TYPECLASS_INTEGER, 2, MPI_INTEGER2},
        {MPI_TYPECLASS_INTEGER, 4, MPI_INTEGER4},   {MPI_TYPECLASS_INTEGER, 8, MPI_INTEGER8},
        {MPI_TYPECLASS_REAL, 4, MPI_REAL4},         {MPI_TYPECLASS_REAL, 8, MPI_REAL8},
        {MPI_TYPECLASS_REAL, 16, MPI_REAL16},       {MPI_TYPECLASS_COMPLEX, 8, MPI_COMPLEX8},
        {MPI_TYPECLASS_COMPLEX, 16, MPI_COMPLEX16}, {MPI_TYPECLASS_COMPLEX, 32, MPI_COMPLEX32},
    };
    for (size_t i = 0; i < sizeof KNOWN / sizeof *KNOWN; i++) {
        if (KNOWN[i].class == class && KNOWN[i].size == size) {
            *type = KNOWN[i].type;
            return MPI_SUCCESS;
        }
    }
    return raised(NULL, MPI_ERR_ARG, __func__);
}

/* Statuses. */

static MPI_Count count_of(const MPI_Status *status, MPI_Count size) {
    if (size == 0) {
        return 0;
    }
    return (MPI_Count)status->bytes % size == 0 ? (MPI_Count)status->bytes / size : MPI_UNDEFINED;
}

int MPI_Get_count(const MPI_Status *status, MPI_Datatype type, int *count) {
    if (is_bad(type)) {
        return failed(__func__);
    }
    *count = (int)count_of(status, type->size);
    return MPI_SUCCESS;
}

int MPI_Get_elements_x(const MPI_Status *status, MPI_Datatype type, MPI_Count *count) {
    if (is_bad(type)) {
        return failed(__func__);
    }
    bool is_empty = type->elements == 0;
    *count = count_of(status, is_empty ? 0 : type->size / type->elements);
    return MPI_SUCCESS;
}

int MPI_Get_elements(const MPI_Status *status, MPI_Datatype type, int *count) {
    MPI_Count found = 0;
    int code = MPI_Get_elements_x(status, type, &found);
    *count = (int)found;
    return code;
}

int MPI_Status_set_elements_x(MPI_Status *status, MPI_Datatype type, MPI_Count count) {
    if (is_bad(type)) {
        return failed(__func__);
    }
    status->bytes = (size_t)(type->elements == 0 ? 0 : count * (type->size / type->elements));
    return MPI_SUCCESS;
}

int MPI_Status_set_elements(MPI_Status *status, MPI_Datatype type, int count) {
    return MPI_Status_set_elements_x(status, type, count);
}

int MPI_Status_set_cancelled(MPI_Status *status, int flag) {
    status->cancelled = flag != 0;
    return MPI_SUCCESS;
}

int MPI_Test_cancelled(const MPI_Status *status, int *flag) {
    *flag = status->cancelled;
    return MPI_SUCCESS;
}
