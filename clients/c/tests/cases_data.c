/* Dice, types and buffers of the random cases. */
#include <stdbool.h>

#include "cases.h"

uint64_t mixed(uint64_t one, uint64_t other) {
    uint64_t value = one * 0x9e3779b97f4a7c15u + other;
    value = (value ^ (value >> 30)) * 0xbf58476d1ce4e5b9u;
    value = (value ^ (value >> 27)) * 0x94d049bb133111ebu;
    return value ^ (value >> 31);
}

int throw(struct dice * dice, int below) {
    dice->state = mixed(dice->state, 1);
    return (int)(dice->state % (uint64_t)below);
}

static MPI_Datatype numbered(int place) {
    /* And neither MPI_UNSIGNED_LONG nor MPI_OFFSET: Open MPI 4.1.4 takes the first for one with a
     * sign, in a maximum or minimum, and the second for one without. */
    const MPI_Datatype NUMBERS[] = {
        MPI_INT,           MPI_LONG,      MPI_SHORT,
        MPI_SIGNED_CHAR,   MPI_UNSIGNED,  MPI_UNSIGNED_SHORT,
        MPI_UNSIGNED_CHAR, MPI_LONG_LONG, MPI_UNSIGNED_LONG_LONG,
        MPI_INT8_T,        MPI_INT16_T,   MPI_INT32_T,
        MPI_INT64_T,       MPI_UINT8_T,   MPI_UINT16_T,
        MPI_UINT32_T,      MPI_UINT64_T,  MPI_AINT,
        MPI_COUNT,
    };
    return NUMBERS[place % (int)(sizeof NUMBERS / sizeof *NUMBERS)];
}

MPI_Datatype number_type(struct dice *dice) {
    switch (throw(dice, 12)) {
    case 0: return MPI_C_BOOL;
    case 1: return MPI_2INT;
    case 2: return MPI_BYTE;
    default: return numbered(throw(dice, 1000));
    }
}

MPI_Datatype base_type(struct dice *dice) {
    switch (throw(dice, 14)) {
    case 0: return MPI_CHAR;
    case 1: return MPI_WCHAR;
    default: return number_type(dice);
    }
}

struct form form_of(MPI_Datatype base, struct dice *dice) {
    struct form form = {base, base, 1};
    switch (throw(dice, 5)) {
    case 0: MPI_Type_contiguous(2, base, &form.type); break;
    case 1: MPI_Type_vector(2, 1, 2, base, &form.type); break;
    case 2: {
        int places[] = {3, 1};
        MPI_Type_create_indexed_block(2, 1, places, base, &form.type);
        break;
    }
    default: return form;
    }
    form.per_item = 2;
    MPI_Type_commit(&form.type);
    return form;
}

void form_drop(struct form *form) {
    if (form->per_item == 2) {
        MPI_Type_free(&form->type);
    }
}

MPI_Op operation(MPI_Datatype base, struct dice *dice) {
    const MPI_Op OPS[] = {MPI_MAX, MPI_MIN,  MPI_SUM,  MPI_PROD, MPI_LAND,
                          MPI_LOR, MPI_LXOR, MPI_BAND, MPI_BOR,  MPI_BXOR};
    if (base == MPI_2INT) {
        return throw(dice, 2) ? MPI_MAXLOC : MPI_MINLOC;
    }
    if (base == MPI_C_BOOL) {
        return OPS[4 + throw(dice, 3)];
    }
    return base == MPI_BYTE ? OPS[7 + throw(dice, 3)] : OPS[throw(dice, 10)];
}

int has_no_sign(MPI_Datatype base) {
    const MPI_Datatype TYPES[] = {
        MPI_UNSIGNED, MPI_UNSIGNED_SHORT, MPI_UNSIGNED_CHAR, MPI_UNSIGNED_LONG_LONG,
        MPI_UINT8_T,  MPI_UINT16_T,       MPI_UINT32_T,      MPI_UINT64_T,
    };
    int found = 0;
    for (int i = 0; i < (int)(sizeof TYPES / sizeof *TYPES); i++) {
        found |= TYPES[i] == base;
    }
    return found;
}

void fill(void *buffer, size_t size, uint64_t seed, MPI_Datatype base) {
    bool is_small = mixed(seed, 77) % 2;
    for (size_t i = 0; i < size; i++) {
        uint64_t value = mixed(seed, i);
        ((unsigned char *)buffer)[i] =
            (unsigned char)(base == MPI_C_BOOL || is_small ? value % 2 : value);
    }
}

int shown_rank(int rank) { return rank == MPI_PROC_NULL ? -2 : rank; }

void tell(const char *what, const void *buffer, size_t size) {
    uint64_t sum = 1469598103934665603u;
    for (size_t i = 0; i < size; i++) {
        sum = (sum ^ ((const unsigned char *)buffer)[i]) * 1099511628211u;
    }
    printf(" %s %016llx", what, (unsigned long long)sum);
}
