/* Elements in memory and in text. */
#include "elements.h"

#include <string.h>

static const struct {
    const char *name;
    int width;
    bool is_signed;
    int64_t least, most; /* of the widths below 64 bits */
} ELEMENTS[] = {
    [OPAQUE] = {"none", 0, false, 0, 0},
    [INT8] = {"int8", 1, true, INT8_MIN, INT8_MAX},
    [INT16] = {"int16", 2, true, INT16_MIN, INT16_MAX},
    [INT32] = {"int32", 4, true, INT32_MIN, INT32_MAX},
    [INT64] = {"int64", 8, true, INT64_MIN, INT64_MAX},
    [UINT8] = {"uint8", 1, false, 0, UINT8_MAX},
    [UINT16] = {"uint16", 2, false, 0, UINT16_MAX},
    [UINT32] = {"uint32", 4, false, 0, UINT32_MAX},
    [UINT64] = {"uint64", 8, false, 0, 0},
    [PAIR] = {"2int", 8, true, INT32_MIN, INT32_MAX},
};

static const char PAIRS_OF_DIGITS[] = "00010203040506070809101112131415161718192021222324"
                                      "25262728293031323334353637383940414243444546474849"
                                      "50515253545556575859606162636465666768697071727374"
                                      "75767778798081828384858687888990919293949596979899";

int element_width(enum element element) { return ELEMENTS[element].width; }

const char *element_name(enum element element) { return ELEMENTS[element].name; }

int element_numbers(enum element element) { return element == PAIR ? 2 : 1; }

#define LOAD(type)                                                                                 \
    do {                                                                                           \
        type value;                                                                                \
        memcpy(&value, at, sizeof value);                                                          \
        return (int64_t)value;                                                                     \
    } while (0)

int64_t element_load(enum element element, const void *at) {
    switch (element) {
    case INT8: LOAD(int8_t);
    case INT16: LOAD(int16_t);
    case INT32: LOAD(int32_t);
    case UINT8: LOAD(uint8_t);
    case UINT16: LOAD(uint16_t);
    case UINT32: LOAD(uint32_t);
    default: LOAD(int64_t);
    }
}

#define STORE(type)                                                                                \
    do {                                                                                           \
        type narrow = (type)(uint64_t)value;                                                       \
        memcpy(at, &narrow, sizeof narrow);                                                        \
        return;                                                                                    \
    } while (0)

void element_store(enum element element, void *at, int64_t value) {
    switch (ELEMENTS[element].width) {
    case 1: STORE(uint8_t);
    case 2: STORE(uint16_t);
    case 4: STORE(uint32_t);
    default: STORE(uint64_t);
    }
}

char *number_write(enum element element, int64_t value, char *to) {
    uint64_t left = (uint64_t)value;
    *to++ = ' ';
    if (element != UINT64 && value < 0) {
        *to++ = '-';
        left = 0 - left;
    }
    char digits[2 * LONGEST_NUMBER];
    int first = LONGEST_NUMBER;
    for (; left >= 100; left /= 100) {
        first -= 2;
        memcpy(digits + first, PAIRS_OF_DIGITS + 2 * (left % 100), 2);
    }
    digits[--first] = (char)('0' + left % 10);
    if (left >= 10) {
        digits[--first] = (char)('0' + left / 10);
    }
    memcpy(to, digits + first, LONGEST_NUMBER); /* a copy of a fixed length takes less time */
    return to + LONGEST_NUMBER - first;
}

char *span_write(const struct run *run, const char *at, MPI_Count count, enum element wire,
                 char *to) {
    for (; count > 0; count--, at += run->width) {
        if (run->element == PAIR) {
            to = number_write(wire, element_load(INT32, at), to);
            to = number_write(wire, element_load(INT32, at + 4), to);
        } else {
            to = number_write(wire, element_load(run->element, at), to);
        }
    }
    return to;
}

struct range element_range(enum element element) {
    struct range range = {(uint64_t)ELEMENTS[element].most, 0 - (uint64_t)ELEMENTS[element].least};
    return element == UINT64 ? (struct range){UINT64_MAX, 0} : range;
}

static int64_t combined(enum operation operation, bool is_unsigned, int64_t left, int64_t right) {
    uint64_t one = (uint64_t)left, other = (uint64_t)right;
    bool is_less = is_unsigned ? one < other : left < right;
    switch (operation) {
    case OP_MAX: return is_less ? right : left;
    case OP_MIN: return is_less ? left : right;
    case OP_SUM: return (int64_t)(one + other);
    case OP_PROD: return (int64_t)(one * other);
    case OP_LAND: return left && right;
    case OP_LOR: return left || right;
    case OP_LXOR: return !left != !right;
    case OP_BAND: return left & right;
    case OP_BOR: return left | right;
    case OP_BXOR: return left ^ right;
    case OP_REPLACE: return left;
    default: return right;
    }
}

static void pair_reduce(enum operation operation, const void *from, void *into) {
    int32_t left[2], right[2];
    memcpy(left, from, sizeof left);
    memcpy(right, into, sizeof right);
    bool is_left = operation == OP_MAXLOC ? left[0] > right[0] : left[0] < right[0];
    if (is_left || (left[0] == right[0] && left[1] < right[1])) {
        memcpy(into, left, sizeof left);
    }
}

void element_reduce(enum operation operation, enum element element, const void *from, void *into) {
    if (element == PAIR) {
        pair_reduce(operation, from, into);
    } else {
        int64_t left = element_load(element, from), right = element_load(element, into);
        element_store(element, into, combined(operation, element == UINT64, left, right));
    }
}

bool takes_operation(MPI_Datatype type, MPI_Op op) {
    bool is_logical = op->number >= OP_LAND && op->number <= OP_LXOR;
    bool is_bitwise = op->number >= OP_BAND && op->number <= OP_BXOR;
    switch (type->use) {
    case USE_NUMBER: return op->number >= OP_MAX && op->number <= OP_BXOR;
    case USE_LOGICAL: return is_logical;
    case USE_BYTES: return is_bitwise;
    case USE_PAIR: return op->number == OP_MAXLOC || op->number == OP_MINLOC;
    default: return false;
    }
}
