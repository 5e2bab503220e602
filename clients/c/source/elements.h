/* Elements in memory and in text. */
#ifndef CONSORTIUM_ELEMENTS_H
#define CONSORTIUM_ELEMENTS_H

#include <stddef.h>

#include "objects.h"

/* No number has more digits and signs, and to write one takes so much room. */
enum { LONGEST_NUMBER = 21, NUMBER_ROOM = 2 * LONGEST_NUMBER };

int element_width(enum element element);
const char *element_name(enum element element);

/* The numbers of an element in text: 2 for a pair, else 1. */
int element_numbers(enum element element);

/* An element that is one number. One of 64 bits without a sign has the same bits here. */
int64_t element_load(enum element element, const void *at);
void element_store(enum element element, void *at, int64_t value);

/* Writes a number, behind a space, and gives the place behind it. What is in the room behind that
 * place may change. */
char *number_write(enum element element, int64_t value, char *to);
/* The same of all elements of a span, as numbers of the element `wire`. */
char *span_write(const struct run *run, const char *at, MPI_Count count, enum element wire,
                 char *to);

/* How far the numbers of an element go, above 0 and below. */
struct range {
    uint64_t above, below;
};
struct range element_range(enum element element);

static inline bool is_digit(char byte) { return byte >= '0' && byte <= '9'; }

/* Reads a number in a range from `from` on: the place behind it, or NULL where there is none. `end`
 * is not read. This and what calls it is where a large delivery takes its time. */
static inline const char *number_read(struct range range, const char *from, const char *end,
                                      int64_t *value) {
    enum { SAFE_DIGITS = 19 }; /* so many fit into 64 bits */
    bool is_negative = from < end && *from == '-';
    const char *first = from + is_negative, *at = first;
    const char *safe = end - first > SAFE_DIGITS ? first + SAFE_DIGITS : end;
    uint64_t read = 0;
    for (; at < safe && is_digit(*at); at++) {
        read = read * 10 + (uint64_t)(*at - '0');
    }
    for (; at < end && is_digit(*at); at++) {
        uint64_t digit = (uint64_t)(*at - '0');
        if (read > (UINT64_MAX - digit) / 10) {
            return NULL;
        }
        read = read * 10 + digit;
    }
    *value = (int64_t)(is_negative ? 0 - read : read);
    return at == first || read > (is_negative ? range.below : range.above) ? NULL : at;
}

/* `into` becomes what the operation makes of `from` and `into`, in this order. */
void element_reduce(enum operation operation, enum element element, const void *from, void *into);

/* Whether a type takes an operation. */
bool takes_operation(MPI_Datatype type, MPI_Op op);

#endif
