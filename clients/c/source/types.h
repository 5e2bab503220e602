/* Data in memory, as its type lays it out. */
#ifndef CONSORTIUM_TYPES_H
#define CONSORTIUM_TYPES_H

#include "objects.h"
#include "session.h"

void type_retain(MPI_Datatype type);
void type_release(MPI_Datatype type);

/* A place in a buffer of `count` items of a type, which goes from span to span. */
struct place {
    char *item;
    MPI_Count left; /* items that are still to come, this one included */
    MPI_Datatype type;
    size_t run;
    MPI_Count skipped, most; /* elements that are passed over first, and how many come at most */
};
struct place place_first(void *buffer, MPI_Count count, MPI_Datatype type);
/* Cuts a first place to `most` elements from the element `first` on. */
void place_cut(struct place *place, MPI_Count first, MPI_Count most);
/* The next elements that stand one behind the other: how many, and the run that they are of. NULL
 * behind the last. */
char *place_span(struct place *place, const struct run **run, MPI_Count *count);

#endif
