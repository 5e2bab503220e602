/* The blocks of a call: what goes from one rank to one place. */
#ifndef CONSORTIUM_BLOCKS_H
#define CONSORTIUM_BLOCKS_H

#include "collective.h"

struct region {
    char *at;
    MPI_Count count;
    MPI_Datatype type;
};

MPI_Count number_at(struct numbers numbers, int place);
/* How many blocks a shape has on a communicator. */
int block_count(enum shape shape, MPI_Comm comm);
/* Whether this process is one of those that give or get. */
bool takes_part(enum who who, const struct call *call);
struct region given_block(const struct call *call, int block);
struct region gotten_block(const struct call *call, int block);
/* The element that a call travels as, and the numbers of the wire that a region has: where each
 * block has a type of its own, all travel as int64. */
enum element wire_element(const struct call *call);
MPI_Count region_count(const struct call *call, struct region region);

/* Into how many pieces a call is cut, so that none gives more than one post can: 0 where it gives
 * more, and is not cut. */
MPI_Count piece_count(const struct call *call);
/* The numbers of a region that are in the piece at hand: how many, and how many are before them. */
struct part {
    MPI_Count first, count;
};
struct part region_part(const struct call *call, struct region region);
/* Whether all arguments are as MPI wants them: an error class. */
int call_check(const struct call *call);

#endif
