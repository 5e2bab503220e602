/* Communicators and groups. */
#ifndef CONSORTIUM_COMMS_H
#define CONSORTIUM_COMMS_H

#include "collective.h"

void comm_retain(MPI_Comm comm);
void comm_release(MPI_Comm comm);
bool comm_is_good(MPI_Comm comm);
/* The world and this process alone, as a session begins. */
int comms_begin(int rank, int size);
void comms_end(void);

/* Makes a communicator as the server's reply and the request's plan say: an error class. */
int comm_settle(struct ompi_request_t *request, const struct reply *reply);
/* Posts a constructor's line, waits for it, and gives the communicator. The plan goes with it. */
int comm_construct(MPI_Comm comm, const char *line, struct plan *plan, MPI_Comm *made);
struct plan *plan_new(MPI_Group group, struct grid *grid);
void plan_free(struct plan *plan);

/* A group with room for `size` members; NULL without memory. */
MPI_Group group_new(int size);
void group_release(MPI_Group group);
int group_rank_of(MPI_Group group, int member);
/* This process, as a member. */
int own_member(void);

struct grid *grid_new(int dimensions, const int *sides, const int *is_periodic);
void grid_free(struct grid *grid);

/* Attributes: of a communicator that is duplicated, and of one that goes. */
int attributes_copy(MPI_Comm from, MPI_Comm to);
int attributes_drop(MPI_Comm comm);
void type_attributes_drop(MPI_Datatype type);
int type_attributes_copy(MPI_Datatype from, MPI_Datatype to);

#endif
