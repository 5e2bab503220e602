/* Random cases that any MPI library can run: what it prints is to be the same over each. */
#ifndef CASES_H
#define CASES_H

#include <mpi.h>
#include <stdint.h>
#include <stdio.h>
#include <stdlib.h>
#include <string.h>

enum { ROOM = 1 << 16, MOST_COMMS = 8, MOST_TESTED = 64 };

/* MPICH is asked for values; its errors, and what it tells of types, are its own. Where 4.0.2 does
 * otherwise than MPI says, the cases pass over it. */
#ifdef MPICH_NAME
enum { IS_MPICH = 1 };
#else
enum { IS_MPICH = 0 };
#endif

/* Numbers that are the same in all processes, but where `rank` goes into them. */
struct dice {
    uint64_t state;
};
uint64_t mixed(uint64_t one, uint64_t other);
int throw(struct dice *dice, int below);

/* A type that the numbers of a call have, in one of three layouts of two elements, or bare. */
struct form {
    MPI_Datatype base, type;
    int per_item; /* elements in an item of `type` */
};
MPI_Datatype base_type(struct dice *dice);
MPI_Datatype number_type(struct dice *dice);
/* Some layout of a base type; `form_drop` frees it. */
struct form form_of(MPI_Datatype base, struct dice *dice);
void form_drop(struct form *form);
/* An operation that the type takes, or MPI_OP_NULL. */
MPI_Op operation(MPI_Datatype base, struct dice *dice);
int has_no_sign(MPI_Datatype base);

/* Fills a buffer, with 0 and 1 for booleans, and tells what is in it. */
void fill(void *buffer, size_t size, uint64_t seed, MPI_Datatype base);
void tell(const char *what, const void *buffer, size_t size);

/* A rank, or -2 for MPI_PROC_NULL, whose number is each library's own. */
int shown_rank(int rank);

/* The kinds of cases. Each is given a communicator that this process is in. */
void try_collective(MPI_Comm comm, struct dice dice);
void try_reduction(MPI_Comm comm, struct dice dice);
void try_neighbours(MPI_Comm comm, struct dice dice);
void try_requests(MPI_Comm comm, struct dice dice);
void try_groups(MPI_Comm comm, struct dice dice);
void try_grid(MPI_Comm comm, struct dice dice);
void try_types(struct dice dice);
void try_errors(MPI_Comm comm, struct dice dice);
void try_objects(MPI_Comm comm, struct dice dice);

#endif
