/* Errors: classes, handlers, and the denial that was last. */
#ifndef CONSORTIUM_ERRORS_H
#define CONSORTIUM_ERRORS_H

#include "objects.h"
#include "reply.h"

/* Hands an error to the handler of `comm`, or of the world where that is none; gives the code. */
int raised(MPI_Comm comm, int code, const char *function);

/* What a function answers that has no place here. */
int unsupported(MPI_Comm comm, const char *function);

/* The class of a reply that is no outcome, and of one that is none that is known. What it said is
 * kept for the message. */
int class_of_reply(const struct reply *reply);

void remember_denial(const struct reply *reply);

/* `code` is a class that this file or the program knows. */
bool error_is_known(int code);

#endif
