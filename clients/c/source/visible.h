/* What mpi.h names is what the library exports; all else is its own. */
#pragma GCC visibility push(default)
#include "mpi.h"
#pragma GCC visibility pop
