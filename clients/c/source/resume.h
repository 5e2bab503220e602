/* What earlier programs of this process have left. */
#ifndef CONSORTIUM_RESUME_H
#define CONSORTIUM_RESUME_H

#include "session.h"

/* Opens the session, and says what there was before: an error class. */
int resume_begin(const char *folder, const char *name);
/* Whether this program may go on: no earlier one has posted, or it has said that it resumes. */
bool resume_is_meant(void);

#endif
