/* A program that goes on where an earlier one of its process has died. */
#include "resume.h"

#include "collective.h"
#include "errors.h"

static bool is_meant;
static struct past past;
/* Which of the requests were handed out. */
static bool is_given[MOST_REQUESTS];

int resume_begin(const char *folder, const char *name) { return session_open(folder, name, &past); }

bool resume_is_meant(void) { return is_meant || session_next_request() == 0; }

int MPIX_Resume(void) {
    int is_begun;
    MPI_Initialized(&is_begun);
    if (is_begun) {
        return raised(NULL, MPI_ERR_OTHER, __func__);
    }
    is_meant = true;
    return MPI_SUCCESS;
}

int MPIX_Posts(MPI_Count *posts) {
    *posts = (MPI_Count)session_next_request();
    return raised(NULL, session_check(), __func__);
}

int MPIX_Resumed(int *open) {
    *open = past.open;
    return raised(NULL, session_check(), __func__);
}

int MPIX_Resumed_request(int index, MPI_Count *number, void *buffer, int count, MPI_Datatype type,
                         MPI_Request *request) {
    int code = session_check();
    if (code == MPI_SUCCESS) {
        bool is_there = index >= 0 && index < past.open && !is_given[index];
        code = !is_there ? MPI_ERR_REQUEST : count < 0 ? MPI_ERR_COUNT : MPI_SUCCESS;
    }
    if (code == MPI_SUCCESS) {
        bool is_type = type != NULL && type != MPI_DATATYPE_NULL && type->is_committed;
        code = is_type && type->element != OPAQUE ? MPI_SUCCESS : MPI_ERR_TYPE;
    }
    if (code != MPI_SUCCESS) {
        return raised(NULL, code, __func__);
    }
    struct side side = {.buffer = buffer, .count = count, .type = type};
    MPI_Request made = request_new(&(struct call){.get = side, .comm = MPI_COMM_WORLD});
    if (made == NULL) {
        return raised(NULL, MPI_ERR_NO_MEM, __func__);
    }
    made->is_resumed = is_given[index] = true;
    made->state = REQUEST_POSTED;
    made->number = past.requests[index];
    made->posted = 1;
    *number = (MPI_Count)made->number;
    *request = made;
    return MPI_SUCCESS;
}
