/* The beginning and the end of a session, its label, and what a process knows of itself. */
#include <stdio.h>
#include <stdlib.h>
#include <string.h>
#include <time.h>
#include <unistd.h>

#include "comms.h"
#include "errors.h"
#include "labels.h"
#include "resume.h"

static enum { NOT_YET, RUNNING, ENDED } state;
static int level;
static char label[MPIX_MAX_NAME] = "public";

const char *label_of_process(void) { return label; }

static bool is_name(const char *name) {
    size_t length = strlen(name);
    bool is_good = length > 0 && length < MPIX_MAX_NAME;
    for (size_t i = 0; i < length && is_good; i++) {
        is_good = strchr("abcdefghijklmnopqrstuvwxyz0123456789_-", name[i]) != NULL;
    }
    return is_good && name[0] >= 'a' && name[0] <= 'z';
}

int MPIX_Set_label(const char *name) {
    if (name == NULL || !is_name(name)) {
        return raised(NULL, MPI_ERR_ARG, __func__);
    }
    strcpy(label, name);
    return MPI_SUCCESS;
}

int MPIX_Get_label(char *name) {
    strcpy(name, label);
    return MPI_SUCCESS;
}

static int failed(const char *what) {
    fprintf(stderr, "consortium: MPI_Init: %s\n", what);
    return raised(NULL, MPIX_ERR_GONE, "MPI_Init");
}

static int begin(void) {
    const char *folder = getenv("CONSORTIUM_DIR"), *name = getenv("CONSORTIUM_PROCESS");
    const char *given = getenv("CONSORTIUM_LABEL");
    struct reply reply;
    if (state != NOT_YET) {
        return raised(NULL, MPI_ERR_OTHER, "MPI_Init");
    }
    if (folder == NULL || name == NULL) {
        return failed("CONSORTIUM_DIR and CONSORTIUM_PROCESS name the folder of the pipes and the "
                      "process; clients/consortium-mpiexec sets them");
    }
    if (given != NULL && *given != '\0') {
        if (!is_name(given)) {
            return failed("CONSORTIUM_LABEL is no label");
        }
        strcpy(label, given);
    }
    int code = resume_begin(folder, name);
    if (code == MPI_SUCCESS && !resume_is_meant()) {
        session_close();
        return failed("an earlier program of this process has posted: one that goes on where it "
                      "died calls MPIX_Resume first");
    }
    if (code == MPI_SUCCESS) {
        code = session_ask(&reply, "info 0");
    }
    if (code == MPI_SUCCESS &&
        (reply.answer != INFO || reply.rank >= reply.size || reply.size > MOST_MEMBERS)) {
        code = MPI_ERR_INTERN;
    }
    if (code == MPI_SUCCESS) {
        code = comms_begin((int)reply.rank, (int)reply.size);
    }
    state = code == MPI_SUCCESS ? RUNNING : state;
    return raised(NULL, code, "MPI_Init");
}

int MPI_Init_thread(int *count, char ***words, int wanted, int *provided) {
    (void)count;
    (void)words;
    level = wanted > MPI_THREAD_SERIALIZED ? MPI_THREAD_SERIALIZED : wanted;
    *provided = level;
    return begin();
}

int MPI_Init(int *count, char ***words) {
    int provided;
    return MPI_Init_thread(count, words, MPI_THREAD_SINGLE, &provided);
}

int MPI_Finalize(void) {
    if (state != RUNNING) {
        return raised(NULL, MPI_ERR_OTHER, __func__);
    }
    int code = attributes_drop(MPI_COMM_SELF);
    if (code == MPI_SUCCESS) {
        code = attributes_drop(MPI_COMM_WORLD);
    }
    session_leave();
    comms_end();
    state = ENDED;
    return code;
}

int MPI_Initialized(int *flag) {
    *flag = state != NOT_YET;
    return MPI_SUCCESS;
}

int MPI_Finalized(int *flag) {
    *flag = state == ENDED;
    return MPI_SUCCESS;
}

int MPI_Query_thread(int *provided) {
    *provided = level;
    return MPI_SUCCESS;
}

/* Threads take turns, so the library never sees which is the first. */
int MPI_Is_thread_main(int *flag) {
    *flag = 1;
    return MPI_SUCCESS;
}

int MPI_Abort(MPI_Comm comm, int code) {
    (void)comm;
    fflush(NULL);
    fprintf(stderr, "consortium: MPI_Abort: %d\n", code);
    _exit(code > 0 && code < 256 ? code : 1);
}

double MPI_Wtime(void) {
    struct timespec now;
    clock_gettime(CLOCK_MONOTONIC, &now);
    return (double)now.tv_sec + (double)now.tv_nsec * 1e-9;
}

double MPI_Wtick(void) { return 1e-9; }

int MPI_Get_version(int *version, int *subversion) {
    *version = MPI_VERSION;
    *subversion = MPI_SUBVERSION;
    return MPI_SUCCESS;
}

int MPI_Get_library_version(char *text, int *length) {
    strcpy(text, "consortium: MPI over the pipes of consortium serve");
    *length = (int)strlen(text);
    return MPI_SUCCESS;
}

int MPI_Get_processor_name(char *name, int *length) {
    gethostname(name, MPI_MAX_PROCESSOR_NAME);
    name[MPI_MAX_PROCESSOR_NAME - 1] = '\0';
    *length = (int)strlen(name);
    return MPI_SUCCESS;
}

int MPI_Pcontrol(const int wanted, ...) {
    (void)wanted;
    return MPI_SUCCESS;
}

int MPI_Alloc_mem(MPI_Aint size, MPI_Info info, void *memory) {
    (void)info;
    void *room = size < 0 ? NULL : malloc(size > 0 ? (size_t)size : 1);
    *(void **)memory = room;
    return raised(NULL, room == NULL ? MPI_ERR_NO_MEM : MPI_SUCCESS, __func__);
}

int MPI_Free_mem(void *memory) {
    free(memory);
    return MPI_SUCCESS;
}

int MPI_Get_address(const void *place, MPI_Aint *address) {
    *address = (MPI_Aint)place;
    return MPI_SUCCESS;
}

static int comm_number(MPI_Comm comm, int number, int *to, const char *function) {
    if (!comm_is_good(comm)) {
        return raised(comm, state == RUNNING ? MPI_ERR_COMM : MPI_ERR_OTHER, function);
    }
    *to = number;
    return MPI_SUCCESS;
}

int MPI_Comm_rank(MPI_Comm comm, int *rank) {
    return comm_number(comm, comm->rank, rank, __func__);
}

int MPI_Comm_size(MPI_Comm comm, int *size) {
    return comm_number(comm, comm->size, size, __func__);
}

/* There is none that reaches from one group to another. */
int MPI_Comm_test_inter(MPI_Comm comm, int *flag) { return comm_number(comm, 0, flag, __func__); }

int MPI_Comm_get_parent(MPI_Comm *parent) {
    *parent = MPI_COMM_NULL;
    return MPI_SUCCESS;
}

int MPI_Comm_set_info(MPI_Comm comm, MPI_Info info) {
    (void)info; /* no hint has a meaning here */
    return comm_is_good(comm) ? MPI_SUCCESS : raised(comm, MPI_ERR_COMM, __func__);
}

int MPI_Comm_get_info(MPI_Comm comm, MPI_Info *info) {
    if (!comm_is_good(comm)) {
        return raised(comm, MPI_ERR_COMM, __func__);
    }
    return comm->info == NULL ? MPI_Info_create(info) : MPI_Info_dup(comm->info, info);
}
