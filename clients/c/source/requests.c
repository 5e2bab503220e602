/* Requests: what starts, waits for and tests them. */
#include <stdlib.h>
#include <time.h>

#include "blocks.h"
#include "collective.h"
#include "comms.h"
#include "errors.h"
#include "types.h"

enum { SHORTEST_SLEEP = 20000, LONGEST_SLEEP = 2000000 }; /* nanoseconds */

static bool is_null(MPI_Request request) { return request == NULL || request == MPI_REQUEST_NULL; }

static bool is_active(MPI_Request request) {
    return !is_null(request) && request->state != REQUEST_IDLE;
}

/* Holds the types of a side, which the program may free before the call has ended. Those of a side
 * that this process has no part in may be anything. */
static void hold_side(const struct call *call, const struct side *side,
                      void (*hold)(MPI_Datatype)) {
    const struct kind *kind = call->kind;
    bool is_given = side == &call->give;
    if (kind == NULL && side->type != NULL) {
        hold(side->type);
    }
    if (kind == NULL || side->buffer == MPI_IN_PLACE ||
        !takes_part(is_given ? kind->giver : kind->getter, call)) {
        return;
    }
    int blocks =
        side->types == NULL ? 0 : block_count(is_given ? kind->gives : kind->gets, call->comm);
    for (int block = 0; block < blocks; block++) {
        hold(side->types[block]);
    }
    if (side->types == NULL) {
        hold(side->type);
    }
}

MPI_Request request_new(const struct call *call) {
    MPI_Request request = calloc(1, sizeof *request);
    if (request != NULL) {
        request->call = *call;
        comm_retain(call->comm);
        hold_side(&request->call, &request->call.give, type_retain);
        hold_side(&request->call, &request->call.get, type_retain);
    }
    return request;
}

void request_release(MPI_Request request) {
    hold_side(&request->call, &request->call.give, type_release);
    hold_side(&request->call, &request->call.get, type_release);
    comm_release(request->call.comm);
    plan_free(request->plan);
    free(request);
}

static int begin(struct call *call, MPI_Request *request, bool is_persistent) {
    int checked = call_check(call);
    if (checked != MPI_SUCCESS) {
        return checked;
    }
    MPI_Request made = request_new(call);
    if (made == NULL) {
        return MPI_ERR_NO_MEM;
    }
    made->is_persistent = is_persistent;
    int code = is_persistent ? MPI_SUCCESS : call_post(made);
    if (code == MPI_SUCCESS) {
        *request = made;
    } else {
        request_release(made);
    }
    return code;
}

int nonblocking(struct call *call, MPI_Request *request, const char *function) {
    return raised(call->comm, begin(call, request, false), function);
}

int persistent(struct call *call, MPI_Request *request, const char *function) {
    return raised(call->comm, begin(call, request, true), function);
}

int MPI_Start(MPI_Request *request) {
    if (is_null(*request) || !(*request)->is_persistent || is_active(*request)) {
        return raised(NULL, MPI_ERR_REQUEST, __func__);
    }
    return raised((*request)->call.comm, call_post(*request), __func__);
}

int MPI_Startall(int count, MPI_Request *requests) {
    int code = MPI_SUCCESS;
    for (int i = 0; i < count && code == MPI_SUCCESS; i++) {
        code = MPI_Start(&requests[i]);
    }
    return code;
}

int MPI_Request_free(MPI_Request *request) {
    /* One that is active belongs to a collective, and MPI has no way to free that. */
    if (is_null(*request) || is_active(*request)) {
        return raised(NULL, MPI_ERR_REQUEST, __func__);
    }
    request_release(*request);
    *request = MPI_REQUEST_NULL;
    return MPI_SUCCESS;
}

/* Asks the server for the outcome of each piece, by a take or a wait. */
static int ask(MPI_Request request, const char *verb) {
    struct reply reply;
    while (request->state == REQUEST_POSTED) {
        uint64_t number = request->number + (uint64_t)request->call.piece;
        int code = session_ask(&reply, "%s %llu", verb, (unsigned long long)number);
        if (code != MPI_SUCCESS) {
            request->state = REQUEST_DONE;
            request->error = code;
        } else if (reply.answer == PENDING) {
            return MPIX_ERR_STUCK;
        } else {
            call_settle(request, &reply);
        }
    }
    return MPI_SUCCESS;
}

int request_wait(MPI_Request request) {
    int code = ask(request, "wait");
    return code == MPI_SUCCESS ? request->error : code;
}

static bool is_done(MPI_Request request) {
    if (is_active(request)) {
        ask(request, "take");
    }
    return !is_active(request) || request->state == REQUEST_DONE;
}

/* The status of a collective is empty, but for one that is resumed. A call for one request leaves
 * its error field as it is. */
static void set_status(MPI_Status *status, size_t bytes) {
    if (status != MPI_STATUS_IGNORE) {
        *status = (MPI_Status){MPI_ANY_SOURCE, MPI_ANY_TAG, status->MPI_ERROR, 0, bytes};
    }
}

static void set_full_status(MPI_Status *status, int code, size_t bytes) {
    if (status != MPI_STATUS_IGNORE) {
        *status = (MPI_Status){MPI_ANY_SOURCE, MPI_ANY_TAG, code, 0, bytes};
    }
}

/* What a status tells of it. */
static size_t bytes_of(MPI_Request request) { return is_active(request) ? request->bytes : 0; }

/* Ends a request that is done: what came of it. */
static int end(MPI_Request *request) {
    int code = MPI_SUCCESS;
    if (is_active(*request)) {
        code = (*request)->error;
        (*request)->state = REQUEST_IDLE;
        (*request)->error = MPI_SUCCESS;
        if (!(*request)->is_persistent) {
            request_release(*request);
            *request = MPI_REQUEST_NULL;
        }
    }
    return code;
}

static MPI_Comm comm_of(MPI_Request request) {
    return is_null(request) ? NULL : request->call.comm;
}

/* The communicator may go with the request, so an error is raised before the end. */
static int told(MPI_Request *request, MPI_Status *status, const char *function) {
    MPI_Comm comm = comm_of(*request);
    if (comm != NULL) {
        comm_retain(comm);
    }
    set_status(status, bytes_of(*request));
    int code = raised(comm, end(request), function);
    if (comm != NULL) {
        comm_release(comm);
    }
    return code;
}

int MPI_Wait(MPI_Request *request, MPI_Status *status) {
    int code = is_active(*request) ? ask(*request, "wait") : MPI_SUCCESS;
    return code == MPI_SUCCESS ? told(request, status, __func__)
                               : raised(comm_of(*request), code, __func__);
}

int MPI_Test(MPI_Request *request, int *flag, MPI_Status *status) {
    *flag = is_done(*request);
    return *flag ? told(request, status, __func__) : MPI_SUCCESS;
}

int MPI_Request_get_status(MPI_Request request, int *flag, MPI_Status *status) {
    *flag = is_done(request);
    if (*flag) {
        set_status(status, bytes_of(request));
    }
    return MPI_SUCCESS;
}

/* Ends all requests, which are done or are waited for, and tells which failed. */
static int end_all(int count, MPI_Request *requests, MPI_Status *statuses, const char *function) {
    bool has_failed = false;
    for (int i = 0; i < count; i++) {
        int code = is_active(requests[i]) ? ask(requests[i], "wait") : MPI_SUCCESS;
        MPI_Status *status = statuses == MPI_STATUSES_IGNORE ? MPI_STATUS_IGNORE : &statuses[i];
        size_t bytes = bytes_of(requests[i]);
        code = code == MPI_SUCCESS ? end(&requests[i]) : code;
        set_full_status(status, code, bytes);
        has_failed |= code != MPI_SUCCESS;
    }
    return raised(NULL, has_failed ? MPI_ERR_IN_STATUS : MPI_SUCCESS, function);
}

int MPI_Waitall(int count, MPI_Request *requests, MPI_Status *statuses) {
    return end_all(count, requests, statuses, __func__);
}

int MPI_Testall(int count, MPI_Request *requests, int *flag, MPI_Status *statuses) {
    *flag = 1;
    for (int i = 0; i < count; i++) {
        *flag &= is_done(requests[i]);
    }
    return *flag ? end_all(count, requests, statuses, __func__) : MPI_SUCCESS;
}

/* The first request that is done; MPI_UNDEFINED where none is. `left` tells how many are active. */
static int first_done(int count, MPI_Request *requests, int *left) {
    *left = 0;
    for (int i = 0; i < count; i++) {
        if (is_active(requests[i])) {
            (*left)++;
            if (is_done(requests[i])) {
                return i;
            }
        }
    }
    return MPI_UNDEFINED;
}

/* The one that is done first: where all are of one communicator, the one that was posted first, since
 * each member posts its collectives in the same order. MPI_UNDEFINED where they are of several, or
 * an earlier program's, which may be of any. */
static int first_to_end(int count, MPI_Request *requests) {
    int first = MPI_UNDEFINED;
    for (int i = 0; i < count; i++) {
        if (!is_active(requests[i])) {
            continue;
        }
        if (first != MPI_UNDEFINED && (requests[i]->call.comm != requests[first]->call.comm ||
                                       requests[i]->is_resumed || requests[first]->is_resumed)) {
            return MPI_UNDEFINED;
        }
        if (first == MPI_UNDEFINED || requests[i]->number < requests[first]->number) {
            first = i;
        }
    }
    return first;
}

/* Until one of the requests is done. The server can wait for one only, so where any may be the first
 * they are looked at after longer and longer sleeps. */
static int wait_for_one(int count, MPI_Request *requests, int *index) {
    long sleep = SHORTEST_SLEEP;
    for (int left;; sleep = 2 * sleep < LONGEST_SLEEP ? 2 * sleep : LONGEST_SLEEP) {
        *index = first_done(count, requests, &left);
        if (*index != MPI_UNDEFINED || left == 0) {
            return MPI_SUCCESS;
        }
        *index = first_to_end(count, requests);
        if (*index != MPI_UNDEFINED) {
            return ask(requests[*index], "wait");
        }
        nanosleep(&(struct timespec){0, sleep}, NULL);
    }
}

int MPI_Waitany(int count, MPI_Request *requests, int *index, MPI_Status *status) {
    int code = wait_for_one(count, requests, index);
    if (code == MPI_SUCCESS && *index != MPI_UNDEFINED) {
        return told(&requests[*index], status, __func__);
    }
    set_status(status, 0);
    return raised(NULL, code, __func__);
}

int MPI_Testany(int count, MPI_Request *requests, int *index, int *flag, MPI_Status *status) {
    int left;
    *index = first_done(count, requests, &left);
    *flag = left == 0 || *index != MPI_UNDEFINED;
    if (*index != MPI_UNDEFINED) {
        return told(&requests[*index], status, __func__);
    }
    if (*flag) {
        set_status(status, 0);
    }
    return MPI_SUCCESS;
}

/* All that are done: how many, and which. */
static int some(int count, MPI_Request *requests, int *done, int *indices, MPI_Status *statuses,
                const char *function) {
    bool has_failed = false, is_any = false;
    *done = 0;
    for (int i = 0; i < count; i++) {
        if (!is_active(requests[i])) {
            continue;
        }
        is_any = true;
        if (is_done(requests[i])) {
            bool is_ignored = statuses == MPI_STATUSES_IGNORE;
            size_t bytes = bytes_of(requests[i]);
            int code = end(&requests[i]);
            set_full_status(is_ignored ? MPI_STATUS_IGNORE : &statuses[*done], code, bytes);
            has_failed |= code != MPI_SUCCESS;
            indices[(*done)++] = i;
        }
    }
    *done = is_any ? *done : MPI_UNDEFINED;
    return raised(NULL, has_failed ? MPI_ERR_IN_STATUS : MPI_SUCCESS, function);
}

int MPI_Waitsome(int count, MPI_Request *requests, int *done, int *indices, MPI_Status *statuses) {
    int index, code = wait_for_one(count, requests, &index);
    return code == MPI_SUCCESS ? some(count, requests, done, indices, statuses, __func__)
                               : raised(NULL, code, __func__);
}

int MPI_Testsome(int count, MPI_Request *requests, int *done, int *indices, MPI_Status *statuses) {
    return some(count, requests, done, indices, statuses, __func__);
}
