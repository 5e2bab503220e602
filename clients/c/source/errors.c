/* Errors: classes, handlers, and the denial that was last. */
#include "errors.h"

#include <stdio.h>
#include <stdlib.h>
#include <string.h>

#include "session.h"

enum { MOST_OWN_ERRORS = 256 };

static struct { char rule[MPIX_MAX_NAME], process[MPIX_MAX_NAME], label[MPIX_MAX_NAME]; } denial;
static char reason[MPIX_MAX_NAME];

/* Errors that the program adds, from the last predefined code on. */
static struct {
    int class;
    char text[MPI_MAX_ERROR_STRING];
} own[MOST_OWN_ERRORS];
static int own_count;

static const char *const TEXTS[] = {
    [MPI_SUCCESS] = "no error",
    [MPI_ERR_BUFFER] = "invalid buffer",
    [MPI_ERR_COUNT] = "invalid count",
    [MPI_ERR_TYPE] = "invalid type: the server carries whole numbers",
    [MPI_ERR_TAG] = "invalid tag",
    [MPI_ERR_COMM] = "invalid communicator",
    [MPI_ERR_RANK] = "invalid rank",
    [MPI_ERR_REQUEST] = "invalid request",
    [MPI_ERR_ROOT] = "invalid root",
    [MPI_ERR_GROUP] = "invalid group",
    [MPI_ERR_OP] = "invalid operation",
    [MPI_ERR_TOPOLOGY] = "invalid topology",
    [MPI_ERR_DIMS] = "invalid dimensions",
    [MPI_ERR_ARG] = "invalid argument",
    [MPI_ERR_UNKNOWN] = "unknown error",
    [MPI_ERR_TRUNCATE] = "more was sent than there is room for",
    [MPI_ERR_OTHER] = "MPI is not running: before MPI_Init, or after MPI_Finalize",
    [MPI_ERR_INTERN] = "the server's reply is none",
    [MPI_ERR_IN_STATUS] = "the error is in the status",
    [MPI_ERR_PENDING] = "pending",
    [MPI_ERR_INFO_KEY] = "invalid info key",
    [MPI_ERR_INFO_NOKEY] = "no such info key",
    [MPI_ERR_INFO_VALUE] = "invalid info value",
    [MPI_ERR_INFO] = "invalid info object",
    [MPI_ERR_KEYVAL] = "invalid keyval",
    [MPI_ERR_NO_MEM] = "no memory",
    [MPI_ERR_NOT_SAME] = "another member stated another collective, or other arguments",
    [MPI_ERR_NO_SPACE] = "too many communicators or requests",
    [MPI_ERR_UNSUPPORTED_OPERATION] = "not supported behind the wall",
    [MPI_ERR_WIN] = "invalid window",
    [MPI_ERR_FILE] = "invalid file",
    [MPIX_ERR_STUCK] = "stuck: every other process has left or waits too",
    [MPIX_ERR_GONE] = "the server has ended the session, or cannot be reached",
    [MPI_ERR_LASTCODE] = NULL,
};

void remember_denial(const struct reply *reply) {
    memcpy(denial.rule, reply->rule, sizeof denial.rule);
    memcpy(denial.process, reply->process, sizeof denial.process);
    memcpy(denial.label, reply->label, sizeof denial.label);
}

int MPIX_Denial_get(char *rule, char *process, char *label) {
    strcpy(rule, denial.rule);
    strcpy(process, denial.process);
    strcpy(label, denial.label);
    return MPI_SUCCESS;
}

int class_of_reply(const struct reply *reply) {
    static const struct {
        const char *reason;
        int class;
    } REASONS[] = {
        {"NoSuchComm", MPI_ERR_COMM},
        {"NotMember", MPI_ERR_COMM},
        {"NoTopology", MPI_ERR_TOPOLOGY},
        {"BadRoot", MPI_ERR_ROOT},
        {"BadOp", MPI_ERR_OP},
        {"BadCount", MPI_ERR_COUNT},
        {"BadColour", MPI_ERR_ARG},
        {"NotSubgroup", MPI_ERR_GROUP},
        {"BadDims", MPI_ERR_DIMS},
        {"Mismatch", MPI_ERR_NOT_SAME},
        {"NoMemory", MPI_ERR_NO_MEM},
        {"TooManyRequests", MPI_ERR_NO_SPACE},
        {"BadLabel", MPI_ERR_ARG},
    };
    switch (reply->answer) {
    case PENDING: return MPIX_ERR_STUCK;
    case NO_ROOM: return MPI_ERR_NO_SPACE;
    case DENIED: remember_denial(reply); return MPIX_ERR_DENIED;
    case REFUSED:
    case BAD: break;
    default: return MPI_ERR_INTERN;
    }
    memcpy(reason, reply->reason, sizeof reason);
    for (size_t i = 0; i < sizeof REASONS / sizeof *REASONS; i++) {
        if (strcmp(reply->reason, REASONS[i].reason) == 0) {
            return REASONS[i].class;
        }
    }
    return MPI_ERR_INTERN;
}

bool error_is_known(int code) { return code >= 0 && code <= MPI_ERR_LASTCODE + own_count; }

static void text_of(int code, char *text) {
    if (code > MPI_ERR_LASTCODE) {
        memcpy(text, own[code - MPI_ERR_LASTCODE - 1].text, MPI_MAX_ERROR_STRING);
    } else if (code == MPIX_ERR_DENIED) {
        snprintf(text, MPI_MAX_ERROR_STRING, "denied: %s rule, process %s, label %s", denial.rule,
                 denial.process, denial.label);
    } else {
        const char *known = TEXTS[code];
        snprintf(text, MPI_MAX_ERROR_STRING, "%s", known == NULL ? "another error" : known);
    }
}

int raised(MPI_Comm comm, int code, const char *function) {
    if (code == MPI_SUCCESS) {
        return code;
    }
    MPI_Comm whose = comm == NULL || comm == MPI_COMM_NULL ? MPI_COMM_WORLD : comm;
    MPI_Errhandler handler = whose->handler;
    if (handler->does == HANDLER_FATAL) {
        char text[MPI_MAX_ERROR_STRING];
        text_of(code, text);
        fprintf(stderr, "consortium: %s: %s%s%s%s\n", function, text, reason[0] ? " (" : "", reason,
                reason[0] ? ")" : "");
        exit(code > 255 ? 255 : code);
    }
    reason[0] = '\0';
    if (handler->does == HANDLER_CALL) {
        handler->function(&whose, &code, function, NULL);
    }
    return code;
}

int unsupported(MPI_Comm comm, const char *function) {
    return raised(comm, MPI_ERR_UNSUPPORTED_OPERATION, function);
}

int MPI_Error_class(int code, int *class) {
    if (!error_is_known(code)) {
        return raised(NULL, MPI_ERR_ARG, __func__);
    }
    *class = code > MPI_ERR_LASTCODE ? own[code - MPI_ERR_LASTCODE - 1].class : code;
    return MPI_SUCCESS;
}

int MPI_Error_string(int code, char *text, int *length) {
    if (!error_is_known(code)) {
        return raised(NULL, MPI_ERR_ARG, __func__);
    }
    text_of(code, text);
    *length = (int)strlen(text);
    return MPI_SUCCESS;
}

static int add_error(int class, int *code, const char *function) {
    if (own_count == MOST_OWN_ERRORS) {
        return raised(NULL, MPI_ERR_INTERN, function);
    }
    *code = MPI_ERR_LASTCODE + 1 + own_count;
    own[own_count].class = class < 0 ? *code : class;
    own_count++;
    return MPI_SUCCESS;
}

int MPI_Add_error_class(int *class) { return add_error(-1, class, __func__); }

int MPI_Add_error_code(int class, int *code) {
    if (!error_is_known(class)) {
        return raised(NULL, MPI_ERR_ARG, __func__);
    }
    return add_error(class, code, __func__);
}

int MPI_Add_error_string(int code, const char *text) {
    if (code <= MPI_ERR_LASTCODE || !error_is_known(code)) {
        return raised(NULL, MPI_ERR_ARG, __func__);
    }
    snprintf(own[code - MPI_ERR_LASTCODE - 1].text, MPI_MAX_ERROR_STRING, "%s", text);
    return MPI_SUCCESS;
}

int MPI_Comm_create_errhandler(MPI_Comm_errhandler_function *function, MPI_Errhandler *handler) {
    MPI_Errhandler made = calloc(1, sizeof *made);
    if (made == NULL) {
        return raised(NULL, MPI_ERR_NO_MEM, __func__);
    }
    *made = (struct ompi_errhandler_t){HANDLER_CALL, 1, function};
    *handler = made;
    return MPI_SUCCESS;
}

static void release(MPI_Errhandler handler) {
    if (handler->does == HANDLER_CALL && --handler->references == 0) {
        free(handler);
    }
}

int MPI_Errhandler_free(MPI_Errhandler *handler) {
    if (*handler == MPI_ERRHANDLER_NULL) {
        return raised(NULL, MPI_ERR_ARG, __func__);
    }
    release(*handler);
    *handler = MPI_ERRHANDLER_NULL;
    return MPI_SUCCESS;
}

int MPI_Comm_set_errhandler(MPI_Comm comm, MPI_Errhandler handler) {
    if (comm == MPI_COMM_NULL || handler == MPI_ERRHANDLER_NULL) {
        return raised(comm, comm == MPI_COMM_NULL ? MPI_ERR_COMM : MPI_ERR_ARG, __func__);
    }
    handler->references++;
    release(comm->handler);
    comm->handler = handler;
    return MPI_SUCCESS;
}

int MPI_Comm_get_errhandler(MPI_Comm comm, MPI_Errhandler *handler) {
    if (comm == MPI_COMM_NULL) {
        return raised(comm, MPI_ERR_COMM, __func__);
    }
    comm->handler->references++;
    *handler = comm->handler;
    return MPI_SUCCESS;
}

int MPI_Comm_call_errhandler(MPI_Comm comm, int code) {
    raised(comm, code, __func__);
    return MPI_SUCCESS;
}
