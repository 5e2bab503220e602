/* The session with the server, over two named pipes. */
#include "session.h"

#include <errno.h>
#include <fcntl.h>
#include <poll.h>
#include <signal.h>
#include <stdarg.h>
#include <stdio.h>
#include <stdlib.h>
#include <string.h>
#include <time.h>
#include <unistd.h>

enum { PIECE = 1 << 20 };

static int calls = -1, replies = -1;
static bool is_joined, is_gone;
static uint64_t next_request;
/* What was read and not yet told stands between `told` and `in.length`. */
static struct text in;
static size_t told;

bool text_reserve(struct text *text, size_t more) {
    if (text->room - text->length >= more) {
        return true;
    }
    size_t room = text->length + more + text->room / 2;
    char *bytes = room < more ? NULL : realloc(text->bytes, room);
    if (bytes == NULL) {
        return false;
    }
    text->bytes = bytes;
    text->room = room;
    return true;
}

bool text_add(struct text *text, const char *form, ...) {
    va_list values, again;
    va_start(values, form);
    va_copy(again, values);
    int length = vsnprintf(NULL, 0, form, values);
    bool is_good = length >= 0 && text_reserve(text, (size_t)length + 1);
    if (is_good) {
        vsnprintf(text->bytes + text->length, (size_t)length + 1, form, again);
        text->length += (size_t)length;
    }
    va_end(again);
    va_end(values);
    return is_good;
}

int session_check(void) {
    if (calls >= 0) {
        return MPI_SUCCESS;
    }
    return is_gone ? MPIX_ERR_GONE : MPI_ERR_OTHER;
}

uint64_t session_next_request(void) { return next_request; }

void session_count_request(void) { next_request++; }

void session_close(void) {
    if (calls >= 0) {
        close(calls);
    }
    if (replies >= 0) {
        close(replies);
    }
    calls = replies = -1;
}

static int gone(void) {
    session_close();
    is_gone = true;
    return MPIX_ERR_GONE;
}

/* A pipe that nobody reads raises a signal, which the program is not to see. */
static ssize_t write_quietly(const char *bytes, size_t length) {
    sigset_t pipe, before, pending;
    sigemptyset(&pipe);
    sigaddset(&pipe, SIGPIPE);
    sigpending(&pending);
    sigprocmask(SIG_BLOCK, &pipe, &before);
    ssize_t written = write(calls, bytes, length);
    int error = errno;
    if (written < 0 && error == EPIPE && !sigismember(&pending, SIGPIPE)) {
        sigtimedwait(&pipe, NULL, &(struct timespec){0, 0});
    }
    sigprocmask(SIG_SETMASK, &before, NULL);
    errno = error;
    return written;
}

int session_write(const char *bytes, size_t length) {
    while (length > 0) {
        ssize_t written = calls < 0 ? -1 : write_quietly(bytes, length);
        if (written < 0 && (calls < 0 || errno != EINTR)) {
            return gone();
        }
        if (written > 0) {
            bytes += written;
            length -= (size_t)written;
        }
    }
    return MPI_SUCCESS;
}

/* A pipe that was opened before anybody wrote to it blocks, and tells its end, only from the time
 * on when something is there. */
static void join(void) {
    struct pollfd pipe = {.fd = replies, .events = POLLIN};
    while (poll(&pipe, 1, -1) < 0 && errno == EINTR) {
    }
    fcntl(replies, F_SETFL, fcntl(replies, F_GETFL) & ~O_NONBLOCK);
    is_joined = true;
}

static int read_more(void) {
    if (told > 0) {
        memmove(in.bytes, in.bytes + told, in.length - told);
        in.length -= told;
        told = 0;
    }
    if (!text_reserve(&in, PIECE)) {
        gone(); /* which reply belongs to which call is not known any more */
        return MPI_ERR_NO_MEM;
    }
    ssize_t got = read(replies, in.bytes + in.length, in.room - in.length);
    if (got > 0) {
        in.length += (size_t)got;
    } else if (got == 0 || errno != EINTR) {
        return gone();
    }
    return MPI_SUCCESS;
}

int session_read(struct reply *reply) {
    if (calls < 0) {
        return MPIX_ERR_GONE;
    }
    if (!is_joined) {
        join();
    }
    size_t looked = 0;
    for (;;) {
        size_t length = in.length - told;
        char *line = in.bytes == NULL ? NULL : in.bytes + told;
        char *end = length == looked ? NULL : memchr(line + looked, '\n', length - looked);
        if (end != NULL) {
            told += (size_t)(end - line) + 1;
            reply_read(line, (size_t)(end - line), reply);
            bool is_over = reply->answer >= EXHAUSTED;
            return is_over ? gone() : MPI_SUCCESS;
        }
        looked = length;
        int code = read_more();
        if (code != MPI_SUCCESS) {
            return code;
        }
    }
}

int session_ask(struct reply *reply, const char *form, ...) {
    char line[1024];
    va_list values;
    va_start(values, form);
    int length = vsnprintf(line, sizeof line - 1, form, values);
    va_end(values);
    if (length < 0 || length >= (int)sizeof line - 1) {
        return MPI_ERR_ARG;
    }
    line[length] = '\n';
    int code = session_write(line, (size_t)length + 1);
    return code == MPI_SUCCESS ? session_read(reply) : code;
}

static int open_both(const char *folder, const char *name) {
    char path[4096];
    if (snprintf(path, sizeof path, "%s/%s.replies", folder, name) >= (int)sizeof path) {
        return MPI_ERR_ARG;
    }
    is_joined = is_gone = false;
    in.length = told = 0;
    /* The replies first, as the server does, and without waiting for it. */
    replies = open(path, O_RDONLY | O_NONBLOCK | O_CLOEXEC);
    snprintf(path, sizeof path, "%s/%s.calls", folder, name);
    calls = replies < 0 ? -1 : open(path, O_WRONLY | O_CLOEXEC);
    if (calls < 0) {
        fprintf(stderr, "consortium: %s: %s\n", path, strerror(errno));
        session_close();
        return MPIX_ERR_GONE;
    }
    return MPI_SUCCESS;
}

/* A number that no earlier program has asked for. */
static uint64_t own_number(void) {
    struct timespec now;
    clock_gettime(CLOCK_REALTIME, &now);
    return ((uint64_t)now.tv_sec * 1000000000 + (uint64_t)now.tv_nsec) ^ (uint64_t)getpid() << 44;
}

/* Writes the first lines: false where nobody reads the calls. */
static bool write_first(const char *lines, size_t length) {
    ssize_t written;
    do {
        written = write_quietly(lines, length); /* so few bytes are written whole */
    } while (written < 0 && errno == EINTR);
    return written > 0;
}

/* An earlier program may have left a line half written, and answers unread: so first there comes a
 * line that asks for nothing, and a ping, and all answers up to that are dropped. `again` is set
 * where the pair is closed and no last word was read: the server has just seen that the earlier
 * program is gone, and opens it again. */
static int begin(struct past *past, bool *again) {
    struct reply reply = {.answer = MALFORMED};
    char lines[64];
    uint64_t number = own_number();
    int code, length = snprintf(lines, sizeof lines, "?\nping %llu\nopen\nnext\n",
                                (unsigned long long)number);
    if (!write_first(lines, (size_t)length)) {
        is_joined = true; /* so nothing is waited for: what is there is read */
    }
    do {
        reply.answer = MALFORMED;
        code = session_read(&reply);
        code = code == MPI_SUCCESS && reply.answer == LEFT ? gone() : code;
    } while (code == MPI_SUCCESS && (reply.answer != PONG || reply.request != number));
    if (code == MPI_SUCCESS) {
        code = session_read(&reply);
        past->open = reply.answer == OPEN_REQUESTS ? reply_requests(&reply, past->requests) : -1;
    }
    if (code == MPI_SUCCESS) {
        code = session_read(&reply);
        next_request = reply.request;
    }
    *again = code == MPIX_ERR_GONE && reply.answer < LEFT;
    if (code == MPI_SUCCESS && (past->open < 0 || reply.answer != NEXT_REQUEST)) {
        session_close();
        return MPI_ERR_INTERN;
    }
    return code;
}

int session_open(const char *folder, const char *name, struct past *past) {
    for (;;) {
        bool again = false;
        int code = open_both(folder, name);
        if (code == MPI_SUCCESS) {
            code = begin(past, &again);
        }
        if (!again) {
            return code;
        }
        nanosleep(&(struct timespec){0, 10000000}, NULL);
    }
}

void session_leave(void) {
    struct reply reply;
    if (calls >= 0) {
        session_ask(&reply, "leave");
    }
    session_close();
    is_gone = false;
}
