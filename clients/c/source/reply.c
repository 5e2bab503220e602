/* The reader of replies. */
#include "reply.h"

#include <string.h>

#include "elements.h"

struct words {
    const char *at, *end;
};

/* The next word, which a space or the end follows; of no bytes where there is none. */
static struct words next_word(struct words *line) {
    struct words word = {line->at, line->at};
    while (word.end < line->end && *word.end != ' ') {
        word.end++;
    }
    line->at = word.end < line->end ? word.end + 1 : word.end;
    return word;
}

static bool is_word(struct words word, const char *text) {
    size_t length = (size_t)(word.end - word.at);
    return length == strlen(text) && memcmp(word.at, text, length) == 0;
}

static bool read_name(struct words *line, char *name) {
    struct words word = next_word(line);
    size_t length = (size_t)(word.end - word.at);
    if (length == 0 || length >= MPIX_MAX_NAME) {
        return false;
    }
    memcpy(name, word.at, length);
    name[length] = '\0';
    return true;
}

static bool read_number(struct words *line, uint64_t *number) {
    struct words word = next_word(line);
    int64_t read = 0;
    if (number_read(element_range(UINT64), word.at, word.end, &read) != word.end) {
        return false;
    }
    *number = (uint64_t)read;
    return true;
}

static bool read_small(struct words *line, const char *before, uint32_t *number) {
    uint64_t read;
    if (before != NULL && !is_word(next_word(line), before)) {
        return false;
    }
    if (!read_number(line, &read) || read > UINT32_MAX) {
        return false;
    }
    *number = (uint32_t)read;
    return true;
}

static bool read_rest(struct words *line, struct reply *reply) {
    uint32_t dimensions;
    switch (reply->answer) {
    case POSTED:
    case PONG:
    case NEXT_REQUEST: return read_number(line, &reply->request);
    case BARRED: return read_number(line, &reply->request) && read_name(line, reply->label);
    case NEW_COMM:
        return read_small(line, NULL, &reply->number) && read_small(line, "rank", &reply->rank) &&
               read_small(line, "size", &reply->size);
    case INFO:
        return read_small(line, "size", &reply->size) && read_small(line, "rank", &reply->rank) &&
               (line->at == line->end || read_small(line, "dims", &dimensions));
    case DENIED:
        return read_name(line, reply->rule) && read_name(line, reply->process) &&
               read_name(line, reply->label);
    case REFUSED:
    case BAD: return read_name(line, reply->reason);
    case OPEN_REQUESTS:
    case DELIVERED:
        reply->blocks = line->at;
        reply->end = line->end;
        line->at = line->end;
        return true;
    default: return true;
    }
}

void reply_read(const char *text, size_t length, struct reply *reply) {
    static const char *const WORDS[] = {
        [POSTED] = "posted",     [BARRED] = "barred",       [PENDING] = "pending",
        [NEW_COMM] = "comm",     [NULL_COMM] = "null",      [NO_ROOM] = "noroom",
        [DENIED] = "denied",     [INFO] = "info",           [REFUSED] = "refused",
        [BAD] = "bad",           [LEFT] = "left",           [EXHAUSTED] = "exhausted",
        [UNBOOKED] = "unbooked", [DISMISSED] = "dismissed", [RUN_ENDED] = "ended",
        [DELIVERED] = "delivered", [PONG] = "ping",      [OPEN_REQUESTS] = "open",
        [NEXT_REQUEST] = "next", [MALFORMED] = "",
    };
    struct words line = {text, text + length};
    struct words first = next_word(&line);
    memset(reply, 0, sizeof *reply);
    for (enum answer answer = POSTED; answer <= RUN_ENDED; answer++) {
        if (is_word(first, WORDS[answer])) {
            reply->answer = answer;
        }
    }
    if (!read_rest(&line, reply) || line.at != line.end) {
        reply->answer = MALFORMED;
    }
}

int reply_requests(const struct reply *reply, uint64_t *numbers) {
    struct words line = {reply->blocks, reply->end};
    int count = 0;
    for (; line.at != line.end; count++) {
        if (count == MOST_REQUESTS || !read_number(&line, &numbers[count]) ||
            (count > 0 && numbers[count] <= numbers[count - 1])) {
            return -1;
        }
    }
    return count;
}

enum block blocks_next(struct blocks *blocks) {
    const char *at = blocks->at, *end = blocks->end;
    if (at < end && *at == ' ') {
        at++;
    }
    enum block block = BAD_BLOCK;
    if (at == end) {
        block = at == blocks->at ? NO_BLOCK : BAD_BLOCK;
    } else if (*at == '[') {
        block = OPEN_BLOCK;
        at++;
    } else if (*at == '-') {
        block = MISSING_BLOCK;
        at++;
    } else if (end - at == 4 && memcmp(at, "none", 4) == 0) {
        block = NO_BLOCK;
        at = end;
    }
    blocks->at = at;
    return block;
}

static int next_number(struct blocks *blocks, struct range range, int64_t *value) {
    const char *at = blocks->at, *end = blocks->end;
    if (at < end && *at == ']') {
        blocks->at = at + 1;
        return 0;
    }
    if (at < end && *at == ' ' && at[-1] != '[') {
        at++;
    }
    const char *behind = number_read(range, at, end, value);
    if (behind == NULL || behind == end || (*behind != ' ' && *behind != ']')) {
        return -1;
    }
    blocks->at = behind;
    return 1;
}

int blocks_number(struct blocks *blocks, enum element element, int64_t *value) {
    return next_number(blocks, element_range(element), value);
}

int blocks_span(struct blocks *blocks, enum element wire, const struct run *run, char *at,
                MPI_Count count) {
    enum element element = run->element == PAIR ? INT32 : run->element;
    struct range range = element_range(wire);
    int64_t value;
    for (; count > 0; count--, at += run->width) {
        int found = next_number(blocks, range, &value);
        if (found <= 0) {
            return found;
        }
        element_store(element, at, value);
        if (run->element == PAIR) {
            if (next_number(blocks, range, &value) <= 0) {
                return -1;
            }
            element_store(element, at + 4, value);
        }
    }
    return 1;
}
