/* Numbers and replies as text: no server is needed. */
#include <string.h>

#include "check.h"
#include "elements.h"
#include "reply.h"

static int is_read(enum element element, const char *text, int64_t value) {
    int64_t read;
    const char *end = text + strlen(text);
    return number_read(element_range(element), text, end, &read) == end && read == value;
}

static int is_refused(enum element element, const char *text) {
    int64_t read;
    const char *end = text + strlen(text);
    return number_read(element_range(element), text, end, &read) != end;
}

static int is_written(enum element element, int64_t value, const char *text) {
    char room[NUMBER_ROOM];
    *number_write(element, value, room) = '\0';
    return strcmp(room, text) == 0;
}

static void numbers(void) {
    CHECK(is_read(INT8, "-128", -128) && is_read(INT8, "127", 127));
    CHECK(is_refused(INT8, "128") && is_refused(INT8, "-129") && is_refused(INT8, ""));
    CHECK(is_read(UINT8, "255", 255) && is_refused(UINT8, "256") && is_refused(UINT8, "-1"));
    CHECK(is_read(INT64, "-9223372036854775808", INT64_MIN));
    CHECK(is_read(INT64, "9223372036854775807", INT64_MAX));
    CHECK(is_refused(INT64, "9223372036854775808") && is_refused(INT64, "-9223372036854775809"));
    CHECK(is_read(UINT64, "18446744073709551615", -1));
    CHECK(is_refused(UINT64, "18446744073709551616") && is_refused(UINT64, "-1"));
    CHECK(is_read(PAIR, "2147483647", INT32_MAX) && is_refused(PAIR, "2147483648"));
    CHECK(is_refused(INT32, "-") && is_refused(INT32, "x") && is_refused(INT32, "1x"));
    CHECK(is_written(INT64, INT64_MIN, " -9223372036854775808") && is_written(INT8, 0, " 0"));
    CHECK(is_written(UINT64, -1, " 18446744073709551615"));
}

static struct reply read_line(const char *line) {
    struct reply reply;
    reply_read(line, strlen(line), &reply);
    return reply;
}

static void replies(void) {
    struct reply reply = read_line("posted 18446744073709551615");
    CHECK(reply.answer == POSTED && reply.request == UINT64_MAX);
    reply = read_line("barred 7 alpha");
    CHECK(reply.answer == BARRED && reply.request == 7 && strcmp(reply.label, "alpha") == 0);
    reply = read_line("comm 3 rank 1 size 4");
    CHECK(reply.answer == NEW_COMM && reply.number == 3 && reply.rank == 1 && reply.size == 4);
    reply = read_line("info size 4 rank 0 dims 2");
    CHECK(reply.answer == INFO && reply.size == 4 && reply.rank == 0);
    reply = read_line("denied simple b0 alpha");
    CHECK(reply.answer == DENIED && strcmp(reply.rule, "simple") == 0);
    CHECK(strcmp(reply.process, "b0") == 0 && strcmp(reply.label, "alpha") == 0);
    CHECK(read_line("refused Mismatch").answer == REFUSED);
    CHECK(read_line("bad BadShape").answer == BAD);
    reply = read_line("ping 18446744073709551615");
    CHECK(reply.answer == PONG && reply.request == UINT64_MAX);
    reply = read_line("next 7");
    CHECK(reply.answer == NEXT_REQUEST && reply.request == 7);
    static uint64_t open[MOST_REQUESTS];
    reply = read_line("open 3 8 18446744073709551615");
    CHECK(reply.answer == OPEN_REQUESTS && reply_requests(&reply, open) == 3);
    CHECK(open[0] == 3 && open[1] == 8 && open[2] == UINT64_MAX);
    reply = read_line("open");
    CHECK(reply.answer == OPEN_REQUESTS && reply_requests(&reply, open) == 0);
    reply = read_line("open 8 3");
    CHECK(reply_requests(&reply, open) == -1);
    reply = read_line("open 8 x");
    CHECK(reply_requests(&reply, open) == -1);
    CHECK(read_line("pending").answer == PENDING && read_line("null").answer == NULL_COMM);
    CHECK(read_line("noroom").answer == NO_ROOM && read_line("left").answer == LEFT);
    const char *const NONE[] = {
        "",
        "posted",
        "posted ",
        "posted x",
        "posted 1 2",
        "posted 18446744073709551616",
        "pending 1",
        "comm 1 rank 0",
        "comm 1 rank 0 size 4294967296",
        "info size 4",
        "denied simple b0",
        "denied simple  alpha",
        "refused",
        "Posted 1",
        "posted  1",
        "denied simple b0 alpha x",
        "barred 1 abcdefghijklmnopqrstuvwxyz0123456789",
    };
    for (size_t i = 0; i < sizeof NONE / sizeof *NONE; i++) {
        CHECK(read_line(NONE[i]).answer == MALFORMED);
    }
}

static void deliveries(void) {
    struct reply reply = read_line("delivered [1 -2] [] - [3]");
    struct blocks blocks = {reply.blocks, reply.end};
    int64_t value;
    CHECK(reply.answer == DELIVERED && blocks_next(&blocks) == OPEN_BLOCK);
    CHECK(blocks_number(&blocks, INT32, &value) == 1 && value == 1);
    CHECK(blocks_number(&blocks, INT32, &value) == 1 && value == -2);
    CHECK(blocks_number(&blocks, INT32, &value) == 0);
    CHECK(blocks_next(&blocks) == OPEN_BLOCK && blocks_number(&blocks, INT32, &value) == 0);
    CHECK(blocks_next(&blocks) == MISSING_BLOCK);
    CHECK(blocks_next(&blocks) == OPEN_BLOCK && blocks_number(&blocks, INT32, &value) == 1);
    CHECK(blocks_number(&blocks, INT32, &value) == 0 && blocks_next(&blocks) == NO_BLOCK);
    reply = read_line("delivered none");
    blocks = (struct blocks){reply.blocks, reply.end};
    CHECK(blocks_next(&blocks) == NO_BLOCK);
    const char *const NONE[] = {"[1", "[1  2]", "[ 1]", "[1 ]", "[-]", "[300]"};
    for (size_t i = 0; i < sizeof NONE / sizeof *NONE; i++) {
        int found = 1;
        blocks = (struct blocks){NONE[i], NONE[i] + strlen(NONE[i])};
        CHECK(blocks_next(&blocks) == OPEN_BLOCK);
        while (found > 0) {
            found = blocks_number(&blocks, INT8, &value);
        }
        CHECK(found < 0);
    }
}

static void operations(void) {
    const uint64_t high = UINT64_MAX;
    uint64_t large = 1;
    element_reduce(OP_MAX, UINT64, &high, &large);
    CHECK(large == UINT64_MAX);
    int8_t one = 100, other = 100;
    element_reduce(OP_SUM, INT8, &one, &other);
    CHECK(other == -56);
    int32_t pair[2] = {3, 4}, best[2] = {3, 2};
    element_reduce(OP_MINLOC, PAIR, pair, best);
    CHECK(best[0] == 3 && best[1] == 2);
    element_reduce(OP_LXOR, INT8, &one, &one);
    CHECK(one == 0);
}

int main(void) {
    numbers();
    replies();
    deliveries();
    operations();
    return checks_end();
}
