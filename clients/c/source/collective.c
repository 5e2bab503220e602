/* The way of a collective to the server and back. */
#include "collective.h"

#include <stdio.h>
#include <stdlib.h>
#include <string.h>

#include "blocks.h"
#include "comms.h"
#include "elements.h"
#include "errors.h"
#include "labels.h"
#include "types.h"

/* The line that is being written. */
static struct text out;

static MPI_Count given_numbers(const struct call *call) {
    MPI_Count numbers = 0;
    if (takes_part(call->kind->giver, call)) {
        int blocks = block_count(call->kind->gives, call->comm);
        for (int block = 0; block < blocks; block++) {
            numbers += region_part(call, given_block(call, block)).count;
        }
    }
    return numbers;
}

static bool add_counts(const struct call *call) {
    int blocks = block_count(call->kind->gives, call->comm);
    if (!takes_part(call->kind->giver, call) || blocks == 0) {
        return text_add(&out, " -");
    }
    bool is_good = true;
    for (int block = 0; block < blocks; block++) {
        MPI_Count count = region_part(call, given_block(call, block)).count;
        is_good &= text_add(&out, "%c%lld", block > 0 ? ',' : ' ', count);
    }
    return is_good;
}

static bool add_field(const struct call *call, enum field field) {
    bool is_given = takes_part(call->kind->giver, call);
    switch (field) {
    case FIELD_ROOT: return text_add(&out, " %d", call->root);
    case FIELD_OP: return text_add(&out, " %s", call->op->name);
    case FIELD_TYPE: return text_add(&out, " %s", element_name(wire_element(call)));
    case FIELD_COUNTS: return add_counts(call);
    case FIELD_COUNT: {
        struct region region = is_given ? given_block(call, 0) : gotten_block(call, 0);
        return text_add(&out, " %lld", region_part(call, region).count);
    }
    default: return true;
    }
}

/* Where the piece at hand has its elements in a region. A region of which all has a type of its own
 * travels in one piece. */
static struct place piece_of(const struct call *call, struct region region) {
    struct part part = region_part(call, region);
    struct place place = place_first(region.at, region.count, region.type);
    if (call->pieces > 1) {
        place_cut(&place, part.first, part.count);
    }
    return place;
}

static void write_region(const struct call *call, struct region region) {
    struct place place = piece_of(call, region);
    const struct run *run;
    MPI_Count count;
    char *to = out.bytes + out.length;
    for (char *at; (at = place_span(&place, &run, &count)) != NULL;) {
        to = span_write(run, at, count, wire_element(call), to);
    }
    out.length = (size_t)(to - out.bytes);
}

/* Room for all that a call gives: false where there is none. */
static bool reserve_numbers(MPI_Count numbers) {
    return text_reserve(&out, (size_t)numbers * 2 * (LONGEST_NUMBER + 1) + NUMBER_ROOM);
}

static int add_line(const struct call *call) {
    MPI_Count numbers = given_numbers(call);
    if (numbers > MOST_ELEMENTS) {
        return MPI_ERR_COUNT;
    }
    out.length = 0;
    bool is_good = text_add(&out, "post %u %s", call->comm->number, call->kind->name);
    for (int field = 0; field < 5; field++) {
        is_good = is_good && add_field(call, call->kind->fields[field]);
    }
    if (is_good && numbers > 0) {
        is_good = text_add(&out, " as %s", label_of_process()) && reserve_numbers(numbers);
        for (int block = 0; is_good && block < block_count(call->kind->gives, call->comm);
             block++) {
            write_region(call, given_block(call, block));
        }
    }
    return is_good && text_add(&out, "\n") ? MPI_SUCCESS : MPI_ERR_NO_MEM;
}

/* What the one member of a communicator gets that the server knows nothing of: its own blocks. In a
 * grid they come from the opposite slot, where the dimension is periodic. */
static int add_own_delivery(const struct call *call) {
    const struct kind *kind = call->kind;
    int blocks = takes_part(kind->getter, call) ? block_count(kind->gets, call->comm) : 0;
    out.length = 0;
    if (!text_add(&out, blocks > 0 ? "delivered" : "delivered none") ||
        !reserve_numbers(given_numbers(call) * (blocks > 1 ? blocks : 1) + 2 * blocks)) {
        return MPI_ERR_NO_MEM;
    }
    for (int block = 0; block < blocks; block++) {
        if (kind->gets == SLOTS && !call->comm->grid->is_periodic[block / 2]) {
            text_add(&out, " -");
            continue;
        }
        text_add(&out, " [");
        size_t start = out.length;
        write_region(call, given_block(call, kind->gives == SLOTS ? block ^ 1 : 0));
        if (out.length > start) {
            memmove(out.bytes + start, out.bytes + start + 1, out.length - start - 1);
            out.length--;
        }
        text_add(&out, "]");
    }
    return MPI_SUCCESS;
}

static int read_region(struct blocks *blocks, const struct call *call, struct region region) {
    enum element wire = wire_element(call);
    struct place place = piece_of(call, region);
    const struct run *run;
    MPI_Count count;
    int64_t value;
    int found = 1;
    for (char *at; found > 0 && (at = place_span(&place, &run, &count)) != NULL;) {
        found = blocks_span(blocks, wire, run, at, count);
    }
    if (found > 0) {
        found = blocks_number(blocks, wire, &value);
    }
    if (found > 0) {
        return MPI_ERR_TRUNCATE;
    }
    return found < 0 ? MPI_ERR_INTERN : MPI_SUCCESS;
}

static int read_blocks(const struct call *call, const struct reply *reply) {
    struct blocks blocks = {reply->blocks, reply->end};
    int most = block_count(call->kind->gets, call->comm);
    bool is_kept = call->get.buffer == MPI_IN_PLACE || !takes_part(call->kind->getter, call);
    for (int place = 0;; place++) {
        switch (blocks_next(&blocks)) {
        case NO_BLOCK: return MPI_SUCCESS;
        case MISSING_BLOCK: continue;
        case BAD_BLOCK: return MPI_ERR_INTERN;
        case OPEN_BLOCK: break;
        }
        if (is_kept) {
            return MPI_SUCCESS;
        }
        if (place >= most) {
            return MPI_ERR_INTERN;
        }
        int code = read_region(&blocks, call, gotten_block(call, place));
        if (code != MPI_SUCCESS) {
            return code;
        }
    }
}

/* All elements of all blocks, one behind the other. */
static int read_all(struct ompi_request_t *request, const struct reply *reply) {
    struct blocks blocks = {reply->blocks, reply->end};
    const struct side *side = &request->call.get;
    struct place place = place_first(side->buffer, side->count, side->type);
    enum element wire = side->type->element;
    const struct run *run = NULL;
    MPI_Count left = 0;
    char *at = NULL;
    enum block block;
    while ((block = blocks_next(&blocks)) == OPEN_BLOCK || block == MISSING_BLOCK) {
        int found = block == OPEN_BLOCK;
        while (found > 0) {
            int64_t value;
            at = left > 0 ? at : place_span(&place, &run, &left);
            found = at == NULL ? blocks_number(&blocks, wire, &value)
                               : blocks_span(&blocks, wire, run, at, 1);
            if (found > 0 && at == NULL) {
                return MPI_ERR_TRUNCATE;
            }
            if (found > 0) {
                request->bytes += (size_t)run->width;
                at += run->width;
                left--;
            }
        }
        if (found < 0) {
            return MPI_ERR_TYPE;
        }
    }
    return block == NO_BLOCK ? MPI_SUCCESS : MPI_ERR_INTERN;
}

/* What came of a request of an earlier program: of a constructor's the communicator's number. */
static int resumed_outcome(struct ompi_request_t *request, const struct reply *reply) {
    char text[16];
    struct reply number = {.answer = DELIVERED, .blocks = text};
    if (reply->answer == NEW_COMM || reply->answer == NULL_COMM) {
        int is_made = reply->answer == NEW_COMM;
        number.end = text + (is_made ? snprintf(text, sizeof text, "[%u]", reply->number)
                                     : snprintf(text, sizeof text, "[]"));
        return read_all(request, &number);
    }
    return reply->answer == DELIVERED ? read_all(request, reply) : class_of_reply(reply);
}

static int outcome(struct ompi_request_t *request, const struct reply *reply) {
    if (request->is_resumed) {
        return resumed_outcome(request, reply);
    }
    if (reply->answer == DELIVERED) {
        return request->call.kind == NULL ? MPI_ERR_INTERN : read_blocks(&request->call, reply);
    }
    if (reply->answer == NEW_COMM || reply->answer == NULL_COMM) {
        return request->made == NULL ? MPI_ERR_INTERN : comm_settle(request, reply);
    }
    return class_of_reply(reply);
}

void call_settle(struct ompi_request_t *request, const struct reply *reply) {
    int code = outcome(request, reply);
    request->error = request->error == MPI_SUCCESS ? code : request->error;
    if (reply->answer != PENDING) { /* that may still come */
        request->call.piece++;
        bool is_last = request->call.piece >= request->posted;
        request->state = is_last ? REQUEST_DONE : REQUEST_POSTED;
    }
}

static int settle_own(struct ompi_request_t *request) {
    struct reply reply;
    int code = add_own_delivery(&request->call);
    if (code == MPI_SUCCESS) {
        reply_read(out.bytes, out.length, &reply);
        call_settle(request, &reply);
    }
    return code;
}

/* What answered a post. */
static int posted(struct ompi_request_t *request, const struct reply *reply) {
    if (reply->answer != POSTED && reply->answer != BARRED) {
        return class_of_reply(reply);
    }
    request->number = request->posted == 0 ? reply->request : request->number;
    request->posted++;
    request->state = REQUEST_POSTED;
    session_count_request();
    return MPI_SUCCESS;
}

/* Checks a call and cuts it, or settles it where the server knows nothing of its communicator. */
static int prepare(struct ompi_request_t *request) {
    struct call *call = &request->call;
    request->state = REQUEST_IDLE;
    request->posted = call->piece = call->pieces = 0;
    int code = call_check(call);
    if (code != MPI_SUCCESS) {
        return code;
    }
    if (call->comm->is_local) {
        return settle_own(request);
    }
    call->pieces = piece_count(call);
    return call->pieces > 0 ? MPI_SUCCESS : MPI_ERR_COUNT;
}

static int post_piece(struct ompi_request_t *request) {
    struct reply reply;
    int code = add_line(&request->call);
    if (code == MPI_SUCCESS) {
        code = session_write(out.bytes, out.length);
    }
    if (code == MPI_SUCCESS) {
        code = session_read(&reply);
    }
    return code == MPI_SUCCESS ? posted(request, &reply) : code;
}

/* All pieces are posted at once, in front of what is posted later. What keeps a later one from being
 * posted is told when those before it have ended. */
int call_post(struct ompi_request_t *request) {
    struct call *call = &request->call;
    int code = prepare(request);
    if (code == MPI_SUCCESS && call->pieces > MOST_REQUESTS) {
        code = MPI_ERR_NO_SPACE;
    }
    for (; code == MPI_SUCCESS && call->piece < call->pieces; call->piece++) {
        code = post_piece(request);
    }
    call->piece = 0;
    if (request->posted > 0) {
        request->error = code;
        code = MPI_SUCCESS;
    }
    return code;
}

int line_post(struct ompi_request_t *request, const char *line) {
    struct reply reply;
    int code = session_ask(&reply, "%s", line);
    return code == MPI_SUCCESS ? posted(request, &reply) : code;
}

/* The post and the wait go out together, since the number of the request is known. Where the post
 * is refused there is no such request, and both are. */
static int post_and_wait(struct ompi_request_t *request, struct reply *reply) {
    int code = add_line(&request->call);
    if (code != MPI_SUCCESS) {
        return code;
    }
    if (!text_add(&out, "wait %llu\n", (unsigned long long)session_next_request())) {
        return MPI_ERR_NO_MEM;
    }
    code = session_write(out.bytes, out.length);
    if (code == MPI_SUCCESS) {
        code = session_read(reply);
    }
    if (code != MPI_SUCCESS) {
        return code;
    }
    code = posted(request, reply);
    int second = session_read(reply);
    if (code == MPI_SUCCESS && second == MPI_SUCCESS) {
        call_settle(request, reply);
    }
    return code == MPI_SUCCESS ? second : code;
}

/* One piece after the other, until one is not delivered, which all members are told alike. */
int blocking(struct call *call, const char *function) {
    struct ompi_request_t request = {.call = *call};
    struct reply reply = {.answer = DELIVERED};
    int code = prepare(&request);
    while (code == MPI_SUCCESS && request.call.piece < request.call.pieces &&
           reply.answer == DELIVERED) {
        code = post_and_wait(&request, &reply);
    }
    return raised(call->comm, code == MPI_SUCCESS ? request.error : code, function);
}
