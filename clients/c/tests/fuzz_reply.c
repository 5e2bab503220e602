/* Hands bytes to the reader of replies: by libFuzzer, or as a program to which files are named. */
#include <stdlib.h>
#include <string.h>

#include "collective.h"
#include "comms.h"

int LLVMFuzzerTestOneInput(const uint8_t *data, size_t size);

/* The rest of the input is a line; its first byte says which call it answers, or which piece of it. */
int LLVMFuzzerTestOneInput(const uint8_t *data, size_t size) {
    static const struct kind KINDS[] = {
        {"allgather", ALL, ONE, ALL, RANKS, {FIELD_TYPE, FIELD_COUNT}},
        {"scan", ALL, ONE, ALL, ONE, {FIELD_OP, FIELD_TYPE, FIELD_COUNT}},
        {"bcast", ROOT, ONE, OTHERS, ONE, {FIELD_ROOT, FIELD_TYPE, FIELD_COUNT}},
    };
    const MPI_Datatype TYPES[] = {MPI_INT8_T, MPI_UINT64_T, MPI_2INT, MPI_SHORT};
    struct ompi_communicator_t comm = {.references = 1, .number = 1, .rank = 1, .size = 3};
    struct ompi_request_t request = {.call.comm = &comm};
    struct reply reply;
    if (size == 0) {
        return 0;
    }
    /* The line as it stands in memory of just its size, so that a byte too far is seen. */
    char *line = malloc(size);
    memcpy(line, data + 1, size - 1);
    MPI_Datatype type = TYPES[data[0] % 4];
    char *room = malloc((size_t)(3 * 2 * type->size));
    request.call.kind = &KINDS[data[0] / 4 % 3];
    request.call.get = (struct side){.buffer = room, .count = 2, .type = type};
    request.call.give = request.call.get;
    request.call.pieces = request.posted = data[0] / 12 % 3;
    request.is_resumed = data[0] / 36 % 2;
    reply_read(line, size - 1, &reply);
    if (reply.answer == OPEN_REQUESTS) {
        static uint64_t open[MOST_REQUESTS];
        reply_requests(&reply, open);
    }
    call_settle(&request, &reply);
    if (request.state == REQUEST_POSTED && request.call.piece > 0) {
        call_settle(&request, &reply);
    }
    free(room);
    free(line);
    return 0;
}

#ifndef WITH_LIBFUZZER
#include <stdio.h>

int main(int count, char **paths) {
    static uint8_t bytes[1 << 20];
    for (int i = 1; i < count; i++) {
        FILE *file = fopen(paths[i], "rb");
        if (file == NULL) {
            return 3;
        }
        LLVMFuzzerTestOneInput(bytes, fread(bytes, 1, sizeof bytes, file));
        fclose(file);
    }
    printf("%d passed, 0 failed\n", count - 1);
    return 0;
}
#endif
