/* The pieces of a call that gives more than one post can. Each piece is the same collective on a
 * part of each block, and is judged by itself.
 *
 * All members cut alike, by what all of them know, and a piece has something of each block that has
 * anything, so that it goes between the same ranks as the whole would. Cut are calls of which a
 * piece can let the next one pass: where the root alone gives, and where what all give is reduced.
 * Where each gets what the others gave, it could give nothing more to a second piece (the star rule,
 * docs/POLICY.md). */
#include "blocks.h"

static bool has_field(const struct kind *kind, enum field field) {
    for (int i = 0; i < 5; i++) {
        if (kind->fields[i] == field) {
            return true;
        }
    }
    return false;
}

static bool is_cut(const struct kind *kind) {
    bool can_go_on = kind->giver == ROOT || has_field(kind, FIELD_OP);
    return can_go_on && (has_field(kind, FIELD_COUNT) || kind->gives == WHOLE);
}

/* No memory has more. */
static const MPI_Count LONGEST = (MPI_Count)1 << 40;

/* The length of a block that is given. A member that gives none knows their one length by what it
 * gets. */
static MPI_Count block_length(const struct call *call, int block) {
    bool is_given = takes_part(call->kind->giver, call);
    struct region region = is_given ? given_block(call, block) : gotten_block(call, 0);
    MPI_Count length = region_count(call, region);
    return length < LONGEST ? length : LONGEST;
}

/* How many numbers a piece has at most, of so many. */
static MPI_Count piece_length(const struct call *call, MPI_Count pieces) {
    MPI_Count numbers = 0;
    for (int block = 0; block < block_count(call->kind->gives, call->comm); block++) {
        MPI_Count length = block_length(call, block);
        numbers += length / pieces + (length % pieces > 0);
    }
    return numbers;
}

MPI_Count piece_count(const struct call *call) {
    if (!takes_part(call->kind->giver, call) && !is_cut(call->kind)) {
        return 1;
    }
    MPI_Count numbers = piece_length(call, 1), pieces = numbers / MOST_ELEMENTS;
    if (numbers <= MOST_ELEMENTS) {
        return 1;
    }
    if (!is_cut(call->kind) || numbers >= LONGEST) {
        return 0;
    }
    while (piece_length(call, pieces) > MOST_ELEMENTS) {
        pieces++;
    }
    for (int block = 0; block < block_count(call->kind->gives, call->comm); block++) {
        MPI_Count length = block_length(call, block);
        pieces = length > 0 && length < pieces ? 0 : pieces;
    }
    return pieces;
}

struct part region_part(const struct call *call, struct region region) {
    MPI_Count count = region_count(call, region);
    if (call->pieces <= 1) {
        return (struct part){0, count};
    }
    MPI_Count each = count / call->pieces, longer = count % call->pieces;
    bool is_longer = call->piece < longer;
    return (struct part){call->piece * each + (is_longer ? call->piece : longer),
                         each + is_longer};
}
