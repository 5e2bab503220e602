/* Groups and their algebra. */
#include <stdlib.h>

#include "comms.h"
#include "errors.h"

MPI_Group group_new(int size) {
    MPI_Group group = calloc(1, sizeof *group);
    int *members = calloc((size_t)size + 1, sizeof *members);
    if (group == NULL || members == NULL) {
        free(group);
        free(members);
        return NULL;
    }
    *group = (struct ompi_group_t){1, size, members};
    return group;
}

void group_release(MPI_Group group) {
    if (group != NULL && group != MPI_GROUP_EMPTY && --group->references == 0) {
        free(group->members);
        free(group);
    }
}

int own_member(void) { return ((MPI_Comm)MPI_COMM_WORLD)->rank; }

int group_rank_of(MPI_Group group, int member) {
    for (int rank = 0; rank < group->size; rank++) {
        if (group->members[rank] == member) {
            return rank;
        }
    }
    return -1;
}

static bool is_good(MPI_Group group) { return group != NULL && group != MPI_GROUP_NULL; }

static bool has_unknown(MPI_Group group) {
    for (int rank = 0; rank < group->size; rank++) {
        if (group->members[rank] < 0) {
            return true;
        }
    }
    return false;
}

/* A member that the other group has not by this name may still be in it, where one of the two names
 * is a stand-in. */
static bool is_undecided(int member, MPI_Group other) {
    return group_rank_of(other, member) < 0 &&
           (member < 0 ? other->size > 0 : member != own_member() && has_unknown(other));
}

static bool are_undecided(MPI_Group one, MPI_Group other) {
    for (int rank = 0; rank < one->size; rank++) {
        if (is_undecided(one->members[rank], other)) {
            return true;
        }
    }
    return false;
}

static int failed(int code, const char *function) { return raised(NULL, code, function); }

int MPI_Group_size(MPI_Group group, int *size) {
    if (!is_good(group)) {
        return failed(MPI_ERR_GROUP, __func__);
    }
    *size = group->size;
    return MPI_SUCCESS;
}

int MPI_Group_rank(MPI_Group group, int *rank) {
    if (!is_good(group)) {
        return failed(MPI_ERR_GROUP, __func__);
    }
    int found = group_rank_of(group, own_member());
    *rank = found < 0 ? MPI_UNDEFINED : found;
    return MPI_SUCCESS;
}

int MPI_Group_translate_ranks(MPI_Group from, int count, const int *ranks, MPI_Group to,
                              int *found) {
    if (!is_good(from) || !is_good(to)) {
        return failed(MPI_ERR_GROUP, __func__);
    }
    for (int i = 0; i < count; i++) {
        if (ranks[i] == MPI_PROC_NULL) {
            found[i] = MPI_PROC_NULL;
            continue;
        }
        if (ranks[i] < 0 || ranks[i] >= from->size) {
            return failed(MPI_ERR_RANK, __func__);
        }
        int member = from->members[ranks[i]];
        if (is_undecided(member, to)) {
            return unsupported(NULL, __func__);
        }
        int rank = group_rank_of(to, member);
        found[i] = rank < 0 ? MPI_UNDEFINED : rank;
    }
    return MPI_SUCCESS;
}

static int compare(MPI_Group one, MPI_Group other) {
    if (one->size != other->size) {
        return MPI_UNEQUAL;
    }
    int result = MPI_IDENT;
    for (int rank = 0; rank < one->size; rank++) {
        int found = group_rank_of(other, one->members[rank]);
        if (found < 0) {
            return MPI_UNEQUAL;
        }
        result = found == rank ? result : MPI_SIMILAR;
    }
    return result;
}

int MPI_Group_compare(MPI_Group one, MPI_Group other, int *result) {
    if (!is_good(one) || !is_good(other)) {
        return failed(MPI_ERR_GROUP, __func__);
    }
    if (one->size == other->size && are_undecided(one, other)) {
        return unsupported(NULL, __func__);
    }
    *result = compare(one, other);
    return MPI_SUCCESS;
}

int MPI_Comm_compare(MPI_Comm one, MPI_Comm other, int *result) {
    if (!comm_is_good(one) || !comm_is_good(other)) {
        return failed(MPI_ERR_COMM, __func__);
    }
    int code = MPI_Group_compare(one->group, other->group, result);
    if (code == MPI_SUCCESS && *result == MPI_IDENT && one != other) {
        *result = MPI_CONGRUENT;
    }
    return code;
}

int MPI_Comm_group(MPI_Comm comm, MPI_Group *group) {
    if (!comm_is_good(comm)) {
        return failed(MPI_ERR_COMM, __func__);
    }
    comm->group->references++;
    *group = comm->group;
    return MPI_SUCCESS;
}

int MPI_Group_free(MPI_Group *group) {
    if (!is_good(*group)) {
        return failed(MPI_ERR_GROUP, __func__);
    }
    group_release(*group);
    *group = MPI_GROUP_NULL;
    return MPI_SUCCESS;
}

/* Hands out a group, or the empty one where it has no member. */
static int hand_out(MPI_Group made, MPI_Group *group, const char *function) {
    if (made == NULL) {
        return failed(MPI_ERR_NO_MEM, function);
    }
    if (made->size == 0) {
        group_release(made);
        made = MPI_GROUP_EMPTY;
    }
    *group = made;
    return MPI_SUCCESS;
}

/* The members of `one` that are, or are not, in `other`, and behind them, where it is asked for,
 * those of `other` that are not in `one`. */
static int joined(MPI_Group one, MPI_Group other, bool with_common, bool with_rest, bool with_other,
                  MPI_Group *group, const char *function) {
    if (!is_good(one) || !is_good(other)) {
        return failed(MPI_ERR_GROUP, function);
    }
    if (are_undecided(one, other) || are_undecided(other, one)) {
        return unsupported(NULL, function);
    }
    MPI_Group made = group_new(one->size + other->size);
    if (made != NULL) {
        made->size = 0;
        for (int rank = 0; rank < one->size; rank++) {
            bool is_common = group_rank_of(other, one->members[rank]) >= 0;
            if (is_common ? with_common : with_rest) {
                made->members[made->size++] = one->members[rank];
            }
        }
        for (int rank = 0; with_other && rank < other->size; rank++) {
            if (group_rank_of(one, other->members[rank]) < 0) {
                made->members[made->size++] = other->members[rank];
            }
        }
    }
    return hand_out(made, group, function);
}

int MPI_Group_union(MPI_Group one, MPI_Group other, MPI_Group *group) {
    return joined(one, other, true, true, true, group, __func__);
}

int MPI_Group_intersection(MPI_Group one, MPI_Group other, MPI_Group *group) {
    return joined(one, other, true, false, false, group, __func__);
}

int MPI_Group_difference(MPI_Group one, MPI_Group other, MPI_Group *group) {
    return joined(one, other, false, true, false, group, __func__);
}

/* The members at these ranks, or all others: each rank once. */
static int chosen(MPI_Group from, int count, const int *ranks, bool is_out, MPI_Group *group,
                  const char *function) {
    bool is_named[MOST_MEMBERS] = {false};
    if (!is_good(from)) {
        return failed(MPI_ERR_GROUP, function);
    }
    for (int i = 0; i < count; i++) {
        if (ranks[i] < 0 || ranks[i] >= from->size || is_named[ranks[i]]) {
            return failed(MPI_ERR_RANK, function);
        }
        is_named[ranks[i]] = true;
    }
    MPI_Group made = group_new(from->size);
    if (made != NULL) {
        made->size = 0;
        for (int i = 0; !is_out && i < count; i++) {
            made->members[made->size++] = from->members[ranks[i]];
        }
        for (int rank = 0; is_out && rank < from->size; rank++) {
            if (!is_named[rank]) {
                made->members[made->size++] = from->members[rank];
            }
        }
    }
    return hand_out(made, group, function);
}

int MPI_Group_incl(MPI_Group from, int count, const int *ranks, MPI_Group *group) {
    return chosen(from, count, ranks, false, group, __func__);
}

int MPI_Group_excl(MPI_Group from, int count, const int *ranks, MPI_Group *group) {
    return chosen(from, count, ranks, true, group, __func__);
}

/* Ranges of first, last and step, as the ranks that they name. */
static int ranged(MPI_Group from, int count, int (*ranges)[3], bool is_out, MPI_Group *group,
                  const char *function) {
    int ranks[MOST_MEMBERS], named = 0;
    for (int i = 0; i < count; i++) {
        int step = ranges[i][2];
        if (step == 0) {
            return failed(MPI_ERR_ARG, function);
        }
        long last = ranges[i][1];
        for (long rank = ranges[i][0]; step > 0 ? rank <= last : rank >= last; rank += step) {
            if (named == MOST_MEMBERS || rank < 0 || rank >= MOST_MEMBERS) {
                return failed(MPI_ERR_RANK, function);
            }
            ranks[named++] = (int)rank;
        }
    }
    return chosen(from, named, ranks, is_out, group, function);
}

int MPI_Group_range_incl(MPI_Group from, int count, int (*ranges)[3], MPI_Group *group) {
    return ranged(from, count, ranges, false, group, __func__);
}

int MPI_Group_range_excl(MPI_Group from, int count, int (*ranges)[3], MPI_Group *group) {
    return ranged(from, count, ranges, true, group, __func__);
}
