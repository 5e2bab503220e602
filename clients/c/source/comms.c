/* Communicators. */
#include "comms.h"

#include <stdio.h>
#include <stdlib.h>
#include <string.h>

#include "errors.h"
#include "labels.h"

/* Who is in a communicator that a split made, the server does not tell. Each such communicator has
 * a number of its own, of which its members' stand-ins are made. */
static int splits;

bool comm_is_good(MPI_Comm comm) { return comm != NULL && comm != MPI_COMM_NULL && comm->size > 0; }

void comm_retain(MPI_Comm comm) { comm->references++; }

void comm_release(MPI_Comm comm) {
    if (--comm->references > 0) {
        return;
    }
    group_release(comm->group);
    grid_free(comm->grid);
    MPI_Errhandler handler = comm->handler;
    MPI_Errhandler_free(&handler);
    if (comm->info != NULL) {
        MPI_Info_free(&comm->info);
    }
    free(comm);
}

static MPI_Group unknown_group(int rank, int size) {
    MPI_Group group = group_new(size);
    int first = ++splits * MOST_MEMBERS;
    for (int i = 0; group != NULL && i < size; i++) {
        group->members[i] = i == rank ? own_member() : -(first + i);
    }
    return group;
}

int comms_begin(int rank, int size) {
    MPI_Comm world = MPI_COMM_WORLD, self = MPI_COMM_SELF;
    MPI_Group all = group_new(size), own = group_new(1);
    if (all == NULL || own == NULL) {
        return MPI_ERR_NO_MEM;
    }
    for (int i = 0; i < size; i++) {
        all->members[i] = i;
    }
    world->group = all;
    world->rank = rank;
    world->size = size;
    own->members[0] = rank;
    self->group = own;
    self->is_local = true;
    self->size = 1;
    return MPI_SUCCESS;
}

void comms_end(void) {
    group_release(((MPI_Comm)MPI_COMM_WORLD)->group);
    group_release(((MPI_Comm)MPI_COMM_SELF)->group);
}

/* Processes that give public data tell the others of a new communicator their ranks in the world.
 * All others give nothing, and so nothing is charged to anybody. Where it is denied, nobody is
 * known. */
static void learn_members(MPI_Comm comm) {
    struct ompi_request_t request = {.call.comm = comm};
    struct reply reply;
    char line[128];
    bool is_public = strcmp(label_of_process(), "public") == 0;
    int length = snprintf(line, sizeof line, "post %u allgatherv int32", comm->number);
    if (is_public) {
        snprintf(line + length, sizeof line - (size_t)length, " as public %d", own_member());
    }
    if (line_post(&request, line) != MPI_SUCCESS ||
        session_ask(&reply, "wait %llu", (unsigned long long)request.number) != MPI_SUCCESS ||
        reply.answer != DELIVERED) {
        return;
    }
    struct blocks blocks = {reply.blocks, reply.end};
    for (int rank = 0; rank < comm->size && blocks_next(&blocks) == OPEN_BLOCK; rank++) {
        int64_t member;
        while (blocks_number(&blocks, INT32, &member) > 0) {
            if (member >= 0 && member < MOST_MEMBERS) {
                comm->group->members[rank] = (int)member;
            }
        }
    }
}

static MPI_Comm comm_new(MPI_Comm parent, const struct reply *reply, struct plan *plan) {
    MPI_Comm comm = calloc(1, sizeof *comm);
    MPI_Group group = plan->group;
    if (comm != NULL && group == NULL) {
        group = unknown_group((int)reply->rank, (int)reply->size);
    }
    if (group == NULL || comm == NULL) {
        free(comm);
        return NULL;
    }
    plan->group = NULL;
    *comm = (struct ompi_communicator_t){
        .is_local = parent->is_local,
        .references = 1,
        .number = reply->number,
        .rank = (int)reply->rank,
        .size = (int)reply->size,
        .group = group,
        .grid = plan->grid,
        .handler = parent->handler,
    };
    plan->grid = NULL;
    comm->handler->references++;
    return comm;
}

int comm_settle(struct ompi_request_t *request, const struct reply *reply) {
    struct plan *plan = request->plan;
    *request->made = MPI_COMM_NULL;
    if (reply->answer == NULL_COMM) {
        return MPI_SUCCESS;
    }
    bool is_split = plan->group == NULL;
    if (reply->size == 0 || reply->size > MOST_MEMBERS || reply->rank >= reply->size) {
        return MPI_ERR_INTERN;
    }
    if (!is_split && ((int)reply->size != plan->group->size ||
                      plan->group->members[reply->rank] != own_member())) {
        return MPI_ERR_GROUP; /* the members stated different groups */
    }
    MPI_Comm comm = comm_new(request->call.comm, reply, plan);
    if (comm == NULL) {
        return MPI_ERR_NO_MEM;
    }
    *request->made = comm;
    if (is_split && comm->size > 1) {
        learn_members(comm);
    }
    return plan->is_duplicate ? attributes_copy(request->call.comm, comm) : MPI_SUCCESS;
}

struct plan *plan_new(MPI_Group group, struct grid *grid) {
    struct plan *plan = calloc(1, sizeof *plan);
    if (plan != NULL) {
        plan->group = group;
        plan->grid = grid;
    }
    return plan;
}

void plan_free(struct plan *plan) {
    if (plan != NULL) {
        if (plan->group != NULL) {
            group_release(plan->group);
        }
        grid_free(plan->grid);
        free(plan);
    }
}

/* What the server would answer, for a communicator that it does not know. */
static int construct_own(struct ompi_request_t *request, bool is_member) {
    struct reply reply = {.answer = is_member ? NEW_COMM : NULL_COMM, .size = 1};
    return comm_settle(request, &reply);
}

int comm_construct(MPI_Comm comm, const char *line, struct plan *plan, MPI_Comm *made) {
    struct ompi_request_t request = {.call.comm = comm, .made = made, .plan = plan};
    int code = plan == NULL ? MPI_ERR_NO_MEM : MPI_SUCCESS;
    if (code == MPI_SUCCESS && comm->is_local) {
        code = construct_own(&request, strstr(line, "undefined") == NULL);
    } else if (code == MPI_SUCCESS) {
        code = line_post(&request, line);
        code = code == MPI_SUCCESS ? request_wait(&request) : code;
    }
    plan_free(plan);
    return code;
}

static struct grid *grid_copy(const struct grid *grid) {
    return grid == NULL ? NULL : grid_new(grid->dimensions, grid->sides, grid->is_periodic);
}

static struct plan *duplicate_plan(MPI_Comm comm) {
    comm->group->references++;
    struct plan *plan = plan_new(comm->group, grid_copy(comm->grid));
    if (plan != NULL) {
        plan->is_duplicate = true;
    }
    return plan;
}

static int duplicate(MPI_Comm comm, MPI_Info info, MPI_Comm *made, const char *function) {
    char line[64];
    if (!comm_is_good(comm)) {
        return raised(comm, MPI_ERR_COMM, function);
    }
    snprintf(line, sizeof line, "post %u dup", comm->number);
    int code = comm_construct(comm, line, duplicate_plan(comm), made);
    if (code == MPI_SUCCESS && info != NULL && info != MPI_INFO_NULL) {
        code = MPI_Info_dup(info, &(*made)->info);
    }
    return raised(comm, code, function);
}

int MPI_Comm_dup(MPI_Comm comm, MPI_Comm *made) { return duplicate(comm, NULL, made, __func__); }

int MPI_Comm_dup_with_info(MPI_Comm comm, MPI_Info info, MPI_Comm *made) {
    return duplicate(comm, info, made, __func__);
}

int MPI_Comm_idup(MPI_Comm comm, MPI_Comm *made, MPI_Request *request) {
    char line[64];
    if (!comm_is_good(comm)) {
        return raised(comm, MPI_ERR_COMM, __func__);
    }
    MPI_Request new = request_new(&(struct call){.comm = comm});
    int code = new == NULL ? MPI_ERR_NO_MEM : MPI_SUCCESS;
    if (code == MPI_SUCCESS) {
        new->made = made;
        new->plan = duplicate_plan(comm);
        snprintf(line, sizeof line, "post %u dup", comm->number);
        if (comm->is_local) {
            new->error = construct_own(new, true);
            new->state = REQUEST_DONE;
        } else {
            code = line_post(new, line);
        }
        *request = new;
    }
    return raised(comm, code, __func__);
}

int MPI_Comm_split(MPI_Comm comm, int colour, int key, MPI_Comm *made) {
    char line[96], spelled[16] = "undefined";
    if (!comm_is_good(comm)) {
        return raised(comm, MPI_ERR_COMM, __func__);
    }
    if (colour != MPI_UNDEFINED) {
        snprintf(spelled, sizeof spelled, "%d", colour);
    }
    snprintf(line, sizeof line, "post %u split %s %d", comm->number, spelled, key);
    return raised(comm, comm_construct(comm, line, plan_new(NULL, NULL), made), __func__);
}

/* By a split, since the members of disjoint groups may each state their own. */
int MPI_Comm_create(MPI_Comm comm, MPI_Group group, MPI_Comm *made) {
    char line[96];
    if (!comm_is_good(comm) || group == NULL || group == MPI_GROUP_NULL) {
        return raised(comm, comm_is_good(comm) ? MPI_ERR_GROUP : MPI_ERR_COMM, __func__);
    }
    for (int i = 0; i < group->size; i++) {
        if (group_rank_of(comm->group, group->members[i]) < 0) {
            return raised(comm, MPI_ERR_GROUP, __func__);
        }
    }
    int rank = group_rank_of(group, own_member());
    if (rank < 0) {
        snprintf(line, sizeof line, "post %u split undefined 0", comm->number);
    } else {
        int colour = group_rank_of(comm->group, group->members[0]);
        snprintf(line, sizeof line, "post %u split %d %d", comm->number, colour, rank);
    }
    group->references++;
    return raised(comm, comm_construct(comm, line, plan_new(group, NULL), made), __func__);
}

/* Firms share no memory: each process is alone. */
int MPI_Comm_split_type(MPI_Comm comm, int type, int key, MPI_Info info, MPI_Comm *made) {
    (void)key;
    (void)info;
    if (!comm_is_good(comm)) {
        return raised(comm, MPI_ERR_COMM, __func__);
    }
    if (type == MPI_UNDEFINED) {
        *made = MPI_COMM_NULL;
        return MPI_SUCCESS;
    }
    if (type != MPI_COMM_TYPE_SHARED) {
        return unsupported(comm, __func__);
    }
    MPI_Comm self = MPI_COMM_SELF;
    self->group->references++;
    return raised(comm, comm_construct(self, "", plan_new(self->group, NULL), made), __func__);
}

int MPIX_Comm_number(MPI_Comm comm, int *number) {
    if (!comm_is_good(comm) || comm->is_local) {
        return raised(comm, MPI_ERR_COMM, __func__);
    }
    *number = (int)comm->number;
    return MPI_SUCCESS;
}

int MPIX_Comm_resume(int number, MPI_Comm *made) {
    struct reply reply;
    struct plan plan = {0};
    int code = number > 0 ? session_ask(&reply, "info %d", number) : MPI_ERR_COMM;
    if (code == MPI_SUCCESS && reply.answer != INFO) {
        code = class_of_reply(&reply);
    }
    if (code == MPI_SUCCESS && (reply.size > MOST_MEMBERS || reply.rank >= reply.size)) {
        code = MPI_ERR_INTERN;
    }
    if (code == MPI_SUCCESS) {
        reply.number = (uint32_t)number;
        *made = comm_new(MPI_COMM_WORLD, &reply, &plan);
        code = *made == NULL ? MPI_ERR_NO_MEM : MPI_SUCCESS;
    }
    return raised(NULL, code, __func__);
}

int MPI_Comm_free(MPI_Comm *comm) {
    if (!comm_is_good(*comm) || *comm == MPI_COMM_WORLD || *comm == MPI_COMM_SELF) {
        return raised(*comm, MPI_ERR_COMM, __func__);
    }
    int code = attributes_drop(*comm);
    if (code == MPI_SUCCESS) {
        comm_release(*comm);
        *comm = MPI_COMM_NULL;
    }
    return raised(NULL, code, __func__);
}

int MPI_Comm_disconnect(MPI_Comm *comm) { return MPI_Comm_free(comm); }
