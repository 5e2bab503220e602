/* Attributes that a program caches with communicators and types, and names. */
#include <stdio.h>
#include <stdlib.h>
#include <string.h>

#include "comms.h"
#include "errors.h"

enum { FIRST_OWN_KEYVAL = 32, MOST_KEYVALS = 4096 };

typedef int(copy_function)(void *, int, void *, void *, void *, int *);
typedef int(delete_function)(void *, int, void *, void *);

enum { OF_COMM, OF_TYPE };

/* What is done with the values of a key. One that was freed stays for those that have it. */
struct keyval {
    int of;
    bool is_freed;
    copy_function *copy;
    delete_function *delete;
    void *extra;
};
static struct keyval *keyvals;
static int keyval_count;

static struct keyval *keyval_at(int key, int of) {
    int place = key - FIRST_OWN_KEYVAL;
    bool is_known = place >= 0 && place < keyval_count && keyvals[place].of == of;
    return is_known ? &keyvals[place] : NULL;
}

static int keyval_create(int of, copy_function *copy, delete_function *delete, int *key,
                         void *extra) {
    struct keyval *more = realloc(keyvals, ((size_t)keyval_count + 1) * sizeof *more);
    if (more == NULL || keyval_count == MOST_KEYVALS) {
        return MPI_ERR_NO_MEM;
    }
    keyvals = more;
    keyvals[keyval_count] = (struct keyval){of, false, copy, delete, extra};
    *key = FIRST_OWN_KEYVAL + keyval_count++;
    return MPI_SUCCESS;
}

static int keyval_free(int of, int *key) {
    struct keyval *keyval = keyval_at(*key, of);
    if (keyval == NULL || keyval->is_freed) {
        return MPI_ERR_KEYVAL;
    }
    keyval->is_freed = true;
    *key = MPI_KEYVAL_INVALID;
    return MPI_SUCCESS;
}

static struct attribute **place_of(struct attribute **list, int key) {
    while (*list != NULL && (*list)->keyval != key) {
        list = &(*list)->next;
    }
    return list;
}

static int attribute_delete(void *owner, struct attribute **place, int of) {
    struct attribute *attribute = *place;
    struct keyval *keyval = keyval_at(attribute->keyval, of);
    int code = MPI_SUCCESS;
    if (keyval != NULL && keyval->delete != NULL) {
        code = keyval->delete (owner, attribute->keyval, attribute->value, keyval->extra);
    }
    if (code == MPI_SUCCESS) {
        *place = attribute->next;
        free(attribute);
    }
    return code;
}

static int attribute_set(void *owner, struct attribute **list, int of, int key, void *value) {
    struct keyval *keyval = keyval_at(key, of);
    if (keyval == NULL || keyval->is_freed) {
        return MPI_ERR_KEYVAL;
    }
    struct attribute **place = place_of(list, key);
    if (*place != NULL) {
        int code = attribute_delete(owner, place, of);
        if (code != MPI_SUCCESS) {
            return code;
        }
    }
    struct attribute *attribute = malloc(sizeof *attribute);
    if (attribute == NULL) {
        return MPI_ERR_NO_MEM;
    }
    *attribute = (struct attribute){key, value, *list};
    *list = attribute;
    return MPI_SUCCESS;
}

static int attribute_get(struct attribute *list, int key, void *value, int *flag) {
    struct attribute **place = place_of(&list, key);
    *flag = *place != NULL;
    if (*flag) {
        *(void **)value = (*place)->value;
    }
    return MPI_SUCCESS;
}

static int drop(void *owner, struct attribute **list, int of) {
    int code = MPI_SUCCESS;
    while (*list != NULL && code == MPI_SUCCESS) {
        code = attribute_delete(owner, list, of);
    }
    return code;
}

static int copy_all(void *from, const struct attribute *list, struct attribute **to_list, int of) {
    for (; list != NULL; list = list->next) {
        struct keyval *keyval = keyval_at(list->keyval, of);
        void *value = NULL;
        int flag = 0, code = MPI_SUCCESS;
        if (keyval != NULL && keyval->copy != NULL) {
            code = keyval->copy(from, list->keyval, keyval->extra, list->value, &value, &flag);
        }
        if (code != MPI_SUCCESS) {
            return code;
        }
        struct attribute *copy = flag ? malloc(sizeof *copy) : NULL;
        if (copy != NULL) {
            *copy = (struct attribute){list->keyval, value, *to_list};
            *to_list = copy;
        } else if (flag) {
            return MPI_ERR_NO_MEM;
        }
    }
    return MPI_SUCCESS;
}

int attributes_copy(MPI_Comm from, MPI_Comm to) {
    return copy_all(from, from->attributes, &to->attributes, OF_COMM);
}

int attributes_drop(MPI_Comm comm) { return drop(comm, &comm->attributes, OF_COMM); }

void type_attributes_drop(MPI_Datatype type) { drop(type, &type->attributes, OF_TYPE); }

int type_attributes_copy(MPI_Datatype from, MPI_Datatype to) {
    return copy_all(from, from->attributes, &to->attributes, OF_TYPE);
}

int MPI_Comm_create_keyval(MPI_Comm_copy_attr_function *copy, MPI_Comm_delete_attr_function *delete,
                           int *key, void *extra) {
    int code = keyval_create(OF_COMM, (copy_function *)(void (*)(void))copy,
                             (delete_function *)(void (*)(void)) delete, key, extra);
    return raised(NULL, code, __func__);
}

int MPI_Type_create_keyval(MPI_Type_copy_attr_function *copy, MPI_Type_delete_attr_function *delete,
                           int *key, void *extra) {
    int code = keyval_create(OF_TYPE, (copy_function *)(void (*)(void))copy,
                             (delete_function *)(void (*)(void)) delete, key, extra);
    return raised(NULL, code, __func__);
}

int MPI_Comm_free_keyval(int *key) { return raised(NULL, keyval_free(OF_COMM, key), __func__); }

int MPI_Type_free_keyval(int *key) { return raised(NULL, keyval_free(OF_TYPE, key), __func__); }

int MPI_Comm_set_attr(MPI_Comm comm, int key, void *value) {
    int code = comm_is_good(comm) ? attribute_set(comm, &comm->attributes, OF_COMM, key, value)
                                  : MPI_ERR_COMM;
    return raised(comm, code, __func__);
}

int MPI_Type_set_attr(MPI_Datatype type, int key, void *value) {
    return raised(NULL, attribute_set(type, &type->attributes, OF_TYPE, key, value), __func__);
}

int MPI_Comm_delete_attr(MPI_Comm comm, int key) {
    int code = comm_is_good(comm) ? MPI_ERR_KEYVAL : MPI_ERR_COMM;
    if (code == MPI_ERR_KEYVAL && *place_of(&comm->attributes, key) != NULL) {
        code = attribute_delete(comm, place_of(&comm->attributes, key), OF_COMM);
    }
    return raised(comm, code, __func__);
}

int MPI_Type_delete_attr(MPI_Datatype type, int key) {
    int code = MPI_ERR_KEYVAL;
    if (*place_of(&type->attributes, key) != NULL) {
        code = attribute_delete(type, place_of(&type->attributes, key), OF_TYPE);
    }
    return raised(NULL, code, __func__);
}

/* What MPI itself caches with the world. */
static int *world_attribute(int key) {
    static int most_tag = INT32_MAX, none = MPI_PROC_NULL, any = MPI_ANY_SOURCE, no = 0, zero = 0;
    static int last_code = MPI_ERR_LASTCODE, universe;
    universe = ((MPI_Comm)MPI_COMM_WORLD)->size;
    switch (key) {
    case MPI_TAG_UB: return &most_tag;
    case MPI_HOST: return &none;
    case MPI_IO: return &any;
    case MPI_WTIME_IS_GLOBAL: return &no;
    case MPI_APPNUM: return &zero;
    case MPI_LASTUSEDCODE: return &last_code;
    case MPI_UNIVERSE_SIZE: return &universe;
    default: return NULL;
    }
}

int MPI_Comm_get_attr(MPI_Comm comm, int key, void *value, int *flag) {
    if (!comm_is_good(comm)) {
        return raised(comm, MPI_ERR_COMM, __func__);
    }
    int *own = world_attribute(key);
    if (own != NULL) {
        *(int **)value = own;
        *flag = 1;
        return MPI_SUCCESS;
    }
    if (keyval_at(key, OF_COMM) == NULL) {
        return raised(comm, MPI_ERR_KEYVAL, __func__);
    }
    return attribute_get(comm->attributes, key, value, flag);
}

int MPI_Type_get_attr(MPI_Datatype type, int key, void *value, int *flag) {
    if (keyval_at(key, OF_TYPE) == NULL) {
        return raised(NULL, MPI_ERR_KEYVAL, __func__);
    }
    return attribute_get(type->attributes, key, value, flag);
}

int MPI_Comm_set_name(MPI_Comm comm, const char *name) {
    if (!comm_is_good(comm)) {
        return raised(comm, MPI_ERR_COMM, __func__);
    }
    snprintf(comm->name, sizeof comm->name, "%s", name);
    return MPI_SUCCESS;
}

int MPI_Comm_get_name(MPI_Comm comm, char *name, int *length) {
    if (!comm_is_good(comm) && comm != MPI_COMM_NULL) {
        return raised(comm, MPI_ERR_COMM, __func__);
    }
    strcpy(name, comm->name);
    *length = (int)strlen(name);
    return MPI_SUCCESS;
}

#define NULL_COPY                                                                                  \
    (void)object, (void)key, (void)extra, (void)in, (void)out;                                     \
    *flag = 0;                                                                                     \
    return MPI_SUCCESS
#define DUP_COPY                                                                                   \
    (void)object, (void)key, (void)extra;                                                          \
    *(void **)out = in;                                                                            \
    *flag = 1;                                                                                     \
    return MPI_SUCCESS
#define NULL_DELETE                                                                                \
    (void)object, (void)key, (void)value, (void)extra;                                             \
    return MPI_SUCCESS
#define ATTRIBUTE_FUNCTIONS(NAME, handle)                                                          \
    int OMPI_C_MPI_##NAME##_NULL_COPY_FN(handle object, int key, void *extra, void *in, void *out, \
                                         int *flag) {                                              \
        NULL_COPY;                                                                                 \
    }                                                                                              \
    int OMPI_C_MPI_##NAME##_DUP_FN(handle object, int key, void *extra, void *in, void *out,       \
                                   int *flag) {                                                    \
        DUP_COPY;                                                                                  \
    }                                                                                              \
    int OMPI_C_MPI_##NAME##_NULL_DELETE_FN(handle object, int key, void *value, void *extra) {     \
        NULL_DELETE;                                                                               \
    }
ATTRIBUTE_FUNCTIONS(COMM, MPI_Comm)
ATTRIBUTE_FUNCTIONS(TYPE, MPI_Datatype)
ATTRIBUTE_FUNCTIONS(WIN, MPI_Win)
