/* Info objects: pairs of texts, in the order in which they came. */
#include <stdio.h>
#include <stdlib.h>
#include <string.h>

#include "errors.h"

static bool is_good(MPI_Info info) { return info != NULL && info != MPI_INFO_NULL; }

static struct pair **place_of(MPI_Info info, const char *key) {
    struct pair **place = &info->first;
    while (*place != NULL && strcmp((*place)->key, key) != 0) {
        place = &(*place)->next;
    }
    return place;
}

static int key_check(MPI_Info info, const char *key) {
    if (!is_good(info)) {
        return MPI_ERR_INFO;
    }
    bool is_key = key != NULL && *key != '\0' && strlen(key) < MPI_MAX_INFO_KEY;
    return is_key ? MPI_SUCCESS : MPI_ERR_INFO_KEY;
}

static void drop(struct pair **place) {
    struct pair *pair = *place;
    *place = pair->next;
    free(pair->key);
    free(pair->value);
    free(pair);
}

static int set(MPI_Info info, const char *key, const char *value) {
    struct pair **place = place_of(info, key);
    char *copy = strdup(value);
    if (copy == NULL) {
        return MPI_ERR_NO_MEM;
    }
    if (*place != NULL) {
        free((*place)->value);
        (*place)->value = copy;
        return MPI_SUCCESS;
    }
    struct pair *pair = calloc(1, sizeof *pair);
    char *name = strdup(key);
    if (pair == NULL || name == NULL) {
        free(pair);
        free(name);
        free(copy);
        return MPI_ERR_NO_MEM;
    }
    *pair = (struct pair){name, copy, NULL};
    *place = pair;
    return MPI_SUCCESS;
}

int MPI_Info_create(MPI_Info *info) {
    *info = calloc(1, sizeof **info);
    return raised(NULL, *info == NULL ? MPI_ERR_NO_MEM : MPI_SUCCESS, __func__);
}

int MPI_Info_free(MPI_Info *info) {
    if (!is_good(*info) || *info == MPI_INFO_ENV) {
        return raised(NULL, MPI_ERR_INFO, __func__);
    }
    while ((*info)->first != NULL) {
        drop(&(*info)->first);
    }
    free(*info);
    *info = MPI_INFO_NULL;
    return MPI_SUCCESS;
}

int MPI_Info_set(MPI_Info info, const char *key, const char *value) {
    int code = key_check(info, key);
    if (code == MPI_SUCCESS) {
        bool is_value = value != NULL && *value != '\0' && strlen(value) < MPI_MAX_INFO_VAL;
        code = is_value ? set(info, key, value) : MPI_ERR_INFO_VALUE;
    }
    return raised(NULL, code, __func__);
}

int MPI_Info_delete(MPI_Info info, const char *key) {
    int code = key_check(info, key);
    if (code == MPI_SUCCESS && *place_of(info, key) == NULL) {
        code = MPI_ERR_INFO_NOKEY;
    }
    if (code == MPI_SUCCESS) {
        drop(place_of(info, key));
    }
    return raised(NULL, code, __func__);
}

int MPI_Info_get(MPI_Info info, const char *key, int length, char *value, int *flag) {
    int code = key_check(info, key);
    if (code == MPI_SUCCESS) {
        struct pair *pair = *place_of(info, key);
        *flag = pair != NULL;
        if (*flag) {
            snprintf(value, (size_t)length + 1, "%s", pair->value);
        }
    }
    return raised(NULL, code, __func__);
}

int MPI_Info_get_valuelen(MPI_Info info, const char *key, int *length, int *flag) {
    int code = key_check(info, key);
    if (code == MPI_SUCCESS) {
        struct pair *pair = *place_of(info, key);
        *flag = pair != NULL;
        *length = *flag ? (int)strlen(pair->value) : *length;
    }
    return raised(NULL, code, __func__);
}

int MPI_Info_get_string(MPI_Info info, const char *key, int *room, char *value, int *flag) {
    int code = key_check(info, key);
    if (code == MPI_SUCCESS) {
        struct pair *pair = *place_of(info, key);
        *flag = pair != NULL;
        if (*flag && *room > 0) {
            snprintf(value, (size_t)*room, "%s", pair->value);
        }
        *room = *flag ? (int)strlen(pair->value) + 1 : *room;
    }
    return raised(NULL, code, __func__);
}

int MPI_Info_get_nkeys(MPI_Info info, int *count) {
    if (!is_good(info)) {
        return raised(NULL, MPI_ERR_INFO, __func__);
    }
    *count = 0;
    for (struct pair *pair = info->first; pair != NULL; pair = pair->next) {
        (*count)++;
    }
    return MPI_SUCCESS;
}

int MPI_Info_get_nthkey(MPI_Info info, int place, char *key) {
    if (!is_good(info)) {
        return raised(NULL, MPI_ERR_INFO, __func__);
    }
    struct pair *pair = info->first;
    for (int i = 0; pair != NULL && i < place; i++) {
        pair = pair->next;
    }
    if (pair == NULL || place < 0) {
        return raised(NULL, MPI_ERR_ARG, __func__);
    }
    strcpy(key, pair->key);
    return MPI_SUCCESS;
}

int MPI_Info_dup(MPI_Info info, MPI_Info *made) {
    if (!is_good(info)) {
        return raised(NULL, MPI_ERR_INFO, __func__);
    }
    int code = MPI_Info_create(made);
    for (struct pair *pair = info->first; pair != NULL && code == MPI_SUCCESS; pair = pair->next) {
        code = set(*made, pair->key, pair->value);
    }
    return raised(NULL, code, __func__);
}
