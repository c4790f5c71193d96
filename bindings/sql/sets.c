/* Sets by name, and types by name. */
#include "sql.h"

#include <stdlib.h>
#include <string.h>

static bool is_same(const uint8_t *at, size_t len, struct mb_bytes bytes)
{
    return len == bytes.len && (len == 0 || memcmp(at, bytes.at, len) == 0);
}

static uint8_t *copied(struct mb_bytes bytes)
{
    uint8_t *copy = malloc(bytes.len + 1);

    if (copy != NULL && bytes.len != 0)
        memcpy(copy, bytes.at, bytes.len);
    return copy;
}

static void free_set(struct set *set)
{
    mb_pool_free(&set->pool);
    free(set->name);
    free(set->bytes);
    free(set);
}

void free_sets(struct sets *sets)
{
    while (sets->first != NULL) {
        struct set *set = sets->first;
        sets->first = set->next;
        free_set(set);
    }
}

static bool link_pool(struct set *set, struct problem *problem)
{
    struct report report;
    struct mb_refusal refusal = {0};
    uint8_t text[1024];
    size_t left_out = 0;
    uint32_t answer;

    if (set->is_lenient)
        answer = mb_pool_link_lenient(set->bytes, set->bytes_len, &set->pool, &left_out, &report.fault, report.path, MB_MAX_STEPS, &refusal, text, sizeof text);
    else
        answer = mb_pool_link(set->bytes, set->bytes_len, &set->pool, &report.fault, report.path, MB_MAX_STEPS, &refusal, text, sizeof text);
    return answer == MB_DONE || refuse_link(problem, answer, &report, &refusal, text, sizeof text);
}

static bool count_types(struct set *set, size_t *types, struct problem *problem)
{
    struct mb_counts counts;
    uint32_t answer = mb_pool_counts(&set->pool, &counts);

    if (answer != MB_DONE)
        return refuse_answer(problem, answer);
    *types = counts.messages;
    return true;
}

bool add_set(struct sets *sets, struct mb_bytes name, struct mb_bytes bytes, bool is_lenient, size_t *types, struct problem *problem)
{
    struct set **last = &sets->first;

    if (name.len == 0 || memchr(name.at, '/', name.len) != NULL)
        return refuse(problem, BAD_NAME, "the name of a set is not empty and has no slash");
    for (; *last != NULL; last = &(*last)->next)
        if (is_same((*last)->name, (*last)->name_len, name)) {
            if (is_same((*last)->bytes, (*last)->bytes_len, bytes) && (*last)->is_lenient == is_lenient)
                return count_types(*last, types, problem);
            return refuse(problem, BAD_NAME, "set %s is registered, and a set does not change: give this one another name", show(name.at, name.len).text);
        }
    struct set *set = calloc(1, sizeof *set);
    if (set == NULL)
        return refuse(problem, OUT_OF_MEMORY, "memory");
    *set = (struct set){.is_lenient = is_lenient, .name = copied(name), .name_len = name.len, .bytes = copied(bytes), .bytes_len = bytes.len};
    if (set->name == NULL || set->bytes == NULL)
        refuse(problem, OUT_OF_MEMORY, "memory");
    else if (link_pool(set, problem) && count_types(set, types, problem)) {
        *last = set;
        return true;
    }
    free_set(set);
    return false;
}

bool find_type(struct sets *sets, struct mb_bytes name, struct type *type, struct problem *problem)
{
    const uint8_t *slash = name.len == 0 ? NULL : memchr(name.at, '/', name.len);
    struct mb_bytes of = {name.at, slash == NULL ? 0 : (size_t)(slash - name.at)};
    struct mb_bytes full = slash == NULL ? name : (struct mb_bytes){slash + 1, name.len - of.len - 1};
    bool is_here = false;

    for (struct set *set = sets->first; set != NULL; set = set->next) {
        if (slash != NULL && !is_same(set->name, set->name_len, of))
            continue;
        is_here = true;
        uint32_t answer = mb_pool_type(&set->pool, full.at, full.len, &type->number);
        if (answer == MB_DONE) {
            type->pool = &set->pool;
            return true;
        }
        if (answer != MB_NO_TYPE)
            return refuse_answer(problem, answer);
    }
    if (slash != NULL && !is_here)
        return refuse(problem, UNKNOWN_TYPE, "set %s unknown", show(of.at, of.len).text);
    return refuse(problem, UNKNOWN_TYPE, "type %s unknown%s", show(name.at, name.len).text, sets->first == NULL ? ": no set is registered" : "");
}
