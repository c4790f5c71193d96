/* The extension for SQLite: the functions pb_register, pb_get, pb_json, pb_from_json, pb_valid and pb_fault, and the table function pb_frames. The sets of a
 * connection are registered in that connection, and stay until it is closed. docs/SQL.md has examples. */
#include <sqlite3ext.h>
SQLITE_EXTENSION_INIT1

#include "sql.h"

#include <inttypes.h>
#include <math.h>
#include <stdio.h>
#include <string.h>

/* The sets of a connection, and how many functions and modules of it use them. */
struct registry {
    struct sets sets;
    unsigned users;
};

static void leave_registry(void *at)
{
    struct registry *registry = at;

    if (--registry->users == 0) {
        free_sets(&registry->sets);
        sqlite3_free(registry);
    }
}

static void *take_block(size_t size)
{
    return sqlite3_malloc64(size);
}

static void drop_block(void *at)
{
    sqlite3_free(at);
}

/* No limit of SQLite lets a value have more bytes than these. */
static const struct memory results = {take_block, drop_block, 0, 0x7fff0000};

/* ---- Arguments and results ---- */

static void fail(sqlite3_context *context, const struct problem *problem)
{
    if (problem->reason == OUT_OF_MEMORY)
        sqlite3_result_error_nomem(context);
    else if (problem->reason == RESULT_TOO_LARGE)
        sqlite3_result_error_toobig(context);
    else
        sqlite3_result_error(context, problem->line, -1);
}

static struct mb_bytes bytes_of(sqlite3_value *value)
{
    const uint8_t *at = sqlite3_value_type(value) == SQLITE_TEXT ? sqlite3_value_text(value) : sqlite3_value_blob(value);

    return (struct mb_bytes){at, at == NULL ? 0 : (size_t)sqlite3_value_bytes(value)};
}

/* What a function takes, in order: n is a name, a type or a path, t is JSON, b is a BLOB. The message of an error names it. */
static bool take_arguments(sqlite3_context *context, const char *function, const char *kinds, sqlite3_value **values, struct mb_bytes *taken)
{
    struct problem problem;

    for (size_t i = 0; kinds[i] != 0; i++)
        if (sqlite3_value_type(values[i]) == SQLITE_NULL)
            return false;
    for (size_t i = 0; kinds[i] != 0; i++) {
        bool is_blob = kinds[i] == 'b';
        if (sqlite3_value_type(values[i]) != (is_blob ? SQLITE_BLOB : SQLITE_TEXT)) {
            refuse(&problem, BAD_NAME, "%s takes %s as argument %zu", function, is_blob ? "a BLOB" : "TEXT", i + 1);
            fail(context, &problem);
            return false;
        }
        taken[i] = bytes_of(values[i]);
    }
    return true;
}

static struct registry *registry_of(sqlite3_context *context)
{
    return sqlite3_user_data(context);
}

static bool type_of(sqlite3_context *context, struct mb_bytes name, struct type *type)
{
    struct problem problem;

    if (find_type(&registry_of(context)->sets, name, type, &problem))
        return true;
    fail(context, &problem);
    return false;
}

static void put_text(sqlite3_context *context, const struct result *result)
{
    sqlite3_result_text64(context, (char *)result->at, result->len, sqlite3_free, SQLITE_UTF8);
}

static void put_unsigned(sqlite3_context *context, uint64_t number)
{
    char digits[24];

    if (number <= INT64_MAX) {
        sqlite3_result_int64(context, (sqlite3_int64)number);
        return;
    }
    snprintf(digits, sizeof digits, "%" PRIu64, number);
    sqlite3_result_text(context, digits, -1, SQLITE_TRANSIENT);
}

/* SQLite would make NULL of a NaN. */
static void put_real(sqlite3_context *context, double number)
{
    if (isnan(number))
        sqlite3_result_text(context, "NaN", -1, SQLITE_STATIC);
    else
        sqlite3_result_double(context, number);
}

static void put_answer(sqlite3_context *context, const struct answer *answer)
{
    uint32_t half_bits = (uint32_t)answer->number;
    float half;
    double real;

    switch (answer->form) {
    case FORM_NULL:
        break;
    case FORM_SIGNED: case FORM_BOOL:
        sqlite3_result_int64(context, (sqlite3_int64)answer->number);
        break;
    case FORM_UNSIGNED:
        put_unsigned(context, answer->number);
        break;
    case FORM_FLOAT:
        memcpy(&half, &half_bits, sizeof half);
        put_real(context, half);
        break;
    case FORM_DOUBLE:
        memcpy(&real, &answer->number, sizeof real);
        put_real(context, real);
        break;
    case FORM_TEXT: case FORM_JSON:
        put_text(context, &answer->result);
        break;
    case FORM_BYTES:
        sqlite3_result_blob64(context, answer->result.at, answer->result.len, sqlite3_free);
        break;
    }
}

/* ---- Functions ---- */

static void pb_register(sqlite3_context *context, int count, sqlite3_value **values)
{
    struct mb_bytes taken[2];
    struct problem problem;
    size_t types = 0;

    if (!take_arguments(context, "pb_register", "nb", values, taken))
        return;
    if (add_set(&registry_of(context)->sets, taken[0], taken[1], count == 3 && sqlite3_value_int(values[2]) != 0, &types, &problem))
        sqlite3_result_int64(context, (sqlite3_int64)types);
    else
        fail(context, &problem);
}

/* The plan of a path, which is kept as long as the path stays the same in a statement. NULL if an error is set. */
static const struct plan *plan_of(sqlite3_context *context, struct mb_bytes name, struct mb_bytes path)
{
    const struct plan *kept = sqlite3_get_auxdata(context, 2);
    struct problem problem;
    struct type type;

    if (kept != NULL && is_plan_of(kept, name, path))
        return kept;
    if (!type_of(context, name, &type))
        return NULL;
    struct plan *plan = sqlite3_malloc64(plan_size(name, path));
    if (plan != NULL && !make_plan(plan, &type, name, path, &problem)) {
        sqlite3_free(plan);
        fail(context, &problem);
        return NULL;
    }
    if (plan != NULL)
        sqlite3_set_auxdata(context, 2, plan, sqlite3_free);
    kept = sqlite3_get_auxdata(context, 2);
    if (plan == NULL || kept == NULL) {
        sqlite3_result_error_nomem(context);
        return NULL;
    }
    return kept;
}

static void pb_get(sqlite3_context *context, int count, sqlite3_value **values)
{
    struct mb_bytes taken[3];
    struct problem problem;
    struct answer answer;

    (void)count;
    if (!take_arguments(context, "pb_get", "nbn", values, taken))
        return;
    const struct plan *plan = plan_of(context, taken[0], taken[2]);
    if (plan == NULL)
        return;
    if (get(plan, taken[1], &results, &answer, &problem))
        put_answer(context, &answer);
    else
        fail(context, &problem);
}

static void pb_json(sqlite3_context *context, int count, sqlite3_value **values)
{
    enum { JSON_SUBTYPE = 'J' }; /* by which json_object and others take it as JSON and not as a string */
    struct mb_bytes taken[2];
    struct problem problem;
    struct result json;
    struct type type;

    (void)count;
    if (!take_arguments(context, "pb_json", "nb", values, taken) || !type_of(context, taken[0], &type))
        return;
    if (!json_of(&type, taken[1], &results, &json, &problem)) {
        fail(context, &problem);
        return;
    }
    put_text(context, &json);
    sqlite3_result_subtype(context, JSON_SUBTYPE);
}

static void pb_from_json(sqlite3_context *context, int count, sqlite3_value **values)
{
    struct mb_bytes taken[2];
    struct problem problem;
    struct result message;
    struct type type;

    (void)count;
    if (!take_arguments(context, "pb_from_json", "nt", values, taken) || !type_of(context, taken[0], &type))
        return;
    if (message_of(&type, taken[1], &results, &message, &problem))
        sqlite3_result_blob64(context, message.at, message.len, sqlite3_free);
    else
        fail(context, &problem);
}

/* Checks the bytes. Returns 1 if they are a message, 0 if they are refused, and -1 if the function has its result. */
static int judge(sqlite3_context *context, const char *function, sqlite3_value **values, struct problem *problem)
{
    struct mb_bytes taken[2];
    struct type type;

    if (!take_arguments(context, function, "nb", values, taken) || !type_of(context, taken[0], &type))
        return -1;
    if (check(&type, taken[1], problem))
        return 1;
    if (problem->reason == BAD_BYTES)
        return 0;
    fail(context, problem);
    return -1;
}

static void pb_valid(sqlite3_context *context, int count, sqlite3_value **values)
{
    struct problem problem;
    int is_message = judge(context, "pb_valid", values, &problem);

    (void)count;
    if (is_message >= 0)
        sqlite3_result_int(context, is_message);
}

static void pb_fault(sqlite3_context *context, int count, sqlite3_value **values)
{
    struct problem problem;

    (void)count;
    if (judge(context, "pb_fault", values, &problem) == 0)
        sqlite3_result_text(context, problem.line, -1, SQLITE_TRANSIENT);
}

/* ---- The table function pb_frames ---- */

enum { COLUMN_FRAME, COLUMN_AT, COLUMN_BYTES, COLUMN_FAULT, COLUMN_TYPE, COLUMN_STREAM, COLUMN_KEEP_GOING };

struct frames {
    sqlite3_vtab base;
    struct registry *registry;
};

struct cursor {
    sqlite3_vtab_cursor base;
    struct type type;
    sqlite3_value *name, *stream;
    bool keeps_going;
    bool is_at_end;
    sqlite3_int64 index;
    struct row row;
    struct problem problem;
};

static int connect_frames(sqlite3 *db, void *registry, int argc, const char *const *argv, sqlite3_vtab **vtab, char **message)
{
    (void)argc, (void)argv, (void)message;
    int status = sqlite3_declare_vtab(db, "CREATE TABLE x(frame INTEGER, at INTEGER, bytes BLOB, fault TEXT, type HIDDEN, stream HIDDEN, keep_going HIDDEN)");
    if (status != SQLITE_OK)
        return status;
    struct frames *frames = sqlite3_malloc64(sizeof *frames);
    if (frames == NULL)
        return SQLITE_NOMEM;
    *frames = (struct frames){.registry = registry};
    *vtab = &frames->base;
    return sqlite3_vtab_config(db, SQLITE_VTAB_INNOCUOUS);
}

static int disconnect_frames(sqlite3_vtab *vtab)
{
    sqlite3_free(vtab);
    return SQLITE_OK;
}

static int open_frames(sqlite3_vtab *vtab, sqlite3_vtab_cursor **opened)
{
    struct cursor *cursor = sqlite3_malloc64(sizeof *cursor);

    (void)vtab;
    if (cursor == NULL)
        return SQLITE_NOMEM;
    memset(cursor, 0, sizeof *cursor);
    *opened = &cursor->base;
    return SQLITE_OK;
}

static void empty_cursor(struct cursor *cursor)
{
    sqlite3_value_free(cursor->name);
    sqlite3_value_free(cursor->stream);
    cursor->name = cursor->stream = NULL;
    cursor->is_at_end = true;
}

static int close_frames(sqlite3_vtab_cursor *base)
{
    empty_cursor((struct cursor *)base);
    sqlite3_free(base);
    return SQLITE_OK;
}

/* The arguments are constraints on the hidden columns: type and stream have to be there, in the order of their columns. */
static int plan_frames(sqlite3_vtab *vtab, sqlite3_index_info *info)
{
    int found[3] = {-1, -1, -1};

    (void)vtab;
    for (int i = 0; i < info->nConstraint; i++) {
        int column = info->aConstraint[i].iColumn - COLUMN_TYPE;
        if (column < 0 || info->aConstraint[i].op != SQLITE_INDEX_CONSTRAINT_EQ)
            continue;
        if (!info->aConstraint[i].usable)
            return SQLITE_CONSTRAINT;
        found[column] = i;
    }
    if (found[0] < 0 || found[1] < 0) {
        vtab->zErrMsg = sqlite3_mprintf("pb_frames takes a type and a stream");
        return SQLITE_ERROR;
    }
    for (int i = 0, argument = 1; i < 3; i++)
        if (found[i] >= 0)
            info->aConstraintUsage[found[i]] = (struct sqlite3_index_constraint_usage){argument++, 1};
    info->idxNum = found[2] >= 0;
    info->estimatedCost = 1000;
    info->estimatedRows = 1000;
    return SQLITE_OK;
}

static int fail_frames(struct cursor *cursor, const char *line, int status)
{
    sqlite3_vtab *vtab = cursor->base.pVtab;

    sqlite3_free(vtab->zErrMsg);
    vtab->zErrMsg = sqlite3_mprintf("%s", line);
    cursor->is_at_end = true;
    return status;
}

static int read_frame(struct cursor *cursor, size_t at)
{
    struct mb_bytes stream = bytes_of(cursor->stream);

    cursor->is_at_end = at >= stream.len;
    if (cursor->is_at_end)
        return SQLITE_OK;
    if (!next_row(&cursor->type, stream, at, (uint64_t)cursor->index, &cursor->row, &cursor->problem))
        return fail_frames(cursor, cursor->problem.line, SQLITE_NOMEM);
    return cursor->row.is_refused && !cursor->keeps_going ? fail_frames(cursor, cursor->problem.line, SQLITE_ERROR) : SQLITE_OK;
}

static int filter_frames(sqlite3_vtab_cursor *base, int has_keep_going, const char *ignored, int argc, sqlite3_value **argv)
{
    struct cursor *cursor = (struct cursor *)base;
    struct frames *frames = (struct frames *)base->pVtab;

    (void)ignored, (void)argc;
    empty_cursor(cursor);
    if (sqlite3_value_type(argv[0]) == SQLITE_NULL || sqlite3_value_type(argv[1]) == SQLITE_NULL)
        return SQLITE_OK;
    if (sqlite3_value_type(argv[0]) != SQLITE_TEXT || sqlite3_value_type(argv[1]) != SQLITE_BLOB)
        return fail_frames(cursor, "pb_frames takes TEXT as argument 1 and a BLOB as argument 2", SQLITE_ERROR);
    cursor->name = sqlite3_value_dup(argv[0]);
    cursor->stream = sqlite3_value_dup(argv[1]);
    if (cursor->name == NULL || cursor->stream == NULL)
        return SQLITE_NOMEM;
    cursor->keeps_going = has_keep_going && sqlite3_value_int(argv[2]) != 0;
    cursor->index = 0;
    if (!find_type(&frames->registry->sets, bytes_of(cursor->name), &cursor->type, &cursor->problem))
        return fail_frames(cursor, cursor->problem.line, SQLITE_ERROR);
    return read_frame(cursor, 0);
}

static int advance_frames(sqlite3_vtab_cursor *base)
{
    struct cursor *cursor = (struct cursor *)base;

    cursor->index++;
    return read_frame(cursor, cursor->row.next);
}

static int is_past_frames(sqlite3_vtab_cursor *base)
{
    return ((struct cursor *)base)->is_at_end;
}

static int column_of_frame(sqlite3_vtab_cursor *base, sqlite3_context *context, int column)
{
    const struct cursor *cursor = (const struct cursor *)base;
    const struct row *row = &cursor->row;

    switch (column) {
    case COLUMN_FRAME:
        sqlite3_result_int64(context, cursor->index);
        break;
    case COLUMN_AT:
        sqlite3_result_int64(context, (sqlite3_int64)row->at);
        break;
    case COLUMN_BYTES:
        if (row->has_bytes)
            sqlite3_result_blob64(context, bytes_of(cursor->stream).at + row->begin, row->end - row->begin, SQLITE_TRANSIENT);
        break;
    case COLUMN_FAULT:
        if (row->is_refused)
            sqlite3_result_text(context, cursor->problem.line, -1, SQLITE_TRANSIENT);
        break;
    case COLUMN_KEEP_GOING:
        sqlite3_result_int(context, cursor->keeps_going);
        break;
    default:
        sqlite3_result_value(context, column == COLUMN_TYPE ? cursor->name : cursor->stream);
    }
    return SQLITE_OK;
}

static int row_of_frame(sqlite3_vtab_cursor *base, sqlite3_int64 *row)
{
    *row = ((struct cursor *)base)->index;
    return SQLITE_OK;
}

static const sqlite3_module frames_module = {
    .iVersion = 0, .xConnect = connect_frames, .xBestIndex = plan_frames, .xDisconnect = disconnect_frames, .xOpen = open_frames, .xClose = close_frames,
    .xFilter = filter_frames, .xNext = advance_frames, .xEof = is_past_frames, .xColumn = column_of_frame, .xRowid = row_of_frame,
};

/* ---- The extension ---- */

#ifndef SQLITE_RESULT_SUBTYPE
#define SQLITE_RESULT_SUBTYPE 0
#endif

/* pb_register changes what later calls answer, so no view or trigger of a database from a stranger may call it. The others always answer the same, once
 * their type is registered: sets are only added, and none changes. So an index may be made of them. */
enum { REGISTERS = SQLITE_UTF8 | SQLITE_DIRECTONLY, READS = SQLITE_UTF8 | SQLITE_DETERMINISTIC | SQLITE_INNOCUOUS };

static const struct {
    const char *name;
    int arguments, flags;
    void (*call)(sqlite3_context *, int, sqlite3_value **);
} functions[] = {
    {"pb_register", 2, REGISTERS, pb_register},
    {"pb_register", 3, REGISTERS, pb_register},
    {"pb_get", 3, READS, pb_get},
    {"pb_json", 2, READS | SQLITE_RESULT_SUBTYPE, pb_json},
    {"pb_from_json", 2, READS, pb_from_json},
    {"pb_valid", 2, READS, pb_valid},
    {"pb_fault", 2, READS, pb_fault},
};

__attribute__((visibility("default"))) int sqlite3_mabristusqlite_init(sqlite3 *db, char **message, const sqlite3_api_routines *api);

/* SQLite finds this function by the name of the file. */
int sqlite3_mabristusqlite_init(sqlite3 *db, char **message, const sqlite3_api_routines *api)
{
    SQLITE_EXTENSION_INIT2(api);
    (void)message;
    struct registry *registry = sqlite3_malloc64(sizeof *registry);
    int status = SQLITE_OK;

    if (registry == NULL)
        return SQLITE_NOMEM;
    *registry = (struct registry){.users = 1};
    /* A call that fails leaves the registry too. */
    for (size_t i = 0; status == SQLITE_OK && i < sizeof functions / sizeof *functions; i++) {
        registry->users++;
        status = sqlite3_create_function_v2(db, functions[i].name, functions[i].arguments, functions[i].flags, registry, functions[i].call, NULL, NULL, leave_registry);
    }
    if (status == SQLITE_OK) {
        registry->users++;
        status = sqlite3_create_module_v2(db, "pb_frames", &frames_module, registry, leave_registry);
    }
    leave_registry(registry);
    return status;
}
