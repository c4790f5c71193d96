/* The extension for PostgreSQL: the functions of mabristu--0.1.0.sql in C. The sets are in the table _pb_sets, which each backend reads once and again after
 * a change of it. docs/SQL.md has examples. */
#include "postgres.h"

#include "access/genam.h"
#include "access/htup_details.h"
#include "access/table.h"
#include "commands/trigger.h"
#include "common/shortest_dec.h"
#include "fmgr.h"
#include "funcapi.h"
#include "mb/pg_wchar.h"
#include "miscadmin.h"
#include "utils/builtins.h"
#include "utils/inval.h"
#include "utils/lsyscache.h"
#include "utils/memutils.h"
#include "utils/rel.h"

#include "sql.h"

PG_MODULE_MAGIC;

void _PG_init(void);

/* ---- Errors ---- */

static int code_of(enum reason reason)
{
    switch (reason) {
    case UNKNOWN_TYPE:
        return ERRCODE_UNDEFINED_OBJECT;
    case BAD_NAME:
        return ERRCODE_INVALID_NAME;
    case BAD_PATH:
        return ERRCODE_INVALID_PARAMETER_VALUE;
    case BAD_JSON:
        return ERRCODE_INVALID_TEXT_REPRESENTATION;
    case RESULT_TOO_LARGE:
        return ERRCODE_PROGRAM_LIMIT_EXCEEDED;
    case OUT_OF_MEMORY:
        return ERRCODE_OUT_OF_MEMORY;
    case NO_JSON_FORM:
        return ERRCODE_DATA_EXCEPTION;
    default:
        return ERRCODE_INVALID_BINARY_REPRESENTATION;
    }
}

/* All that the library holds is freed before this is called, since it jumps out. */
static void pg_attribute_noreturn() fail(const struct problem *problem)
{
    ereport(ERROR, (errcode(code_of(problem->reason)), errmsg("%s", problem->line),
                    problem->reason == UNKNOWN_TYPE ? errhint("SELECT pb_register(name, set) adds the types of a descriptor set.") : 0));
}

/* ---- Memory and text ---- */

static void *take_block(size_t size)
{
    return palloc_extended(size, MCXT_ALLOC_NO_OOM);
}

static void drop_block(void *at)
{
    pfree(at);
}

/* A result is a varlena, whose header comes before it. */
static const struct memory results = {take_block, drop_block, VARHDRSZ, MaxAllocSize - VARHDRSZ - 1};

static struct mb_bytes bytes_of(const struct varlena *from)
{
    return (struct mb_bytes){(const uint8_t *)VARDATA_ANY(from), VARSIZE_ANY_EXHDR(from)};
}

/* Text, which the database may hold in another encoding, as UTF-8. */
static struct mb_bytes utf8_of(const text *from)
{
    int len = VARSIZE_ANY_EXHDR(from);
    const char *at = VARDATA_ANY(from);
    char *converted = pg_server_to_any(at, len, PG_UTF8);

    return (struct mb_bytes){(const uint8_t *)converted, converted == at ? (size_t)len : strlen(converted)};
}

static Datum put_bytes(const struct result *result)
{
    SET_VARSIZE(result->at, VARHDRSZ + result->len);
    return PointerGetDatum(result->at);
}

/* A result in UTF-8 as text in the encoding of the database. No text has a zero byte. */
static Datum put_text(const struct result *result)
{
    char *at = (char *)result->at + VARHDRSZ;

    if (memchr(at, 0, result->len) != NULL)
        ereport(ERROR, (errcode(ERRCODE_UNTRANSLATABLE_CHARACTER), errmsg("the string has a zero byte, and text of PostgreSQL has none")));
    char *converted = pg_any_to_server(at, (int)result->len, PG_UTF8);
    return converted == at ? put_bytes(result) : PointerGetDatum(cstring_to_text(converted));
}

/* As bytea prints it, so that a cast to bytea gives the bytes. */
static Datum put_hexadecimal(const struct result *result)
{
    const char *digits = "0123456789abcdef";
    const uint8_t *at = result->at + VARHDRSZ;

    if (result->len > (MaxAllocSize - VARHDRSZ - 2) / 2)
        ereport(ERROR, (errcode(ERRCODE_PROGRAM_LIMIT_EXCEEDED), errmsg("output cause TooLarge")));
    text *made = palloc(VARHDRSZ + 2 + 2 * result->len);
    char *to = VARDATA(made);
    SET_VARSIZE(made, VARHDRSZ + 2 + 2 * result->len);
    *to++ = '\\';
    *to++ = 'x';
    for (size_t i = 0; i < result->len; i++) {
        *to++ = digits[at[i] >> 4];
        *to++ = digits[at[i] & 15];
    }
    return PointerGetDatum(made);
}

/* ---- Sets ---- */

/* The sets of this database in this backend. A change of the table _pb_sets makes them stale. `edition` counts how often they were read. */
static struct sets sets;
static bool is_stale = true;
static uint64 edition;
static Oid sets_table;

static void note_change(Datum ignored, Oid table)
{
    if (table == InvalidOid || table == sets_table)
        is_stale = true;
}

void _PG_init(void)
{
    CacheRegisterRelcacheCallback(note_change, (Datum)0);
}

static void read_set(HeapTuple row, TupleDesc columns)
{
    bool is_null;
    struct problem problem;
    size_t types;
    text *name = DatumGetTextPP(heap_getattr(row, 2, columns, &is_null));
    bytea *bytes = DatumGetByteaPP(heap_getattr(row, 3, columns, &is_null));
    bool is_lenient = DatumGetBool(heap_getattr(row, 4, columns, &is_null));

    if (!add_set(&sets, utf8_of(name), bytes_of(bytes), is_lenient, &types, &problem))
        fail(&problem);
}

/* Reads the table by its rising ids, as catalogs are read: whoever asks needs no right on it, and sees what is committed by now. */
static void read_sets(Relation table)
{
    Relation index = index_open(RelationGetPrimaryKeyIndex(table), AccessShareLock);
    SysScanDesc scan = systable_beginscan_ordered(table, index, NULL, 0, NULL);
    HeapTuple row;

    while (HeapTupleIsValid(row = systable_getnext_ordered(scan, ForwardScanDirection)))
        read_set(row, RelationGetDescr(table));
    systable_endscan_ordered(scan);
    index_close(index, AccessShareLock);
}

/* Brings the sets up to date. The table is in the schema of the function that is called. */
static void renew_sets(FunctionCallInfo fcinfo)
{
    if (!is_stale)
        return;
    free_sets(&sets);
    edition++;
    sets_table = get_relname_relid("_pb_sets", get_func_namespace(fcinfo->flinfo->fn_oid));
    if (!OidIsValid(sets_table))
        ereport(ERROR, (errcode(ERRCODE_UNDEFINED_TABLE), errmsg("the table _pb_sets is not in the schema of the extension mabristu")));
    Relation table = table_open(sets_table, AccessShareLock);
    /* A change that is reported from here on makes them stale again. */
    is_stale = false;
    PG_TRY();
    {
        read_sets(table);
    }
    PG_CATCH();
    {
        is_stale = true;
        PG_RE_THROW();
    }
    PG_END_TRY();
    table_close(table, AccessShareLock);
}

/* Each function begins with it. PostgreSQL keeps 512 KB of stack below the depth that check_stack_depth allows, and a call of the library takes less. */
static void begin(FunctionCallInfo fcinfo)
{
    check_stack_depth();
    renew_sets(fcinfo);
}

static struct type type_of(FunctionCallInfo fcinfo, struct mb_bytes name)
{
    struct problem problem;
    struct type type;

    begin(fcinfo);
    if (!find_type(&sets, name, &type, &problem))
        fail(&problem);
    return type;
}

PG_FUNCTION_INFO_V1(pb_sets_changed);
Datum pb_sets_changed(PG_FUNCTION_ARGS)
{
    TriggerData *trigger = (TriggerData *)fcinfo->context;

    if (!CALLED_AS_TRIGGER(fcinfo))
        ereport(ERROR, (errcode(ERRCODE_E_R_I_E_TRIGGER_PROTOCOL_VIOLATED), errmsg("pb_sets_changed is a trigger of _pb_sets")));
    if (TRIGGER_FIRED_BY_UPDATE(trigger->tg_event))
        ereport(ERROR, (errcode(ERRCODE_OBJECT_NOT_IN_PREREQUISITE_STATE), errmsg("a registered set does not change"),
                        errhint("Register the other set under a name of its own.")));
    CacheInvalidateRelcacheByRelid(RelationGetRelid(trigger->tg_relation));
    return PointerGetDatum(NULL);
}

PG_FUNCTION_INFO_V1(pb_set_types);
Datum pb_set_types(PG_FUNCTION_ARGS)
{
    struct sets one = {NULL};
    struct problem problem;
    size_t types = 0;
    const struct mb_bytes name = {(const uint8_t *)"-", 1}, bytes = bytes_of(PG_GETARG_BYTEA_PP(0));

    check_stack_depth();
    bool is_added = add_set(&one, name, bytes, PG_GETARG_BOOL(1), &types, &problem);
    free_sets(&one);
    if (!is_added)
        fail(&problem);
    PG_RETURN_INT32((int32)types);
}

/* ---- Values ---- */

/* The plan of a path, which a call in a query keeps for the next row. */
struct kept {
    uint64 edition;
    struct plan plan;
};

static const struct plan *plan_of(FunctionCallInfo fcinfo, struct mb_bytes name, struct mb_bytes path)
{
    struct kept *kept = fcinfo->flinfo->fn_extra;
    struct problem problem;

    begin(fcinfo);
    if (kept != NULL && kept->edition == edition && is_plan_of(&kept->plan, name, path))
        return &kept->plan;
    struct type type = type_of(fcinfo, name);
    fcinfo->flinfo->fn_extra = NULL;
    if (kept != NULL)
        pfree(kept);
    kept = MemoryContextAlloc(fcinfo->flinfo->fn_mcxt, offsetof(struct kept, plan) + plan_size(name, path));
    kept->edition = edition;
    if (!make_plan(&kept->plan, &type, name, path, &problem)) {
        pfree(kept);
        fail(&problem);
    }
    fcinfo->flinfo->fn_extra = kept;
    return &kept->plan;
}

static Datum put_number(const char *format, uint64 number)
{
    return PointerGetDatum(cstring_to_text(psprintf(format, number)));
}

/* A value as text that a cast reads: of a float the fewest digits, whatever the settings are. */
static Datum put_answer(const struct answer *answer)
{
    char digits[32];
    double real;
    float half;
    uint32 half_bits = (uint32)answer->number;

    switch (answer->form) {
    case FORM_SIGNED:
        return put_number(INT64_FORMAT, answer->number);
    case FORM_UNSIGNED:
        return put_number(UINT64_FORMAT, answer->number);
    case FORM_BOOL:
        return PointerGetDatum(cstring_to_text(answer->number != 0 ? "true" : "false"));
    case FORM_FLOAT:
        memcpy(&half, &half_bits, sizeof half);
        float_to_shortest_decimal_buf(half, digits);
        return PointerGetDatum(cstring_to_text(digits));
    case FORM_DOUBLE:
        memcpy(&real, &answer->number, sizeof real);
        double_to_shortest_decimal_buf(real, digits);
        return PointerGetDatum(cstring_to_text(digits));
    case FORM_BYTES:
        return put_hexadecimal(&answer->result);
    default:
        return put_text(&answer->result);
    }
}

PG_FUNCTION_INFO_V1(pb_get);
Datum pb_get(PG_FUNCTION_ARGS)
{
    const struct plan *plan = plan_of(fcinfo, utf8_of(PG_GETARG_TEXT_PP(0)), utf8_of(PG_GETARG_TEXT_PP(2)));
    struct answer answer;
    struct problem problem;

    if (!get(plan, bytes_of(PG_GETARG_BYTEA_PP(1)), &results, &answer, &problem))
        fail(&problem);
    if (answer.form == FORM_NULL)
        PG_RETURN_NULL();
    return put_answer(&answer);
}

PG_FUNCTION_INFO_V1(pb_json);
Datum pb_json(PG_FUNCTION_ARGS)
{
    struct type type = type_of(fcinfo, utf8_of(PG_GETARG_TEXT_PP(0)));
    struct result json;
    struct problem problem;

    if (!json_of(&type, bytes_of(PG_GETARG_BYTEA_PP(1)), &results, &json, &problem))
        fail(&problem);
    return put_text(&json);
}

PG_FUNCTION_INFO_V1(pb_from_json);
Datum pb_from_json(PG_FUNCTION_ARGS)
{
    struct type type = type_of(fcinfo, utf8_of(PG_GETARG_TEXT_PP(0)));
    struct result message;
    struct problem problem;

    if (!message_of(&type, utf8_of(PG_GETARG_TEXT_PP(1)), &results, &message, &problem))
        fail(&problem);
    return put_bytes(&message);
}

/* Whether the bytes are a message; if not, the problem says why. */
static bool judge(FunctionCallInfo fcinfo, struct problem *problem)
{
    struct type type = type_of(fcinfo, utf8_of(PG_GETARG_TEXT_PP(0)));
    bool is_message = check(&type, bytes_of(PG_GETARG_BYTEA_PP(1)), problem);

    if (!is_message && problem->reason != BAD_BYTES)
        fail(problem);
    return is_message;
}

PG_FUNCTION_INFO_V1(pb_valid);
Datum pb_valid(PG_FUNCTION_ARGS)
{
    struct problem problem;

    PG_RETURN_BOOL(judge(fcinfo, &problem));
}

PG_FUNCTION_INFO_V1(pb_fault);
Datum pb_fault(PG_FUNCTION_ARGS)
{
    struct problem problem;

    if (judge(fcinfo, &problem))
        PG_RETURN_NULL();
    PG_RETURN_TEXT_P(cstring_to_text(problem.line));
}

/* ---- Frames ---- */

/* A stream that is read, and how far. */
struct walk {
    struct mb_bytes name, stream;
    size_t at;
    uint64 index;
    bool keeps_going;
};

static FuncCallContext *begin_walk(FunctionCallInfo fcinfo)
{
    FuncCallContext *context = SRF_FIRSTCALL_INIT();
    MemoryContext before = MemoryContextSwitchTo(context->multi_call_memory_ctx);
    struct walk *walk = palloc0(sizeof *walk);
    TupleDesc columns;

    if (get_call_result_type(fcinfo, NULL, &columns) != TYPEFUNC_COMPOSITE)
        ereport(ERROR, (errcode(ERRCODE_FEATURE_NOT_SUPPORTED), errmsg("pb_frames gives rows")));
    walk->name = utf8_of(PG_GETARG_TEXT_P_COPY(0));
    walk->stream = bytes_of(PG_GETARG_BYTEA_P_COPY(1));
    walk->keeps_going = PG_GETARG_BOOL(2);
    context->tuple_desc = BlessTupleDesc(columns);
    context->user_fctx = walk;
    MemoryContextSwitchTo(before);
    return context;
}

static Datum copied(struct mb_bytes bytes)
{
    bytea *copy = palloc(VARHDRSZ + bytes.len);

    SET_VARSIZE(copy, VARHDRSZ + bytes.len);
    memcpy(VARDATA(copy), bytes.at, bytes.len);
    return PointerGetDatum(copy);
}

PG_FUNCTION_INFO_V1(pb_frames);
Datum pb_frames(PG_FUNCTION_ARGS)
{
    FuncCallContext *context = SRF_IS_FIRSTCALL() ? begin_walk(fcinfo) : SRF_PERCALL_SETUP();
    struct walk *walk = context->user_fctx;
    struct problem problem;
    struct row row;
    Datum values[4] = {0};
    bool nulls[4] = {false};

    context = SRF_PERCALL_SETUP();
    /* Another call may have renewed the sets since the last frame. */
    struct type type = type_of(fcinfo, walk->name);
    if (walk->at == walk->stream.len)
        SRF_RETURN_DONE(context);
    if (!next_row(&type, walk->stream, walk->at, walk->index, &row, &problem) || (row.is_refused && !walk->keeps_going))
        fail(&problem);
    values[0] = Int64GetDatum((int64)walk->index);
    values[1] = Int64GetDatum((int64)row.at);
    nulls[2] = !row.has_bytes;
    if (row.has_bytes)
        values[2] = copied((struct mb_bytes){walk->stream.at + row.begin, row.end - row.begin});
    nulls[3] = !row.is_refused;
    if (row.is_refused)
        values[3] = PointerGetDatum(cstring_to_text(problem.line));
    walk->at = row.next;
    walk->index++;
    SRF_RETURN_NEXT(context, HeapTupleGetDatum(heap_form_tuple(context->tuple_desc, values, nulls)));
}
