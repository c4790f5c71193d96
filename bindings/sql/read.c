/* Values of messages, and messages as JSON. */
#include "sql.h"

#include <stdlib.h>
#include <string.h>

/* A string up to this many bytes is first written to the stack. */
enum { SMALL = 512 };

bool take_result(const struct memory *memory, size_t len, struct result *result, struct problem *problem)
{
    *result = (struct result){NULL, len};
    if (len > memory->most)
        return refuse(problem, RESULT_TOO_LARGE, "output cause TooLarge");
    result->at = memory->take(memory->before + len + 1);
    return result->at != NULL || refuse(problem, OUT_OF_MEMORY, "memory");
}

static void drop_result(const struct memory *memory, struct result *result)
{
    if (result->at != NULL)
        memory->drop(result->at);
    *result = (struct result){NULL, 0};
}

static uint8_t *begin_of(const struct memory *memory, const struct result *result)
{
    return result->at + memory->before;
}

/* ---- JSON ---- */

/* A call that writes, as those of the library do: as much as the buffer holds, and the whole length. */
struct writing {
    const struct type *type;
    struct mb_message message;
    struct mb_bytes json;
    size_t byte, steps;
    uint32_t path[MB_MAX_STEPS];
};

typedef uint32_t write_call(struct writing *writing, uint8_t *out, size_t out_len, size_t *size);

static uint32_t write_json(struct writing *writing, uint8_t *out, size_t out_len, size_t *size)
{
    return mb_message_json(writing->type->pool, &writing->message, false, false, out, out_len, size, writing->path, MB_MAX_STEPS, &writing->steps);
}

static uint32_t write_bytes(struct writing *writing, uint8_t *out, size_t out_len, size_t *size)
{
    return mb_from_json(writing->type->pool, writing->type->number, writing->json.at, writing->json.len, false, out, out_len, size, &writing->byte);
}

/* Writes a result into a block of this many bytes, or, if that is too small, into one of its length. Reports what the call answers, or MB_MEMORY. */
static uint32_t write_result(write_call *call, struct writing *writing, size_t guess, const struct memory *memory, struct result *result, struct problem *problem)
{
    size_t size = guess < memory->most ? guess : memory->most, len;

    do {
        len = size;
        if (!take_result(memory, len, result, problem))
            return problem->reason == RESULT_TOO_LARGE ? MB_TOO_LARGE : MB_MEMORY;
        uint32_t answer = call(writing, begin_of(memory, result), len, &size);
        if (answer != MB_DONE || size > len)
            drop_result(memory, result);
        if (answer != MB_DONE)
            return answer;
    } while (size > len);
    result->len = size;
    return MB_DONE;
}

static bool decode(const struct type *type, struct mb_bytes bytes, struct mb_message *message, struct problem *problem)
{
    struct report report;
    uint32_t answer = mb_message_decode(type->pool, type->number, bytes.at, bytes.len, MB_MAX_BYTES, MB_MAX_DEPTH, message, &report.fault, report.path, MB_MAX_STEPS);

    return answer == MB_DONE || refuse_bytes(problem, answer, "", &report, type);
}

bool json_of(const struct type *type, struct mb_bytes message, const struct memory *memory, struct result *json, struct problem *problem)
{
    struct writing writing = {.type = type};

    if (!decode(type, message, &writing.message, problem))
        return false;
    uint32_t answer = write_result(write_json, &writing, 3 * message.len + 64, memory, json, problem);
    mb_message_free(&writing.message);
    return answer == MB_DONE || refuse_json(problem, answer, writing.path, writing.steps);
}

bool message_of(const struct type *type, struct mb_bytes json, const struct memory *memory, struct result *message, struct problem *problem)
{
    struct writing writing = {.type = type, .json = json};
    uint32_t answer = write_result(write_bytes, &writing, json.len, memory, message, problem);

    return answer == MB_DONE || refuse_text(problem, answer, writing.byte);
}

bool check(const struct type *type, struct mb_bytes message, struct problem *problem)
{
    struct report report;
    uint32_t answer = mb_check(type->pool, type->number, message.at, message.len, MB_MAX_BYTES, MB_MAX_DEPTH, &report.fault, report.path, MB_MAX_STEPS);

    return answer == MB_DONE || refuse_bytes(problem, answer, "", &report, type);
}

/* ---- Scalars ---- */

/* A value that is being read. */
struct getting {
    const struct plan *plan;
    struct mb_bytes bytes;
    struct mb_message message; /* once it is decoded */
    const struct memory *memory;
    struct answer *answer;
    struct problem *problem;
};

/* Makes the answer a string, bytes or JSON of this length, and gives where it is written. */
static uint8_t *take_answer(struct getting *getting, enum form form, size_t len)
{
    if (!take_result(getting->memory, len, &getting->answer->result, getting->problem))
        return NULL;
    getting->answer->form = form;
    return begin_of(getting->memory, &getting->answer->result);
}

static bool put_copy(struct getting *getting, enum form form, const void *at, size_t len)
{
    uint8_t *to = take_answer(getting, form, len);

    if (to != NULL)
        memcpy(to, at, len);
    return to != NULL;
}

/* The name of the first value of an enum that has the number, or the number. */
static bool put_enum(struct getting *getting, uint64_t number)
{
    const struct plan *plan = getting->plan;
    size_t entry = last_of(plan)->type_of, size = 0;
    uint8_t name[SMALL];
    int32_t found = 0;
    uint32_t answer;

    for (size_t i = 0; (answer = mb_pool_enum_value(plan->type.pool, entry, i, &found, name, sizeof name, &size)) == MB_DONE; i++) {
        if (found != (int64_t)number)
            continue;
        if (size <= sizeof name)
            return put_copy(getting, FORM_TEXT, name, size);
        uint8_t *to = take_answer(getting, FORM_TEXT, size);
        return to != NULL && mb_pool_enum_value(plan->type.pool, entry, i, &found, to, size, &size) == MB_DONE;
    }
    *getting->answer = (struct answer){.form = FORM_SIGNED, .number = number};
    return answer == MB_ABSENT || refuse_answer(getting->problem, answer);
}

static bool put_number(struct getting *getting, uint32_t kind, uint64_t number)
{
    static const enum form forms[] = {
        [MB_DOUBLE] = FORM_DOUBLE, [MB_FLOAT] = FORM_FLOAT, [MB_BOOL] = FORM_BOOL, [MB_UINT64] = FORM_UNSIGNED, [MB_UINT32] = FORM_UNSIGNED,
        [KIND_FIXED64] = FORM_UNSIGNED, [KIND_FIXED32] = FORM_UNSIGNED, [KIND_SINT64] = FORM_NULL,
    };

    if (kind == MB_ENUM)
        return put_enum(getting, number);
    *getting->answer = (struct answer){.form = forms[kind] == FORM_NULL ? FORM_SIGNED : forms[kind], .number = number};
    return true;
}

static bool put_default(struct getting *getting)
{
    uint32_t kind = last_of(getting->plan)->kind;

    if (kind == MB_STRING || kind == MB_BYTES)
        return put_copy(getting, kind == MB_STRING ? FORM_TEXT : FORM_BYTES, "", 0);
    return put_number(getting, kind, 0);
}

/* Reads one scalar from the bytes, by the numbers of fields. Reports whether it is there. */
static bool find(struct getting *getting, bool *is_there)
{
    const struct plan *plan = getting->plan;
    uint8_t small[SMALL];
    struct mb_value value;
    struct report report;
    const struct mb_bytes *in = &getting->bytes;
#define FIND(out, out_len) mb_find(plan->type.pool, plan->type.number, in->at, in->len, MB_MAX_BYTES, MB_MAX_DEPTH, plan->numbers, plan->fields_len, &value, out, \
                                   out_len, &report.fault, report.path, MB_MAX_STEPS)
    uint32_t answer = FIND(small, sizeof small);

    *is_there = answer != MB_ABSENT;
    if (answer != MB_DONE)
        return answer == MB_ABSENT || refuse_bytes(getting->problem, answer, "", &report, &plan->type);
    if (value.kind != MB_STRING && value.kind != MB_BYTES)
        return put_number(getting, value.kind, value.number);
    enum form form = value.kind == MB_STRING ? FORM_TEXT : FORM_BYTES;
    if (value.number <= sizeof small)
        return put_copy(getting, form, small, (size_t)value.number);
    size_t len = (size_t)value.number;
    uint8_t *to = take_answer(getting, form, len);
    if (to == NULL)
        return false;
    answer = FIND(to, len);
    return answer == MB_DONE || refuse_bytes(getting->problem, answer, "", &report, &plan->type);
#undef FIND
}

/* ---- Values of decoded messages ---- */

/* Reports what is at the first steps of the path. */
static uint32_t at_place(struct getting *getting, size_t steps, struct mb_value *value)
{
    const struct plan *plan = getting->plan;

    return mb_message_get(&getting->message, plan->steps, steps, plan->keys, plan->keys_len, value);
}

static bool refuse_place(struct getting *getting, uint32_t answer)
{
    if (answer == MB_BAD_PLACE)
        return refuse(getting->problem, BAD_PATH, "path: a key is not UTF-8");
    return refuse_answer(getting->problem, answer);
}

/* Whether the message that has the last field is there. */
static bool has_owner(struct getting *getting, bool *has)
{
    const struct plan *plan = getting->plan;
    bool has_brackets = last_of(plan)->shape >= SHAPE_LIST && !plan->is_whole;
    struct mb_value value;
    uint32_t answer = at_place(getting, plan->len - 1 - has_brackets, &value);

    *has = answer == MB_DONE;
    return answer == MB_DONE || answer == MB_ABSENT || refuse_place(getting, answer);
}

static bool put_scalar(struct getting *getting, const struct mb_value *value)
{
    const struct plan *plan = getting->plan;

    if (value->kind != MB_STRING && value->kind != MB_BYTES)
        return put_number(getting, value->kind, value->number);
    size_t size = (size_t)value->number;
    uint8_t *to = take_answer(getting, value->kind == MB_STRING ? FORM_TEXT : FORM_BYTES, size);
    if (to == NULL)
        return false;
    uint32_t answer = mb_message_read(&getting->message, plan->steps, plan->len, plan->keys, plan->keys_len, to, size, &size);
    return answer == MB_DONE || refuse_place(getting, answer);
}

/* Takes the braces and the name off a message in JSON that has one field. Returns false if it is something else. */
static bool strip(uint8_t *json, size_t *len)
{
    size_t at = 2;

    if (*len < 6 || json[0] != '{' || json[1] != '"')
        return false;
    while (at < *len && json[at] != '"')
        at += json[at] == '\\' ? 2 : 1;
    at += 2;
    if (at >= *len || json[at - 1] != ':')
        return false;
    *len -= at + 1;
    memmove(json, json + at, *len);
    return true;
}

/* Whether the JSON form of a message type is that of its one list or map. */
static bool is_its_field(const struct plan *plan)
{
    uint8_t name[32];
    struct mb_type is;
    size_t size = 0;

    if (mb_pool_message(plan->type.pool, plan->owner, &is, name, sizeof name, &size) != MB_DONE)
        return false;
    return (size == 22 && memcmp(name, "google.protobuf.Struct", 22) == 0) || (size == 25 && memcmp(name, "google.protobuf.ListValue", 25) == 0);
}

/* A list or a map is what the message that has nothing else is in JSON. */
static bool put_whole(struct getting *getting, struct mb_bytes owner)
{
    const struct plan *plan = getting->plan;
    const struct type type = {plan->type.pool, plan->owner};
    struct mb_bytes records = records_of(owner, last_of(plan)->number);
    struct result *result = &getting->answer->result;

    if (records.len == 0)
        return put_copy(getting, FORM_JSON, last_of(plan)->shape == SHAPE_LIST ? "[]" : "{}", 2);
    if (!json_of(&type, records, getting->memory, result, getting->problem))
        return false;
    getting->answer->form = FORM_JSON;
    return is_its_field(plan) || strip(begin_of(getting->memory, result), &result->len) ||
           refuse(getting->problem, NO_JSON_FORM, "path: the type of this list or map has a JSON form of its own: ask for the message");
}

/* Writes a character below 2^16 in UTF-8, and gives where the next one goes. */
static uint8_t *put_character(uint8_t *to, unsigned code)
{
    if (code < 0x80) {
        *to++ = (uint8_t)code;
    } else if (code < 0x800) {
        *to++ = (uint8_t)(0xc0 | code >> 6);
        *to++ = (uint8_t)(0x80 | (code & 63));
    } else {
        *to++ = (uint8_t)(0xe0 | code >> 12);
        *to++ = (uint8_t)(0x80 | (code >> 6 & 63));
        *to++ = (uint8_t)(0x80 | (code & 63));
    }
    return to;
}

static unsigned hexadecimal(const uint8_t *at)
{
    unsigned code = 0;

    for (size_t i = 0; i < 4; i++)
        code = 16 * code + (unsigned)(at[i] <= '9' ? at[i] - '0' : (at[i] | 32) - 'a' + 10);
    return code;
}

/* Puts what a string in JSON holds in place of it. The library writes no surrogates: it escapes quotes, backslashes and control characters alone. */
static size_t unquote(uint8_t *json, size_t len)
{
    static const char letters[] = "bfnrt", meant[] = "\b\f\n\r\t";
    uint8_t *to = json;

    for (size_t at = 1; at + 1 < len; at++) {
        if (json[at] != '\\') {
            *to++ = json[at];
            continue;
        }
        const char *letter = strchr(letters, json[++at]);
        if (json[at] == 'u' && at + 5 < len) {
            to = put_character(to, hexadecimal(json + at + 1));
            at += 4;
        } else {
            *to++ = letter == NULL ? json[at] : (uint8_t)meant[letter - letters];
        }
    }
    return (size_t)(to - json);
}

/* A message is the answer as JSON: of a string, as times have it, what the string holds; and NULL for null. */
static bool put_message(struct getting *getting, const struct type *type, struct mb_bytes message)
{
    struct answer *answer = getting->answer;

    if (!json_of(type, message, getting->memory, &answer->result, getting->problem))
        return false;
    uint8_t *json = begin_of(getting->memory, &answer->result);
    answer->form = FORM_JSON;
    if (json[0] == '"') {
        answer->result.len = unquote(json, answer->result.len);
        answer->form = FORM_TEXT;
    } else if (json[0] == 'n') {
        drop_result(getting->memory, &answer->result);
        answer->form = FORM_NULL;
    }
    return true;
}

/* Finds a message, a list or a map in the canonical bytes of the whole message. */
static bool put_inside(struct getting *getting, struct mb_bytes canonical)
{
    const struct plan *plan = getting->plan;
    const struct type type = {plan->type.pool, (uint32_t)last_of(plan)->type_of};

    if (!go_inside(plan, plan->len - plan->is_whole, &canonical))
        return true;
    return plan->is_whole ? put_whole(getting, canonical) : put_message(getting, &type, canonical);
}

static bool get_inside(struct getting *getting)
{
    size_t size = 0;
    uint32_t answer = mb_message_encoded_length(&getting->message, &size);
    uint8_t *bytes = answer == MB_DONE ? malloc(size + 1) : NULL;

    if (answer == MB_DONE)
        answer = bytes == NULL ? MB_MEMORY : mb_message_encode(&getting->message, bytes, size, &size);
    bool is_done = answer == MB_DONE ? put_inside(getting, (struct mb_bytes){bytes, size}) : refuse_answer(getting->problem, answer);
    free(bytes);
    return is_done;
}

static bool get_decoded(struct getting *getting)
{
    const struct plan *plan = getting->plan;
    struct mb_value value;
    bool has;
    uint32_t answer = at_place(getting, plan->len, &value);

    if (answer != MB_DONE && answer != MB_ABSENT)
        return refuse_place(getting, answer);
    if (answer == MB_DONE && value.kind != MB_MESSAGE && value.kind != MB_LIST && value.kind != MB_MAP)
        return put_scalar(getting, &value);
    if (answer == MB_DONE)
        return get_inside(getting);
    if (last_of(plan)->shape != SHAPE_IMPLICIT && !plan->is_whole)
        return true;
    if (!has_owner(getting, &has))
        return false;
    if (!has)
        return true;
    return plan->is_whole ? put_whole(getting, (struct mb_bytes){NULL, 0}) : put_default(getting);
}

bool get(const struct plan *plan, struct mb_bytes message, const struct memory *memory, struct answer *answer, struct problem *problem)
{
    struct getting getting = {plan, message, {0}, memory, answer, problem};
    bool is_there = false;

    *answer = (struct answer){.form = FORM_NULL};
    if (plan->is_direct && !is_message_kind(last_of(plan)->kind)) {
        if (!find(&getting, &is_there))
            return false;
        if (is_there || last_of(plan)->shape != SHAPE_IMPLICIT)
            return true;
        if (plan->fields_len == 1)
            return put_default(&getting);
    }
    bool is_done = decode(&plan->type, message, &getting.message, problem) && get_decoded(&getting);
    mb_message_free(&getting.message);
    if (!is_done)
        drop_result(memory, &answer->result);
    return is_done;
}
