/* Paths, as 'lines[0].article' or 'discounts["loyal"]': the names of fields with dots between them, the index of an element of a list, counted from 0, and
 * a key of a map, as pbtool show prints it. */
#include "sql.h"

#include <string.h>

/* A path that is read, from `at` on, and the plan that is made of it. */
struct reading {
    struct plan *plan;
    struct mb_bytes path;
    size_t at;
    uint32_t type;       /* the message type of which a field comes next */
    uint8_t *next_key;   /* where the next key is written */
    struct shown field;  /* the last field's name */
    struct problem *problem;
};

/* Refuses the path at a byte. */
#define AT(reading, byte, format, ...) refuse((reading)->problem, BAD_PATH, "path byte %zu: " format, (size_t)(byte), __VA_ARGS__)

size_t plan_size(struct mb_bytes type, struct mb_bytes path)
{
    return sizeof(struct plan) + type.len + 2 * path.len;
}

bool is_plan_of(const struct plan *plan, struct mb_bytes name, struct mb_bytes path)
{
    return plan->type_len == name.len && plan->path_len == path.len && memcmp(plan->words, name.at, name.len) == 0 &&
           memcmp(plan->words + name.len, path.at, path.len) == 0;
}

static bool is_next(const struct reading *reading, char byte)
{
    return reading->at < reading->path.len && reading->path.at[reading->at] == (uint8_t)byte;
}

static bool take(struct reading *reading, char byte)
{
    bool is_there = is_next(reading, byte);

    reading->at += is_there;
    return is_there;
}

static bool is_of_name(uint8_t byte)
{
    return (byte >= 'a' && byte <= 'z') || (byte >= 'A' && byte <= 'Z') || (byte >= '0' && byte <= '9') || byte == '_';
}

/* The letters, digits and underscores that come next. */
static struct mb_bytes take_word(struct reading *reading)
{
    size_t begin = reading->at;

    while (reading->at < reading->path.len && is_of_name(reading->path.at[reading->at]))
        reading->at++;
    return (struct mb_bytes){reading->path.at + begin, reading->at - begin};
}

/* The full name of a message type. */
static struct shown type_name(struct mb_pool *pool, uint32_t type)
{
    uint8_t name[sizeof(struct shown)] = {0};
    struct mb_type is;
    size_t size = 0;

    mb_pool_message(pool, type, &is, name, sizeof name, &size);
    /* A longer name is cut off, and has dots in place of its end. */
    return show(name, size < sizeof name ? size : sizeof name);
}

/* The path has at most MOST_FIELDS fields, and at most one step after each of them. */
static bool put_step(struct reading *reading, uint32_t kind, uint64_t number)
{
    reading->plan->steps[reading->plan->len++] = (struct mb_value){kind, number};
    return true;
}

static bool take_field(struct reading *reading)
{
    struct plan *plan = reading->plan;
    size_t begin = reading->at;
    struct mb_bytes name = take_word(reading);
    struct mb_field field;

    if (name.len == 0)
        return AT(reading, begin, "%s", "the name of a field is expected");
    if (plan->fields_len == MOST_FIELDS)
        return AT(reading, begin, "no message nests deep enough for more than %d fields", MOST_FIELDS);
    uint32_t answer = mb_pool_field(plan->type.pool, reading->type, name.at, name.len, &field);
    if (answer != MB_DONE && answer != MB_ABSENT)
        return refuse_answer(reading->problem, answer);
    reading->field = show(name.at, name.len);
    if (answer == MB_ABSENT)
        return AT(reading, begin, "%s has no field %s", type_name(plan->type.pool, reading->type).text, reading->field.text);
    plan->owner = reading->type;
    plan->is_whole = field.shape >= SHAPE_LIST;
    plan->is_direct &= !plan->is_whole;
    plan->numbers[plan->fields_len] = field.number;
    plan->fields[plan->fields_len++] = field;
    reading->type = (uint32_t)field.type_of;
    return put_step(reading, MB_FIELD, field.number);
}

/* A decimal number with or without a sign. Returns false if there is none that 64 bits hold. */
static bool take_number(struct reading *reading, bool *is_negative, uint64_t *number)
{
    *is_negative = take(reading, '-');
    size_t begin = reading->at;
    *number = 0;
    for (; reading->at < reading->path.len; reading->at++) {
        uint8_t digit = (uint8_t)(reading->path.at[reading->at] - '0');
        if (digit > 9)
            break;
        if (*number > (UINT64_MAX - digit) / 10)
            return false;
        *number = 10 * *number + digit;
    }
    return reading->at > begin;
}

/* The least and the greatest number of a kind of key: how far below zero it goes, and up to where. */
static void bounds_of(uint32_t kind, uint64_t *below, uint64_t *above)
{
    bool has_64_bits = kind == MB_INT64 || kind == MB_UINT64 || kind == KIND_FIXED64 || kind == KIND_SFIXED64 || kind == KIND_SINT64;
    bool is_unsigned = kind == MB_UINT32 || kind == MB_UINT64 || kind == KIND_FIXED32 || kind == KIND_FIXED64;

    *above = has_64_bits ? UINT64_MAX : UINT32_MAX;
    *below = 0;
    if (!is_unsigned) {
        *above >>= 1;
        *below = *above + 1;
    }
}

static bool put_number(struct reading *reading, uint32_t kind)
{
    size_t begin = reading->at;
    bool is_negative = false;
    uint64_t number = 0, below = 0, above = UINT64_MAX;

    if (kind != MB_INDEX)
        bounds_of(kind, &below, &above);
    if (!take_number(reading, &is_negative, &number) || number > (is_negative ? below : above))
        return AT(reading, begin, "%s %s", reading->field.text, kind == MB_INDEX ? "is a list: an index is expected, as [0]" : "is a map: a number that its keys hold is expected, as [7]");
    return put_step(reading, kind, is_negative ? 0 - number : number);
}

static bool put_bool(struct reading *reading)
{
    size_t begin = reading->at;
    struct mb_bytes word = take_word(reading);
    bool is_true = word.len == 4 && memcmp(word.at, "true", 4) == 0;

    if (!is_true && !(word.len == 5 && memcmp(word.at, "false", 5) == 0))
        return AT(reading, begin, "%s is a map: its keys are [true] and [false]", reading->field.text);
    return put_step(reading, MB_BOOL, is_true);
}

static int digit_of(uint8_t byte)
{
    return byte >= '0' && byte <= '9' ? byte - '0' : byte >= 'a' && byte <= 'f' ? byte - 'a' + 10 : byte >= 'A' && byte <= 'F' ? byte - 'A' + 10 : -1;
}

/* The byte that comes next in a string, after a backslash too: \" is a quote, \\ a backslash, and \x with two digits a byte. */
static bool take_byte(struct reading *reading, uint8_t *byte)
{
    const uint8_t *at = reading->path.at + reading->at;
    size_t left = reading->path.len - reading->at, taken = 1;

    if (left == 0)
        return false;
    *byte = at[0];
    if (at[0] == '\\' && left >= 2 && (at[1] == '"' || at[1] == '\\')) {
        *byte = at[1];
        taken = 2;
    } else if (at[0] == '\\') {
        if (left < 4 || at[1] != 'x' || digit_of(at[2]) < 0 || digit_of(at[3]) < 0)
            return false;
        *byte = (uint8_t)(16 * digit_of(at[2]) + digit_of(at[3]));
        taken = 4;
    }
    reading->at += taken;
    return true;
}

static bool put_string(struct reading *reading)
{
    struct plan *plan = reading->plan;
    size_t begin = reading->at;
    struct mb_bytes *key = &plan->keys[plan->keys_len];

    if (!take(reading, '"'))
        return AT(reading, begin, "%s is a map: a key in double quotes is expected, as [\"key\"]", reading->field.text);
    *key = (struct mb_bytes){reading->next_key, 0};
    while (!take(reading, '"')) {
        if (!take_byte(reading, reading->next_key))
            return AT(reading, reading->at, "%s", "the key does not end, or has a backslash before something else than \", \\ or x and two digits");
        reading->next_key++;
        key->len++;
    }
    return put_step(reading, MB_STRING, plan->keys_len++);
}

/* What comes in brackets after a list or a map. */
static bool take_brackets(struct reading *reading)
{
    struct plan *plan = reading->plan;
    uint32_t kind = last_of(plan)->shape == SHAPE_LIST ? MB_INDEX : last_of(plan)->key;

    if (!(kind == MB_BOOL ? put_bool(reading) : kind == MB_STRING ? put_string(reading) : put_number(reading, kind)))
        return false;
    plan->is_whole = false;
    return take(reading, ']') || AT(reading, reading->at, "%s", "] is expected");
}

/* A field, and what comes in brackets after it. */
static bool take_part(struct reading *reading)
{
    if (!take_field(reading))
        return false;
    if (!is_next(reading, '['))
        return true;
    if (!reading->plan->is_whole)
        return AT(reading, reading->at, "%s is no list and no map", reading->field.text);
    reading->at++;
    return take_brackets(reading);
}

bool make_plan(struct plan *plan, const struct type *type, struct mb_bytes name, struct mb_bytes path, struct problem *problem)
{
    *plan = (struct plan){.type = *type, .is_direct = true, .type_len = name.len, .path_len = path.len};
    memcpy(plan->words, name.at, name.len);
    memcpy(plan->words + name.len, path.at, path.len);
    struct reading reading = {plan, {plan->words + name.len, path.len}, 0, type->number, plan->words + name.len + path.len, {""}, problem};

    if (!take_part(&reading))
        return false;
    while (reading.at < path.len) {
        if (!take(&reading, '.'))
            return AT(&reading, reading.at, "%s", plan->is_whole ? "a dot or [ is expected" : "a dot is expected");
        if (plan->is_whole)
            return AT(&reading, reading.at, "%s is a %s in brackets comes before the dot", reading.field.text,
                      last_of(plan)->shape == SHAPE_LIST ? "list: an index" : "map: a key");
        if (!is_message_kind(last_of(plan)->kind))
            return AT(&reading, reading.at, "%s is no message", reading.field.text);
        if (!take_part(&reading))
            return false;
    }
    return true;
}
