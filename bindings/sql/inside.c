/* Where a message is in the canonical bytes of another. In these the known fields come first, by rising number, a map by rising keys with key and value
 * in each entry; unknown records follow. */
#include "sql.h"

#include <string.h>

enum { WIRE_VARINT = 0, WIRE_64 = 1, WIRE_BYTES = 2, WIRE_GROUP = 3, WIRE_END = 4, WIRE_32 = 5 };

/* A record: its number and wire type, the bits of a number, and what is inside of a string, a message or a group. */
struct record {
    uint32_t number, wire;
    uint64_t bits;
    struct mb_bytes inside;
};

static void skip(struct mb_bytes *bytes, size_t len)
{
    bytes->at += len;
    bytes->len -= len;
}

static bool next_varint(struct mb_bytes *bytes, uint64_t *number)
{
    *number = 0;
    for (unsigned shift = 0; bytes->len > 0 && shift < 64; shift += 7) {
        uint8_t byte = *bytes->at;
        skip(bytes, 1);
        *number |= (uint64_t)(byte & 127) << shift;
        if (byte < 128)
            return true;
    }
    return false;
}

static bool next_fixed(struct mb_bytes *bytes, size_t len, uint64_t *number)
{
    *number = 0;
    if (bytes->len < len)
        return false;
    for (size_t i = 0; i < len; i++)
        *number |= (uint64_t)bytes->at[i] << (8 * i);
    skip(bytes, len);
    return true;
}

static bool next_tag(struct mb_bytes *bytes, struct record *record)
{
    uint64_t tag;

    if (!next_varint(bytes, &tag))
        return false;
    *record = (struct record){(uint32_t)(tag >> 3), tag & 7, 0, {bytes->at, 0}};
    return true;
}

/* Advances past the payload of a record that is no group. */
static bool next_payload(struct mb_bytes *bytes, struct record *record)
{
    if (record->wire == WIRE_VARINT)
        return next_varint(bytes, &record->bits);
    if (record->wire == WIRE_64 || record->wire == WIRE_32)
        return next_fixed(bytes, record->wire == WIRE_64 ? 8 : 4, &record->bits);
    if (record->wire != WIRE_BYTES || !next_varint(bytes, &record->bits) || record->bits > bytes->len)
        return false;
    record->inside = (struct mb_bytes){bytes->at, (size_t)record->bits};
    skip(bytes, record->inside.len);
    return true;
}

/* Advances past the records of a group and its end. */
static bool next_group(struct mb_bytes *bytes, struct record *group)
{
    struct record inner;

    for (size_t open = 1; open > 0;) {
        group->inside.len = (size_t)(bytes->at - group->inside.at);
        if (!next_tag(bytes, &inner))
            return false;
        if (inner.wire == WIRE_GROUP)
            open++;
        else if (inner.wire == WIRE_END)
            open--;
        else if (!next_payload(bytes, &inner))
            return false;
    }
    return true;
}

static bool next_record(struct mb_bytes *bytes, struct record *record)
{
    return next_tag(bytes, record) && (record->wire == WIRE_GROUP ? next_group(bytes, record) : next_payload(bytes, record));
}

/* The number that the bits of a record are as a key of a kind, as a step has it. */
static uint64_t key_of(uint32_t kind, uint64_t bits)
{
    switch (kind) {
    case KIND_SINT32: case KIND_SINT64:
        return (bits >> 1) ^ (0 - (bits & 1));
    case MB_INT32: case KIND_SFIXED32:
        return (uint64_t)(int64_t)(int32_t)(uint32_t)bits;
    default:
        return bits;
    }
}

/* Whether an entry of a map is under the key of a step. If so, it gives the entry's value. */
static bool is_under(struct mb_bytes entry, uint32_t kind, const struct mb_value *step, const struct mb_bytes *keys, struct record *value)
{
    struct record key;

    if (!next_record(&entry, &key) || !next_record(&entry, value) || key.number != 1 || value->number != 2)
        return false;
    if (kind != MB_STRING)
        return key_of(kind, key.bits) == step->number;
    const struct mb_bytes *wanted = &keys[step->number];
    return key.inside.len == wanted->len && (wanted->len == 0 || memcmp(key.inside.at, wanted->at, wanted->len) == 0);
}

/* Whether a record is one of the field, and no unknown one of its number. */
static bool is_of_field(const struct record *record, const struct mb_field *field)
{
    return record->number == field->number && record->wire == (field->kind == KIND_GROUP ? WIRE_GROUP : WIRE_BYTES);
}

bool go_inside(const struct plan *plan, size_t steps, struct mb_bytes *bytes)
{
    for (size_t step = 0, at = 0; step < steps; at++) {
        const struct mb_field *field = &plan->fields[at];
        const struct mb_value *next = field->shape >= SHAPE_LIST ? &plan->steps[step + 1] : NULL;
        uint64_t before = field->shape == SHAPE_LIST ? next->number : 0;
        struct record record, value;
        bool is_found = false;

        while (!is_found && next_record(bytes, &record)) {
            if (!is_of_field(&record, field))
                continue;
            if (field->shape == SHAPE_MAP)
                is_found = is_under(record.inside, field->key, next, plan->keys, &value);
            else
                is_found = before-- == 0;
        }
        if (!is_found)
            return false;
        *bytes = field->shape == SHAPE_MAP ? value.inside : record.inside;
        step += next == NULL ? 1 : 2;
    }
    return true;
}

struct mb_bytes records_of(struct mb_bytes message, uint32_t number)
{
    struct mb_bytes found = {message.at, 0}, rest = message;
    struct record record;

    while (next_record(&rest, &record)) {
        if (record.number == number)
            found.len = (size_t)(rest.at - found.at);
        else if (found.len == 0)
            found.at = rest.at;
        else
            break;
    }
    return found;
}
