/* Canonical bytes, as the library writes them: records, the bytes of a message inside another, and values in them. In the canonical bytes of a message
 * the known fields come first, by rising number, a map by rising keys with key and value in each entry, and the unknown records follow. */
#include "node.h"

/* ---- Records ---- */

bool next_varint(struct span *span, uint64_t *number)
{
    uint64_t found = 0;

    if (span->at < span->end && *span->at < 128) {
        *number = *span->at++;
        return true;
    }
    for (unsigned shift = 0; span->at < span->end && shift < 64; shift += 7) {
        uint8_t byte = *span->at++;
        found |= (uint64_t)(byte & 127) << shift;
        if (byte < 128) {
            *number = found;
            return true;
        }
    }
    return false;
}

/* Takes a number of this many bytes, the least first, as this processor has it. */
static inline bool next_fixed(struct span *span, size_t size, uint64_t *number)
{
    if ((size_t)(span->end - span->at) < size)
        return false;
    *number = 0;
    memcpy(number, span->at, size);
    span->at += size;
    return true;
}

static bool next_bytes(struct span *span, struct span *inside)
{
    uint64_t len = 0;

    if (!next_varint(span, &len) || len > (uint64_t)(span->end - span->at))
        return false;
    *inside = (struct span){span->at, span->at + len};
    span->at += len;
    return true;
}

bool next_payload(struct span *span, struct record *record)
{
    switch (record->wire) {
    case WIRE_VARINT:
        return next_varint(span, &record->bits);
    case WIRE_64:
        return next_fixed(span, 8, &record->bits);
    case WIRE_32:
        return next_fixed(span, 4, &record->bits);
    case WIRE_BYTES:
        return next_bytes(span, &record->inside);
    default:
        return false;
    }
}

/* Advances past the records of a group and its end tag. */
static bool next_group(struct span *span, struct record *group)
{
    enum { WIRE_END = 4 };
    size_t open = 1;
    uint64_t tag = 0;

    group->inside = *span;
    while (open > 0) {
        group->inside.end = span->at;
        if (!next_varint(span, &tag))
            return false;
        struct record inner = {(uint32_t)(tag >> 3), tag & 7, 0, {NULL, NULL}, NULL};
        if (inner.wire == WIRE_GROUP)
            open++;
        else if (inner.wire == WIRE_END)
            open--;
        else if (!next_payload(span, &inner))
            return false;
    }
    return true;
}

bool next_record(struct span *span, struct record *record)
{
    uint64_t tag = 0;

    if (!next_varint(span, &tag))
        return false;
    *record = (struct record){(uint32_t)(tag >> 3), tag & 7, 0, {NULL, NULL}, span->at};
    return record->wire == WIRE_GROUP ? next_group(span, record) : next_payload(span, record);
}

/* ---- Kinds ---- */

uint32_t wire_of(uint32_t kind)
{
    switch (kind) {
    case MB_DOUBLE: case KIND_FIXED64: case KIND_SFIXED64:
        return WIRE_64;
    case MB_FLOAT: case KIND_FIXED32: case KIND_SFIXED32:
        return WIRE_32;
    case MB_STRING: case MB_BYTES: case MB_MESSAGE:
        return WIRE_BYTES;
    case KIND_GROUP:
        return WIRE_GROUP;
    default:
        return WIRE_VARINT;
    }
}

bool is_of_kind(const struct record *record, uint32_t kind)
{
    return record->wire == wire_of(kind);
}

bool is_packed_of(const struct record *record, uint32_t kind)
{
    return record->wire == WIRE_BYTES && wire_of(kind) != WIRE_BYTES && wire_of(kind) != WIRE_GROUP;
}

bool next_packed(struct span *span, uint32_t kind, uint64_t *bits)
{
    uint32_t wire = wire_of(kind);

    if (wire == WIRE_VARINT)
        return next_varint(span, bits);
    return wire == WIRE_64 ? next_fixed(span, 8, bits) : next_fixed(span, 4, bits);
}

uint64_t number_of(uint32_t kind, uint64_t bits)
{
    switch (kind) {
    case KIND_SINT32: case KIND_SINT64:
        return (bits >> 1) ^ (0 - (bits & 1));
    case MB_INT32: case MB_ENUM: case KIND_SFIXED32:
        return (uint64_t)(int64_t)(int32_t)(uint32_t)bits;
    case MB_BOOL:
        return bits != 0;
    default:
        return bits;
    }
}

PyObject *wire_value(uint32_t kind, const struct record *record)
{
    uint64_t number = number_of(kind, record->bits);
    uint32_t half_bits = (uint32_t)number;
    double real;
    float half;

    switch (kind) {
    case MB_DOUBLE:
        memcpy(&real, &number, sizeof real);
        return PyFloat_FromDouble(real);
    case MB_FLOAT:
        memcpy(&half, &half_bits, sizeof half);
        return PyFloat_FromDouble(half);
    case MB_BOOL:
        return PyBool_FromLong(number != 0);
    case MB_STRING:
        return as_str(record->inside.at, (size_t)(record->inside.end - record->inside.at));
    case MB_BYTES:
        return as_bytes(record->inside.at, (size_t)(record->inside.end - record->inside.at));
    case MB_UINT32: case MB_UINT64: case KIND_FIXED32: case KIND_FIXED64:
        return as_unsigned(number);
    default:
        return as_signed(number);
    }
}

bool entry_of(struct span entry, struct record *key, struct record *value)
{
    return next_record(&entry, key) && next_record(&entry, value) && key->number == 1 && value->number == 2;
}

/* ---- The bytes of a message in another ---- */

PyObject *bytes_of_root(Node *root)
{
    if (root->bytes == NULL) {
        size_t size = 0, written = 0;
        uint32_t answer = mb_message_encoded_length(&root->handle, &size);
        if (answer != MB_DONE)
            return refuse(answer, NULL);
        PyObject *bytes = PyBytes_FromStringAndSize(NULL, (Py_ssize_t)size);
        if (bytes == NULL)
            return NULL;
        answer = mb_message_encode(&root->handle, (uint8_t *)PyBytes_AsString(bytes), size, &written);
        if (answer != MB_DONE || written != size) {
            Py_DECREF(bytes);
            return refuse(answer == MB_DONE ? MB_TOO_LARGE : answer, NULL);
        }
        root->bytes = bytes;
        root->hint = size;
    }
    return root->bytes;
}

/* Whether an entry is under the key of a step. */
static bool has_key(struct span entry, uint32_t kind, const struct mb_value *step, const struct mb_bytes *keys, struct record *value)
{
    struct record key;

    if (!entry_of(entry, &key, value))
        return false;
    if (kind != MB_STRING)
        return number_of(kind, key.bits) == step->number;
    size_t len = (size_t)(key.inside.end - key.inside.at);
    return keys[step->number].len == len && (len == 0 || memcmp(keys[step->number].at, key.inside.at, len) == 0);
}

/* The record of a message that a field's step, and the one after it, lead to; of a map the entry that it is in, too. Returns false where there is none. */
static bool find_message(struct span inside, const struct mb_field *field, const struct mb_value *next, const struct mb_bytes *keys, struct record *found,
                         struct span *entry)
{
    uint64_t left = field->shape == SHAPE_LIST ? next->number : 0;

    while (next_record(&inside, found)) {
        if (found->number != field->number)
            continue;
        if (field->shape == SHAPE_MAP) {
            struct record value;
            *entry = found->inside;
            if (found->wire == WIRE_BYTES && has_key(found->inside, field->key, next, keys, &value)) {
                *found = value;
                return true;
            }
        } else if (is_of_kind(found, field->kind) && left-- == 0) {
            return true;
        }
    }
    return false;
}

static void leave_trail(struct trail *trail, struct span inside, bool is_group)
{
    if (trail != NULL && trail->count < sizeof trail->spans / sizeof *trail->spans) {
        trail->spans[trail->count] = inside;
        trail->is_group[trail->count++] = is_group;
    }
}

bool go_along(Node *node, size_t steps, struct span *span, struct trail *trail)
{
    MessageType *type = root_of(node)->type;
    struct record found;
    struct span entry;

    Py_INCREF(type);
    for (size_t i = 0; type != NULL && i < steps; i++) {
        Field *field = field_by_number(type, (uint32_t)node->place[i].number);
        bool is_one = field != NULL && field->is.shape < SHAPE_LIST;
        i += !is_one;
        Py_DECREF(type);
        type = NULL;
        if (field == NULL)
            return false;
        if (i >= steps || !find_message(*span, &field->is, &node->place[i], node->keys, &found, &entry)) {
            span->end = span->at;
            return true;
        }
        if (field->is.shape == SHAPE_MAP)
            leave_trail(trail, entry, false);
        leave_trail(trail, found.inside, found.wire == WIRE_GROUP);
        *span = found.inside;
        type = type_by_number(field->pool, (uint32_t)field->is.type_of, NULL);
    }
    Py_XDECREF(type);
    return type != NULL;
}

bool span_in_root(Node *node, struct span *span, PyObject **held)
{
    *held = handle_of(node) == NULL ? NULL : bytes_of_root(root_of(node));
    if (*held == NULL)
        return false;
    Py_INCREF(*held);
    span->at = (const uint8_t *)PyBytes_AsString(*held);
    span->end = span->at + PyBytes_Size(*held);
    if (go_along(node, node->place_len - (node->type == NULL), span, NULL))
        return true;
    Py_CLEAR(*held);
    return false;
}

/* Below this many bytes a whole message is written at once. */
enum { SMALL_WHOLE = 1024 };

bool span_of(Node *node, struct span *span, PyObject **held)
{
    Node *root = root_of(node);
    size_t steps = node->place_len - (node->type == NULL);

    if (handle_of(node) == NULL)
        return false;
    if (steps > 0 && root->hint >= SMALL_WHOLE && node->type != NULL && (*held = bytes_of_small(node, node->type, steps)) != NULL) {
        span->at = (const uint8_t *)PyBytes_AsString(*held);
        span->end = span->at + PyBytes_Size(*held);
        return true;
    }
    return span_in_root(node, span, held);
}

bool known_span_of(Node *node, struct span *span, PyObject **held)
{
    size_t unknown = 0;

    if (!span_of(node, span, held))
        return false;
    if (span->at == span->end)
        return true;
    uint32_t answer = mb_message_unknown(&root_of(node)->handle, node->place, node->place_len - (node->type == NULL), node->keys, node->keys_len, NULL, 0, &unknown);
    if (answer == MB_DONE && unknown <= (size_t)(span->end - span->at)) {
        span->end -= unknown;
        return true;
    }
    Py_CLEAR(*held);
    nothing_there(answer == MB_DONE ? MB_BAD_PLACE : answer);
    return false;
}
