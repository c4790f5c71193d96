/* The canonical bytes of a small part of a large message, by calls for each of its values: for these the whole message is not written. */
#include "node.h"

/* A part that is written: its place and the keys of that, its bytes so far, and how many calls are left. */
struct writer {
    struct mb_message *handle;
    size_t calls, place_len, keys_len;
    struct mb_value place[2 * MB_MAX_DEPTH + 4];
    struct mb_bytes keys[MB_MAX_DEPTH + 2];
    uint8_t *bytes;
    size_t len, capacity;
};

/* Fields of a message that is written by calls. */
enum { MOST_FIELDS = 64 };

static bool write_message(struct writer *writer, MessageType *type);

/* Counts a call. Returns whether it may be made. */
static bool may_call(struct writer *writer)
{
    return writer->calls > 0 && writer->calls-- > 0;
}

static bool reserve(struct writer *writer, size_t more)
{
    if (writer->capacity - writer->len >= more)
        return true;
    size_t capacity = 2 * writer->capacity + more + 256;
    uint8_t *bytes = PyMem_Realloc(writer->bytes, capacity);
    if (bytes == NULL)
        return false;
    writer->bytes = bytes;
    writer->capacity = capacity;
    return true;
}

static bool write_varint(struct writer *writer, uint64_t number)
{
    if (!reserve(writer, 10))
        return false;
    for (; number > 127; number >>= 7)
        writer->bytes[writer->len++] = (uint8_t)(number | 128);
    writer->bytes[writer->len++] = (uint8_t)number;
    return true;
}

static bool write_tag(struct writer *writer, uint32_t number, uint32_t wire)
{
    return write_varint(writer, (uint64_t)number << 3 | wire);
}

/* Puts the length of what was written from an index on before it. */
static bool put_length(struct writer *writer, size_t from)
{
    size_t len = writer->len - from, size = 1;

    for (size_t left = len; left > 127; left >>= 7)
        size++;
    if (!reserve(writer, size))
        return false;
    memmove(writer->bytes + from + size, writer->bytes + from, len);
    writer->len = from;
    if (!write_varint(writer, len))
        return false;
    writer->len += len;
    return true;
}

static bool write_fixed(struct writer *writer, uint64_t number, size_t size)
{
    if (!reserve(writer, size))
        return false;
    for (size_t i = 0; i < size; i++)
        writer->bytes[writer->len++] = (uint8_t)(number >> (8 * i));
    return true;
}

/* Writes a number of a kind, without a tag. */
static bool write_number(struct writer *writer, uint32_t kind, uint64_t number)
{
    if (kind == KIND_SINT32 || kind == KIND_SINT64)
        return write_varint(writer, (number << 1) ^ (0 - (number >> 63)));
    uint32_t wire = wire_of(kind);
    return wire == WIRE_VARINT ? write_varint(writer, number) : write_fixed(writer, number, wire == WIRE_64 ? 8 : 4);
}

/* Writes the string or the bytes at the place, after their length. */
static bool write_bytes(struct writer *writer, size_t len)
{
    size_t size = 0;

    if (!may_call(writer) || !write_varint(writer, len) || !reserve(writer, len))
        return false;
    if (mb_message_read(writer->handle, PLACE(writer), writer->bytes + writer->len, len, &size) != MB_DONE || size != len)
        return false;
    writer->len += len;
    return true;
}

/* Writes the message at the place, between the tags of a group or after its length. */
static bool write_inner(struct writer *writer, const Field *field, uint32_t number)
{
    MessageType *type = type_by_number(field->pool, (uint32_t)field->is.type_of, NULL);
    size_t from = writer->len;
    bool is_done = type != NULL && write_message(writer, type);

    Py_XDECREF(type);
    if (!is_done)
        return false;
    return field->is.kind == KIND_GROUP ? write_tag(writer, number, WIRE_GROUP + 1) : put_length(writer, from);
}

/* Writes the value at the place, with a tag of this number, or without one where it is 0. */
static bool write_value(struct writer *writer, const Field *field, uint32_t number)
{
    struct mb_value value = {0, 0};
    uint32_t kind = field->is.kind;

    if (number != 0 && !write_tag(writer, number, wire_of(kind)))
        return false;
    if (is_message_kind(kind))
        return write_inner(writer, field, number);
    if (!may_call(writer) || mb_message_get(writer->handle, PLACE(writer), &value) != MB_DONE)
        return false;
    return kind == MB_STRING || kind == MB_BYTES ? write_bytes(writer, (size_t)value.number) : write_number(writer, kind, value.number);
}

/* Goes a step further in. Returns whether the place has memory for it. */
static bool enter(struct writer *writer, uint32_t kind, uint64_t number)
{
    if (writer->place_len == sizeof writer->place / sizeof *writer->place)
        return false;
    writer->place[writer->place_len++] = (struct mb_value){kind, number};
    return true;
}

/* How many values the list or the map at the place has. */
static bool count_values(struct writer *writer, uint64_t *count)
{
    struct mb_value value = {0, 0};
    bool is_done = may_call(writer) && mb_message_get(writer->handle, PLACE(writer), &value) == MB_DONE;

    *count = value.number;
    return is_done && value.number <= writer->calls;
}

static bool write_list(struct writer *writer, Field *field)
{
    uint64_t count = 0;
    bool is_done = (field->has_detail || read_detail(field)) && count_values(writer, &count), is_packed = field->detail == 1;

    if (!is_done || (is_packed && !write_tag(writer, field->is.number, WIRE_BYTES)))
        return false;
    size_t from = writer->len;
    for (uint64_t i = 0; is_done && i < count; i++) {
        is_done = enter(writer, MB_INDEX, i) && write_value(writer, field, is_packed ? 0 : field->is.number);
        writer->place_len--;
    }
    return is_done && (!is_packed || put_length(writer, from));
}

/* Writes the key of an entry, of a string with these bytes, and goes a step further in, to what is under the key. */
static bool write_key(struct writer *writer, const Field *field, struct mb_value key, const uint8_t *string)
{
    if (!write_tag(writer, 1, wire_of(field->is.key)))
        return false;
    if (key.kind != MB_STRING)
        return write_number(writer, field->is.key, key.number) && enter(writer, key.kind, key.number);
    size_t len = (size_t)key.number;
    if (writer->keys_len == sizeof writer->keys / sizeof *writer->keys || !write_varint(writer, len) || !reserve(writer, len))
        return false;
    if (len > 0)
        memcpy(writer->bytes + writer->len, string, len);
    writer->len += len;
    writer->keys[writer->keys_len++] = (struct mb_bytes){string, len};
    return enter(writer, MB_STRING, writer->keys_len - 1);
}

/* Writes the entry of a key of the map at the place. */
static bool write_entry(struct writer *writer, const Field *field, struct mb_value key, const uint8_t *string)
{
    size_t place_len = writer->place_len, keys_len = writer->keys_len;

    if (!write_tag(writer, field->is.number, WIRE_BYTES))
        return false;
    size_t from = writer->len;
    bool is_done = write_key(writer, field, key, string) && write_value(writer, field, 2);
    writer->place_len = place_len;
    writer->keys_len = keys_len;
    return is_done && put_length(writer, from);
}

/* Writes the entries of the map at the place, whose keys are read at once. */
static bool write_map(struct writer *writer, const Field *field)
{
    struct mb_keys counts = {0, 0};

    if (!may_call(writer) || mb_message_keys(writer->handle, PLACE(writer), 0, NULL, 0, NULL, 0, &counts) != MB_DONE || counts.keys > writer->calls)
        return false;
    struct mb_value *keys = PyMem_Malloc(counts.keys * sizeof *keys);
    uint8_t *strings = PyMem_Malloc(counts.bytes), *string = strings;
    bool is_done = keys != NULL && strings != NULL && may_call(writer) &&
                   mb_message_keys(writer->handle, PLACE(writer), 0, keys, counts.keys, strings, counts.bytes, &counts) == MB_DONE;

    for (size_t i = 0; is_done && i < counts.keys; i++) {
        is_done = write_entry(writer, field, keys[i], string);
        string += keys[i].kind == MB_STRING ? keys[i].number : 0;
    }
    PyMem_Free(strings);
    PyMem_Free(keys);
    return is_done;
}

/* Writes the unknown records of the message at the place. */
static bool write_unknown(struct writer *writer)
{
    size_t size = 0, again = 0;

    if (!may_call(writer) || mb_message_unknown(writer->handle, PLACE(writer), NULL, 0, &size) != MB_DONE)
        return false;
    if (size == 0)
        return true;
    if (!reserve(writer, size) || mb_message_unknown(writer->handle, PLACE(writer), writer->bytes + writer->len, size, &again) != MB_DONE || again != size)
        return false;
    writer->len += size;
    return true;
}

static bool write_message(struct writer *writer, MessageType *type)
{
    uint32_t numbers[MOST_FIELDS];
    size_t count = 0;
    bool is_done = may_call(writer) && mb_message_fields(writer->handle, PLACE(writer), numbers, MOST_FIELDS, &count) == MB_DONE && count <= MOST_FIELDS;

    for (size_t i = 0; is_done && i < count; i++) {
        Field *field = find_field(type, numbers[i]);
        is_done = field != NULL && enter(writer, MB_FIELD, numbers[i]);
        if (!is_done)
            return false;
        if (field->is.shape < SHAPE_LIST)
            is_done = write_value(writer, field, numbers[i]);
        else
            is_done = field->is.shape == SHAPE_LIST ? write_list(writer, field) : write_map(writer, field);
        writer->place_len--;
    }
    return is_done && write_unknown(writer);
}

/* Whether nothing is at the place that the first steps of a node's lead to. */
static bool is_absent(Node *node, size_t steps)
{
    struct mb_value value;

    return mb_message_get(&root_of(node)->handle, node->place, steps, node->keys, node->keys_len, &value) == MB_ABSENT;
}

PyObject *bytes_of_small(Node *node, MessageType *type, size_t steps)
{
    Node *root = root_of(node);

    if (is_absent(node, steps))
        return PyBytes_FromStringAndSize(NULL, 0);
    struct writer *writer = steps <= 2 * MB_MAX_DEPTH && node->keys_len <= MB_MAX_DEPTH ? PyMem_Malloc(sizeof *writer) : NULL;
    PyObject *bytes = NULL;

    if (writer == NULL)
        return NULL;
    writer->handle = &root->handle;
    /* A call takes about as long as 32 bytes of the whole. */
    writer->calls = 16 + root->hint / 32;
    writer->place_len = steps;
    writer->keys_len = node->keys_len;
    memcpy(writer->place, node->place, steps * sizeof *writer->place);
    if (node->keys_len > 0)
        memcpy(writer->keys, node->keys, node->keys_len * sizeof *writer->keys);
    writer->bytes = NULL;
    writer->len = writer->capacity = 0;
    if (write_message(writer, type))
        bytes = PyBytes_FromStringAndSize((const char *)writer->bytes, (Py_ssize_t)writer->len);
    PyMem_Free(writer->bytes);
    PyMem_Free(writer);
    /* Where it could not be written so, the whole is. */
    PyErr_Clear();
    return bytes;
}
