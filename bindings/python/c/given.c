/* What is read of the bytes that a message was decoded from, until it changes: scalars, and the elements of lists. The library has accepted these bytes. They
 * say what is in a message if they are plain: a field of one value is there once, of a oneof one member, and each number is one that its kind has. Whatever
 * is not plain, or not said here, the library is asked. */
#include "node.h"

/* Types with more fields, and messages with more bytes, are left to the library. An index fits 16 bits. */
enum { MOST_GIVEN = 16384, MOST_VALUES = 512, MOST_ONEOFS = 64 };

/* The next element of a list: its index, where the records after it begin, and the rest of the packed numbers that it is among. The length of the list, or -1
 * if it was not counted. */
struct cursor {
    size_t index;
    struct span rest, packed;
    Py_ssize_t length;
};

/* Elements that are passed over to one: for others the library is asked. Stretches of at most SHORT_STRETCH bytes cost less than a call. Of longer ones,
 * MOST_TIMES the length of the message may be passed over: to build the fields takes the library about as long. */
enum { MOST_PASSED = 32, SHORT_STRETCH = 256, MOST_TIMES = 16 };

void keep_given(Node *root, const struct input *in)
{
    if (in->len > MOST_GIVEN || Py_TYPE(in->held) != &PyBytes_Type)
        return;
    Py_INCREF(in->held);
    root->given = in->held;
    root->own = (struct span){in->at, in->at + in->len};
    root->left = MOST_TIMES * in->len + 1;
    root->view = UNREAD;
}

/* Counts the bytes that were passed over, in a message whose bytes are given. */
static void count_passed(Node *node, const uint8_t *from, const uint8_t *to)
{
    Node *root = root_of(node);
    size_t passed = (size_t)(to - from);

    if (passed > SHORT_STRETCH)
        root->left = root->left > passed ? root->left - passed : 0;
}

/* Whether the bytes of the message that holds a node are given. They are forgotten where too many were passed over. */
static inline bool has_given(Node *node)
{
    Node *root = root_of(node);

    if (root->given != NULL && root->left == 0)
        Py_CLEAR(root->given);
    return root->given != NULL;
}

void drop_view(Node *node)
{
    PyMem_Free(node->values);
    PyMem_Free(node->cursor);
    node->values = NULL;
    node->cursor = NULL;
    node->view = NO_VIEW;
}

/* ---- Fields of one value ---- */

/* Whether a number that has this kind is one of 32 bits where the kind is. What number_of cuts off needs no test. */
static bool is_number_of(uint32_t kind, uint64_t bits)
{
    return (kind != MB_UINT32 && kind != KIND_SINT32) || bits <= UINT32_MAX;
}

/* Whether a record is plainly the value of a field. A closed enum may not have it. */
static bool is_plain(const Field *field, const struct record *record)
{
    if (!is_of_kind(record, field->is.kind) || (field->is.kind == MB_ENUM && field->pool->has_proto2))
        return false;
    return is_number_of(field->is.kind, record->bits);
}

/* Whether no other member of the oneof that a field may be in came before it. */
static bool is_only_member(const Field *field, uint64_t *oneofs)
{
    if (field->is.shape != SHAPE_ONEOF)
        return true;
    if (field->detail >= MOST_ONEOFS || (*oneofs >> field->detail & 1))
        return false;
    *oneofs |= UINT64_C(1) << field->detail;
    return true;
}

/* Notes where a record of a field is, unless one was noted: of one value its payload, else the record. Returns whether it is plain. */
static bool note_record(Node *node, const Field *field, const uint8_t *at, const struct record *record, uint64_t *oneofs)
{
    uint16_t *value = &node->values[field->index];
    bool is_one = field->is.shape < SHAPE_LIST;

    if (is_one && (*value != 0 || !is_plain(field, record) || !is_only_member(field, oneofs)))
        return false;
    if (*value == 0)
        *value = (uint16_t)((is_one ? record->payload : at) - node->own.at + 1);
    return true;
}

/* The field of a number, or NULL. It is mostly the field before, at this index, or the one after that. */
static Field *next_field(MessageType *type, size_t *at, uint32_t number)
{
    for (size_t i = *at; i < *at + 2 && i < type->count; i++)
        if (type->by_number[i]->is.number == number) {
            *at = i;
            return type->by_number[i];
        }
    Field *field = find_field(type, number);
    *at = field == NULL ? *at : field->index;
    return field;
}

/* Notes where each field begins: 0 of those that are not set, else one more than the index. Returns whether all that is there is plain. */
static bool note_values(Node *node)
{
    struct span rest = node->own;
    struct record record;
    size_t index = 0;
    uint64_t oneofs = 0;

    node->is_sorted = true;
    for (const uint8_t *at = rest.at; at < rest.end; at = rest.at) {
        uint32_t before = at == node->own.at ? 0 : record.number;
        if (!next_record(&rest, &record))
            return false;
        node->is_sorted &= before <= record.number;
        Field *field = next_field(node->type, &index, record.number);
        if (field != NULL && !note_record(node, field, at, &record, &oneofs))
            return false;
    }
    return true;
}

/* Looks where the fields of a message begin. */
static bool read_view(Node *node)
{
    /* To list the fields may run code of Python, after which the message may have changed. */
    bool is_loaded = load_fields(node->type);

    if (node->view == UNREAD && root_of(node)->given != NULL && is_loaded && node->type->count <= MOST_VALUES) {
        node->values = PyMem_Calloc(node->type->count + 1, sizeof *node->values);
        if (node->values != NULL && note_values(node)) {
            node->view = READ;
            count_passed(node, node->own.at, node->own.end);
            return true;
        }
    }
    if (!is_loaded)
        PyErr_Clear();
    drop_view(node);
    if (node->root == NULL)
        Py_CLEAR(node->given);
    return false;
}

/* Whether the bytes that were given say what is in a message. Once they are forgotten, the node no longer asks. */
static inline bool is_said(Node *node)
{
    if (node->view == NO_VIEW)
        return false;
    if (has_given(node))
        return node->view == READ || read_view(node);
    drop_view(node);
    return false;
}

/* The record of a field that is set. */
static struct record record_of(const Node *node, const Field *field)
{
    struct span rest = {node->own.at + node->values[field->index] - 1, node->own.end};
    struct record record = {field->is.number, wire_of(field->is.kind), 0, {NULL, NULL}, NULL};

    next_payload(&rest, &record);
    return record;
}

PyObject *given_value(Node *node, Field *field)
{
    if (!is_said(node))
        return NULL;
    if (node->values[field->index] == 0)
        return default_of(&field->is);
    struct record record = record_of(node, field);
    return wire_value(field->is.kind, &record);
}

int given_presence(Node *node, Field *field)
{
    if ((field->is.shape != SHAPE_OPTIONAL && field->is.shape != SHAPE_ONEOF) || !is_said(node))
        return -1;
    return node->values[field->index] != 0;
}

/* ---- Parts ---- */

void give_part(Node *part, Node *node, Field *field)
{
    if (field->is.shape == SHAPE_MAP || field->is.kind == KIND_GROUP || !is_said(node))
        return;
    uint16_t value = node->values[field->index];
    part->own = (struct span){NULL, NULL};
    part->is_sorted = node->is_sorted;
    if (value != 0 && field->is.shape == SHAPE_LIST)
        part->own = (struct span){node->own.at + value - 1, node->own.end};
    else if (value != 0)
        part->own = record_of(node, field).inside;
    part->view = UNREAD;
}

int given_message(Node *part)
{
    return part->view == NO_VIEW || root_of(part)->given == NULL ? -1 : part->own.at != NULL;
}

/* ---- Lists ---- */

static struct cursor *cursor_of(Node *list)
{
    if (list->view == NO_VIEW || !has_given(list) || (list->field->is.kind == MB_ENUM && list->field->pool->has_proto2))
        return NULL;
    if (list->cursor == NULL) {
        list->cursor = PyMem_Malloc(sizeof *list->cursor);
        if (list->cursor != NULL)
            *list->cursor = (struct cursor){0, list->own, {NULL, NULL}, -1};
    }
    return list->cursor;
}

/* Goes on to the next record of a list, or to packed numbers: 1, 0 at the end, or -1 where it is not plain. */
static int next_of_list(struct cursor *cursor, const Node *list, struct record *element)
{
    const Field *field = list->field;

    while (cursor->packed.at == cursor->packed.end) {
        if (cursor->rest.at == cursor->rest.end)
            return 0;
        if (!next_record(&cursor->rest, element))
            return -1;
        if (list->is_sorted && element->number > field->is.number)
            cursor->rest.end = cursor->rest.at;
        if (element->number != field->is.number)
            continue;
        if (!is_packed_of(element, field->is.kind))
            return is_of_kind(element, field->is.kind) ? 1 : -1;
        cursor->packed = element->inside;
    }
    return 1;
}

/* Takes the next element: 1, 0 at the end of the list, or -1 where it is not plain. */
static int next_element(struct cursor *cursor, const Node *list, struct record *element)
{
    const Field *field = list->field;
    uint32_t kind = field->is.kind;
    int found = next_of_list(cursor, list, element);

    if (found != 1)
        return found;
    if (cursor->packed.at != cursor->packed.end) {
        *element = (struct record){field->is.number, wire_of(kind), 0, {NULL, NULL}, NULL};
        if (!next_packed(&cursor->packed, kind, &element->bits))
            return -1;
    }
    cursor->index++;
    return is_number_of(kind, element->bits) ? 1 : -1;
}

int given_element(Node *list, size_t index, struct record *element)
{
    struct cursor *cursor = cursor_of(list);

    if (cursor == NULL)
        return -1;
    if (index < cursor->index)
        *cursor = (struct cursor){0, list->own, {NULL, NULL}, cursor->length};
    int found = index - cursor->index < MOST_PASSED ? 1 : -1;
    const uint8_t *from = cursor->rest.at;
    while (found == 1 && cursor->index <= index)
        found = next_element(cursor, list, element);
    if (found < 0)
        drop_view(list);
    else
        count_passed(list, from, cursor->rest.at);
    return found;
}

void give_element(Node *part, const struct record *element)
{
    part->own = element->inside;
    part->view = UNREAD;
}

Py_ssize_t given_length(Node *list)
{
    struct cursor *cursor = cursor_of(list), all = {0, list->own, {NULL, NULL}, -1};
    struct record element;
    int found = 1;

    if (cursor == NULL || cursor->length >= 0)
        return cursor == NULL ? -1 : cursor->length;
    while (found == 1)
        found = next_element(&all, list, &element);
    if (found < 0) {
        drop_view(list);
        return -1;
    }
    cursor->length = (Py_ssize_t)all.index;
    count_passed(list, list->own.at, all.rest.at);
    return cursor->length;
}
