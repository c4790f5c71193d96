/* Changes of messages by their canonical bytes, where the library has no call for them: elements of a list are moved, and a message in another one is
 * given bytes, with the unknown records that they have. Each reads the whole message once. */
#include "node.h"

/* Puts the message that bytes are in place of the one that a node holds. */
static bool put_bytes(Node *root, const uint8_t *bytes, size_t len)
{
    struct report report;
    uint32_t answer = mb_message_decode(&root->type->pool->handle, root->type->number, bytes, len, MB_MAX_BYTES, MB_MAX_DEPTH, &root->handle, &report.fault,
                                        report.path, MB_MAX_STEPS);

    if (answer != MB_DONE) {
        refuse(answer, &report);
        return false;
    }
    has_changed(root);
    root->hint = len;
    return true;
}

/* ---- Elements of a list ---- */

/* Elements of a list: where the one at the index `to` begins, where the one at `from` does, and where the last of `length` ends. */
struct moved {
    size_t to, from, length, seen;
    const uint8_t *to_at, *from_at, *end;
};

static void see_element(struct moved *moved, const uint8_t *begin, const uint8_t *end)
{
    if (moved->seen == moved->to)
        moved->to_at = begin;
    if (moved->seen == moved->from)
        moved->from_at = begin;
    if (++moved->seen == moved->length)
        moved->end = end;
}

/* Finds the elements in the bytes of their message. */
static void find_elements(struct span inside, const struct mb_field *field, struct moved *moved)
{
    struct record record;
    uint64_t bits;

    for (const uint8_t *begin = inside.at; next_record(&inside, &record); begin = inside.at) {
        if (record.number != field->number)
            continue;
        if (is_of_kind(&record, field->kind))
            see_element(moved, begin, inside.at);
        else if (is_packed_of(&record, field->kind))
            for (const uint8_t *at = record.inside.at; next_packed(&record.inside, field->kind, &bits); at = record.inside.at)
                see_element(moved, at, record.inside.at);
    }
}

/* Exchanges two neighbours: the elements from `to` on, and those from `from` on. No length changes. */
static bool exchange(Node *root, PyObject *whole, const struct moved *moved)
{
    const uint8_t *bytes = (const uint8_t *)PyBytes_AsString(whole);
    size_t len = (size_t)PyBytes_Size(whole), at = (size_t)(moved->to_at - bytes);
    size_t first = (size_t)(moved->end - moved->from_at), second = (size_t)(moved->from_at - moved->to_at);
    uint8_t *made = PyMem_Malloc(len + 1);

    if (made == NULL) {
        PyErr_NoMemory();
        return false;
    }
    memcpy(made, bytes, len);
    memcpy(made + at, moved->from_at, first);
    memcpy(made + at + first, moved->to_at, second);
    bool is_done = put_bytes(root, made, len);
    PyMem_Free(made);
    return is_done;
}

static bool move(Node *node, size_t to, size_t count, size_t length)
{
    struct moved moved = {to, length - count, length, 0, NULL, NULL, NULL};
    struct span inside;
    PyObject *held;

    if (!span_in_root(node, &inside, &held))
        return false;
    find_elements(inside, &node->field->is, &moved);
    bool is_done = moved.to_at != NULL && moved.from_at != NULL && moved.end != NULL;
    if (!is_done)
        nothing_there(MB_ABSENT);
    is_done = is_done && exchange(root_of(node), held, &moved);
    Py_DECREF(held);
    struct reached list = reach(node, NULL, NULL);
    if (is_done)
        move_elements(root_of(node), &list, to, count, length);
    return is_done;
}

PyObject *list_move(PyObject *self, PyObject *args)
{
    Py_ssize_t to, count, length;

    if (!PyArg_ParseTuple(args, "nn:_move", &to, &count) || (length = part_length(self)) < 0)
        return NULL;
    if (to < 0 || count < 0 || count > length || to > length - count) {
        PyErr_SetString(PyExc_IndexError, "the list is shorter");
        return NULL;
    }
    if (count > 0 && to < length - count && !move((Node *)self, (size_t)to, (size_t)count, (size_t)length))
        return NULL;
    Py_RETURN_NONE;
}

/* ---- The bytes of a message in another one ---- */

const char fill_doc[] = "_fill($self, bytes, /)\n--\n\nGives a message that is there these bytes, which are an encoding of its type, in place of its own.";

static size_t varint_size(uint64_t number)
{
    size_t size = 1;

    for (; number > 127; number >>= 7)
        size++;
    return size;
}

static uint8_t *put_varint(uint8_t *at, uint64_t number)
{
    for (; number > 127; number >>= 7)
        *at++ = (uint8_t)(number | 128);
    *at++ = (uint8_t)number;
    return at;
}

static uint8_t *put_stretch(uint8_t *at, const uint8_t *from, const uint8_t *to)
{
    memcpy(at, from, (size_t)(to - from));
    return at + (to - from);
}

/* The lengths that the stretches of a trail have once the innermost has this one. Returns by how many bytes the whole is longer. */
static ptrdiff_t new_lengths(const struct trail *trail, size_t innermost, size_t *lengths)
{
    ptrdiff_t more = 0;

    for (size_t i = trail->count; i-- > 0;) {
        size_t old = (size_t)(trail->spans[i].end - trail->spans[i].at);
        lengths[i] = i + 1 == trail->count ? innermost : (size_t)((ptrdiff_t)old + more);
        more = (ptrdiff_t)lengths[i] - (ptrdiff_t)old;
        if (!trail->is_group[i])
            more += (ptrdiff_t)varint_size(lengths[i]) - (ptrdiff_t)varint_size(old);
    }
    return more;
}

/* Writes the whole with other bytes in the innermost stretch of a trail: what is before each stretch, its new length, and what is after it. */
static void put_whole(uint8_t *at, struct span whole, const struct trail *trail, const size_t *lengths, PyObject *inner)
{
    const uint8_t *from = whole.at;

    for (size_t i = 0; i < trail->count; i++) {
        size_t old = (size_t)(trail->spans[i].end - trail->spans[i].at);
        at = put_stretch(at, from, trail->spans[i].at - (trail->is_group[i] ? 0 : varint_size(old)));
        if (!trail->is_group[i])
            at = put_varint(at, lengths[i]);
        from = trail->spans[i].at;
    }
    const uint8_t *bytes = (const uint8_t *)PyBytes_AsString(inner);
    at = put_stretch(at, bytes, bytes + PyBytes_Size(inner));
    put_stretch(at, trail->spans[trail->count - 1].end, whole.end);
}

/* Puts bytes in place of the innermost stretch of a trail. */
static bool fill(Node *root, struct span whole, const struct trail *trail, PyObject *inner)
{
    size_t lengths[sizeof trail->spans / sizeof *trail->spans];
    size_t len = (size_t)((whole.end - whole.at) + new_lengths(trail, (size_t)PyBytes_Size(inner), lengths));
    uint8_t *made = PyMem_Malloc(len + 1);

    if (made == NULL) {
        PyErr_NoMemory();
        return false;
    }
    put_whole(made, whole, trail, lengths, inner);
    bool is_done = put_bytes(root, made, len);
    PyMem_Free(made);
    return is_done;
}

PyObject *message_fill(PyObject *self, PyObject *bytes)
{
    Node *node = (Node *)self, *root = root_of(node);
    struct trail trail = {0};
    struct span whole, inside;
    PyObject *held;

    if (!PyBytes_Check(bytes)) {
        PyErr_SetString(PyExc_TypeError, "a message is filled with bytes");
        return NULL;
    }
    int is_set = PyObject_IsTrue(self);
    if (is_set <= 0)
        return is_set < 0 ? NULL : nothing_there(MB_ABSENT);
    if ((held = bytes_of_root(root)) == NULL)
        return NULL;
    Py_INCREF(held);
    whole.at = (const uint8_t *)PyBytes_AsString(held);
    whole.end = whole.at + PyBytes_Size(held);
    inside = whole;
    bool is_done = go_along(node, node->place_len, &inside, &trail);
    if (is_done && node->root == NULL)
        is_done = put_bytes(root, (const uint8_t *)PyBytes_AsString(bytes), (size_t)PyBytes_Size(bytes));
    else if (is_done)
        is_done = fill(root, whole, &trail, bytes);
    Py_DECREF(held);
    if (!is_done)
        return NULL;
    Py_RETURN_NONE;
}
