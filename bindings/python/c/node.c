/* Nodes: messages and their parts, the places of parts, and which parts a change takes away. */
#include "node.h"

/* ---- Nodes ---- */

static Node *new_node(PyObject *of)
{
    Node *node = PyObject_New(Node, (PyTypeObject *)of);

    if (node == NULL)
        return NULL;
    memset((char *)node + sizeof(PyObject), 0, sizeof *node - sizeof(PyObject));
    node->place = node->short_place;
    node->keys = node->short_keys;
    return node;
}

Node *new_message(MessageType *type)
{
    Node *node = new_node(message_type);

    if (node == NULL)
        return NULL;
    Py_INCREF(type);
    node->type = type;
    return node;
}

/* Each message has a list of its parts, so that a change finds those that it takes away. */
static void link_part(Node *part, Node *root)
{
    Py_INCREF(root);
    part->root = root;
    part->next = root->parts;
    if (root->parts != NULL)
        root->parts->previous = part;
    root->parts = part;
}

static void unlink_part(Node *part)
{
    if (part->previous != NULL)
        part->previous->next = part->next;
    else
        part->root->parts = part->next;
    if (part->next != NULL)
        part->next->previous = part->previous;
}

void node_dealloc(PyObject *self)
{
    PyTypeObject *of = Py_TYPE(self);
    Node *node = (Node *)self;

    if (node->root != NULL)
        unlink_part(node);
    mb_message_free(&node->handle);
    if (node->place != node->short_place)
        PyMem_Free(node->place);
    if (node->keys != node->short_keys)
        PyMem_Free(node->keys);
    drop_view(node);
    Py_CLEAR(node->bytes);
    Py_CLEAR(node->given);
    Py_CLEAR(node->key_objects);
    Py_CLEAR(node->root);
    Py_CLEAR(node->type);
    Py_CLEAR(node->field);
    PyObject_Free(self);
    Py_DECREF(of);
}

struct mb_message *handle_of(Node *node)
{
    if (!node->is_gone)
        return &root_of(node)->handle;
    PyErr_SetString(PyExc_LookupError, "this part of a message is gone: it was removed, or something else was put in its place");
    return NULL;
}

PyObject *nothing_there(uint32_t answer)
{
    if (answer != MB_ABSENT && answer != MB_BAD_PLACE)
        return refuse(answer, NULL);
    PyErr_SetString(PyExc_LookupError, "nothing is at this place of the message");
    return NULL;
}

/* ---- Places ---- */

/* Gives a part memory for this many steps, and for one more. Returns whether there was memory. */
static bool has_place(Node *part, size_t steps)
{
    struct mb_value *place = steps < SHORT_PLACE ? part->short_place : PyMem_Malloc((steps + 1) * sizeof *place);

    if (place != NULL)
        part->place = place;
    return place != NULL;
}

/* Gives a part the keys of a node and one more, where it has one. Returns whether there was memory. */
static bool copy_keys(const Node *node, PyObject *key, Node *part)
{
    size_t keys = node->keys_len + (key != NULL);

    if (keys == 0)
        return true;
    struct mb_bytes *memory = PyMem_Malloc((keys + SHORT_KEYS) * sizeof *memory);
    if (memory == NULL)
        return false;
    part->keys = memory;
    part->key_objects = PyTuple_New((Py_ssize_t)keys);
    if (part->key_objects == NULL)
        return false;
    for (size_t i = 0; i < keys; i++) {
        PyObject *object = i < node->keys_len ? PyTuple_GetItem(node->key_objects, (Py_ssize_t)i) : key;
        Py_INCREF(object);
        PyTuple_SetItem(part->key_objects, (Py_ssize_t)i, object);
        part->keys[i] = bytes_in(object);
    }
    part->keys_len = keys;
    return true;
}

Node *part_of(Node *node, PyObject *of, struct mb_value step, PyObject *key)
{
    Node *part = new_node(of);

    if (part == NULL)
        return NULL;
    link_part(part, root_of(node));
    if (has_place(part, node->place_len + 1) && copy_keys(node, key, part)) {
        for (size_t i = 0; i < node->place_len; i++)
            part->place[i] = node->place[i];
        if (key != NULL)
            step.number = node->keys_len;
        part->place[node->place_len] = step;
        part->place_len = node->place_len + 1;
        return part;
    }
    Py_DECREF(part);
    PyErr_NoMemory();
    return NULL;
}

int is_there(Node *node, const struct reached *place)
{
    struct mb_value value;
    uint32_t answer = mb_message_get(&root_of(node)->handle, PLACE(place), &value);

    if (answer == MB_DONE || answer == MB_ABSENT)
        return answer == MB_DONE;
    nothing_there(answer);
    return -1;
}

/* ---- What a change takes away ---- */

void has_changed(Node *root)
{
    Py_CLEAR(root->bytes);
    Py_CLEAR(root->given);
}

static bool is_key(const struct mb_value *step)
{
    return step->kind != MB_FIELD && step->kind != MB_INDEX;
}

/* Whether two steps are the same, each with its keys. The kind of a key is that of its map. */
static bool is_same_step(const struct mb_value *one, const struct mb_bytes *keys, const struct mb_value *two, const struct mb_bytes *others)
{
    if (is_key(one) && is_key(two) && one->kind == MB_STRING)
        return keys[one->number].len == others[two->number].len && memcmp(keys[one->number].at, others[two->number].at, keys[one->number].len) == 0;
    return (one->kind == two->kind || (is_key(one) && is_key(two))) && one->number == two->number;
}

/* Whether a part's place begins with the first steps of a place. */
static bool begins_with(const Node *part, const struct reached *place, size_t steps)
{
    if (part->place_len < steps)
        return false;
    for (size_t i = 0; i < steps; i++)
        if (!is_same_step(&part->place[i], part->keys, &place->place[i], place->keys))
            return false;
    return true;
}

void lose(Node *root, const struct reached *place)
{
    for (Node *it = root->parts; it != NULL; it = it->next)
        if (begins_with(it, place, place->place_len) && (it->place_len > place->place_len || it->type != NULL))
            it->is_gone = true;
}

void lose_element(Node *root, const struct reached *place)
{
    size_t last = place->place_len - 1;

    for (Node *it = root->parts; it != NULL; it = it->next)
        if (it->place_len > last && !it->is_gone && begins_with(it, place, last) && it->place[last].kind == MB_INDEX) {
            it->is_gone = it->place[last].number == place->place[last].number;
            it->place[last].number -= it->place[last].number > place->place[last].number;
        }
}

void move_elements(Node *root, const struct reached *list, uint64_t to, uint64_t count, uint64_t length)
{
    size_t at = list->place_len;

    for (Node *it = root->parts; it != NULL; it = it->next)
        if (it->place_len > at && !it->is_gone && begins_with(it, list, at) && it->place[at].kind == MB_INDEX && it->place[at].number >= to)
            it->place[at].number = it->place[at].number < length - count ? it->place[at].number + count : it->place[at].number - (length - count) + to;
}

void lose_all(Node *root)
{
    for (Node *it = root->parts; it != NULL; it = it->next)
        it->is_gone = true;
}

/* Whether the message that a part is, or is in, is there; the part itself is not asked where it is a list or a map. */
static int is_part_there(Node *part)
{
    struct reached place = reach(part, NULL, NULL);

    place.place_len -= part->type == NULL;
    return place.place_len == 0 ? 1 : is_there(part, &place);
}

bool before_merge(Node *root)
{
    for (Node *it = root->parts; it != NULL; it = it->next) {
        int answer = it->is_gone ? 0 : is_part_there(it);
        if (answer < 0)
            return false;
        it->was_there = answer;
    }
    return true;
}

bool after_merge(Node *root)
{
    bool is_done = true;

    for (Node *it = root->parts; it != NULL; it = it->next) {
        /* An entry of a map is put in place of the one of its key, and a member of a oneof may be cleared; elements of lists stay. */
        for (size_t i = 0; i < it->place_len; i++)
            it->is_gone |= is_key(&it->place[i]);
        int answer = it->is_gone || !it->was_there ? 1 : is_part_there(it);
        it->is_gone |= answer != 1;
        is_done &= answer >= 0;
    }
    return is_done;
}
