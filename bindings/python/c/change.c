/* Changes of messages that the library holds. What is one scalar is changed here, and what has several parts by the functions of _change.py. */
#include "node.h"

PyObject *change_functions;

const char append_doc[] = "append($self, value, /)\n--\n\nAdds a value at the end. A message is given as a dict or as a message, which is copied.";
const char extend_doc[] = "extend($self, values, /)\n--\n\nAdds each of the values at the end. If a value is refused, the values before it are kept.";
const char clear_doc[] = "clear($self, /)\n--\n\nRemoves all elements or entries.";
const char make_doc[] = "_make([name or key])\n--\n\nPuts an empty message here, and returns it as a part.";
const char make_at_doc[] = "_make_at($self, index, /)\n--\n\nPuts an empty message in place of the one here, and returns it as a part.";
const char move_doc[] = "_move($self, index, count, /)\n--\n\nMoves this many elements from the end of the list to an index.";
const char drop_unknown_doc[] = "drop_unknown($self, /)\n--\n\nDrops the unknown fields of this message. Messages in it keep their unknown fields.";

/* A call that changes a message, and those of them that take a value. */
typedef uint32_t changer(struct mb_message *, const struct mb_value *, size_t, const struct mb_bytes *, size_t);
typedef uint32_t putter(struct mb_message *, const struct mb_value *, size_t, const struct mb_bytes *, size_t, const struct mb_value *);

/* The exception for an answer to a change of a field, if it is one of a field. */
static void refuse_change(uint32_t answer, Field *field)
{
    nothing_there(answer);
    if (field != NULL && is_cause_of_change(answer))
        add_hint("hint_of_change", (PyObject *)field);
}

/* ---- The way to a part that is not there ---- */

/* The field that a step of a place is a step into. The reference is borrowed, from a type that its pool keeps. */
static Field *field_at_step(Node *node, size_t step)
{
    MessageType *type = root_of(node)->type;

    for (size_t i = 0;; i++) {
        Field *field = node->place[i].kind == MB_FIELD ? field_by_number(type, (uint32_t)node->place[i].number) : NULL;
        if (node->place[i].kind == MB_FIELD && (field == NULL || i == step))
            return field;
        if (field != NULL && is_message_kind(field->is.kind)) {
            type = type_by_number(field->pool, (uint32_t)field->is.type_of, NULL);
            if (type == NULL)
                return NULL;
            Py_DECREF(type);
        }
    }
}

/* The messages that were made on a way: how many steps lead to the first, 0 for none; and the whole message before, if a member of a oneof was cleared. */
struct way {
    size_t first;
    struct mb_message before;
};

/* The member that is set of the oneof that a field is in, in the message that the first steps of a node's place lead to; 0 where there is none. Returns whether
 * it could be read. */
static bool member_set(Node *node, size_t steps, Field *field, uint32_t *member)
{
    *member = 0;
    if (field->is.shape != SHAPE_ONEOF)
        return true;
    if (!field->has_detail && !read_detail(field))
        return false;
    uint32_t answer = mb_message_oneof(&root_of(node)->handle, node->place, steps, node->keys, node->keys_len, field->detail, member);
    if (answer != MB_DONE && answer != MB_ABSENT)
        nothing_there(answer);
    return answer == MB_DONE || answer == MB_ABSENT;
}

/* The first steps of a node's place lead to a member of a oneof. The place of another member is the same but for its last step: the parts of it are gone. */
static void lose_member(Node *node, size_t steps, uint32_t member)
{
    if (member == 0 || !has_parts(node))
        return;
    struct mb_value *place = PyMem_Malloc(steps * sizeof *place);
    if (place == NULL) {
        lose_all(root_of(node));
        return;
    }
    memcpy(place, node->place, steps * sizeof *place);
    place[steps - 1].number = member;
    struct reached reached = {place, node->keys, steps, node->keys_len};
    lose(root_of(node), &reached);
    PyMem_Free(place);
}

/* Makes the message that the first steps of a node's place lead to. */
static bool make_message(Node *node, size_t steps, struct way *way)
{
    struct mb_value empty = {MB_MESSAGE, 0};
    struct mb_message *handle = &root_of(node)->handle;
    Field *field = field_at_step(node, steps - 1);
    uint32_t member = 0;

    if (field == NULL || !member_set(node, steps - 1, field, &member))
        return false;
    uint32_t answer = member != 0 && !way->before.full ? mb_message_copy(handle, &way->before) : MB_DONE;
    if (answer == MB_DONE)
        answer = mb_message_set(handle, node->place, steps, node->keys, node->keys_len, &empty);
    if (answer != MB_DONE) {
        refuse_change(answer, field);
        return false;
    }
    if (way->first == 0)
        way->first = steps;
    lose_member(node, steps, member);
    return true;
}

/* Makes the messages on the way to a node, and the one that it is, that are not there. Returns whether it could. */
static bool make_way(Node *node, struct way *way)
{
    size_t steps = node->place_len - (node->type == NULL);
    struct mb_value found;

    for (size_t i = 1; i <= steps; i++) {
        bool is_one = node->place[i - 1].kind == MB_FIELD && (i == steps || node->place[i].kind == MB_FIELD);
        if (is_one && mb_message_get(&root_of(node)->handle, node->place, i, node->keys, node->keys_len, &found) == MB_ABSENT && !make_message(node, i, way))
            return false;
    }
    return true;
}

/* Takes back what was made on a way, where the change at its end is refused. */
static void unmake_way(Node *node, struct way *way)
{
    struct mb_message *handle = &root_of(node)->handle;

    if (way->before.full) {
        struct mb_message now = *handle;
        *handle = way->before;
        way->before = now;
    } else if (way->first > 0) {
        mb_message_clear(handle, node->place, way->first, node->keys, node->keys_len);
    }
}

/* ---- Calls ---- */

/* A change one step further in than a node, or of the node itself without a step: the call, the field that is changed, and the value where the call takes
 * one. */
struct act {
    Node *node;
    Field *field;
    const struct mb_value *step;
    PyObject *key;
    changer *change;
    putter *put;
    struct given *given;
};

/* What a change takes away: the member of a oneof that is set before, and whether something is at the place. */
struct lost {
    uint32_t member;
    bool was_there;
};

/* Calls the library. A string of the value comes after the keys. */
static uint32_t make_call(const struct act *act)
{
    struct mb_message *handle = &root_of(act->node)->handle;
    struct reached place = reach(act->node, act->step, act->key);

    if (act->put == NULL)
        return act->change(handle, PLACE(&place));
    if (act->given->held != NULL) {
        act->given->value.number = place.keys_len;
        place.keys[place.keys_len++] = bytes_in(act->given->held);
    }
    return act->put(handle, PLACE(&place), &act->given->value);
}

/* Sets the exception where an answer is not MB_DONE. Returns whether it is. */
static bool is_changed(const struct act *act, uint32_t answer)
{
    if (answer == MB_DONE)
        return true;
    if (answer == MB_BAD_VALUE && act->field != NULL)
        return out_of_range(act->field, false, NULL);
    refuse_change(answer, act->field);
    return false;
}

/* What a change will take away, where the message has parts that it may concern. */
static bool before_change(const struct act *act, struct lost *lost)
{
    *lost = (struct lost){0, false};
    if (!has_parts(act->node))
        return true;
    bool is_message = act->put == mb_message_set && act->given->value.kind == MB_MESSAGE;
    if (act->change == mb_message_clear || is_message) {
        struct reached place = reach(act->node, act->step, act->key);
        int answer = is_there(act->node, &place);
        if (answer < 0)
            return false;
        lost->was_there = answer;
    }
    if (act->put == mb_message_set && act->field != NULL && act->step->kind == MB_FIELD)
        return member_set(act->node, act->node->place_len, act->field, &lost->member);
    return true;
}

static void after_change(const struct act *act, const struct lost *lost)
{
    Node *root = root_of(act->node);

    has_changed(root);
    if (!has_parts(act->node))
        return;
    struct reached place = reach(act->node, act->step, act->key);
    if (act->change == mb_message_remove && act->step->kind == MB_INDEX)
        lose_element(root, &place);
    else if (lost->was_there || act->change == mb_message_remove || act->put == mb_message_insert)
        lose(root, &place);
    if (lost->member != 0 && act->field->is.number != lost->member) {
        place.place[place.place_len - 1].number = lost->member;
        lose(root, &place);
    }
}

/* Makes a call where the node is a part that is not there: what clears or removes has nothing to do, and what puts makes the way. */
static uint32_t call_where_absent(const struct act *act)
{
    struct way way = {0, {NULL, false}};
    uint32_t answer = MB_DONE;

    if (act->change != NULL)
        return MB_DONE;
    if (make_way(act->node, &way))
        answer = make_call(act);
    if (PyErr_Occurred() || answer != MB_DONE)
        unmake_way(act->node, &way);
    mb_message_free(&way.before);
    return answer;
}

/* Makes a change. Returns whether it was made; else an exception is set. */
static bool make_change(const struct act *act)
{
    struct lost lost;

    if (handle_of(act->node) == NULL || !before_change(act, &lost))
        return false;
    uint32_t answer = make_call(act);
    if (answer == MB_ABSENT && act->node->root != NULL)
        answer = call_where_absent(act);
    if (PyErr_Occurred() || !is_changed(act, answer))
        return false;
    after_change(act, &lost);
    return true;
}

static bool change(Node *node, Field *field, const struct mb_value *step, PyObject *key, changer *call)
{
    struct act act = {node, field, step, key, call, NULL, NULL};

    return make_change(&act);
}

/* Puts a value in a whole message that has no parts: the place is the step alone, and the change concerns nothing else. */
static inline bool put_alone(const struct act *act)
{
    struct mb_bytes string = {NULL, 0};
    bool has_string = act->given->held != NULL;

    if (has_string)
        string = bytes_in(act->given->held);
    uint32_t answer = act->put(&act->node->handle, act->step, 1, &string, has_string, &act->given->value);
    if (answer == MB_DONE)
        has_changed(act->node);
    return is_changed(act, answer);
}

static bool put(Node *node, Field *field, const struct mb_value *step, PyObject *key, putter *call, PyObject *object)
{
    struct given given = {{0, 0}, NULL};
    struct act act = {node, field, step, key, NULL, call, &given};
    /* To give an object may run code of Python, so it comes first. */
    bool is_done = give(field, object, &given) && (node->root == NULL && node->parts == NULL ? put_alone(&act) : make_change(&act));

    Py_XDECREF(given.held);
    return is_done;
}

static bool put_message(Node *node, Field *field, const struct mb_value *step, PyObject *key, putter *call)
{
    struct given given = {{MB_MESSAGE, 0}, NULL};
    struct act act = {node, field, step, key, NULL, call, &given};

    return make_change(&act);
}

/* Calls a function of _change.py with these objects. */
PyObject *call_change(const char *name, PyObject *one, PyObject *two, PyObject *three)
{
    PyObject *function = PyObject_GetAttrString(change_functions, name);
    PyObject *answer = function == NULL ? NULL : PyObject_CallFunctionObjArgs(function, one, two, three, NULL);

    Py_XDECREF(function);
    return answer;
}

static int answered(PyObject *answer)
{
    Py_XDECREF(answer);
    return answer == NULL ? -1 : 0;
}

static PyObject *none_if(bool is_done)
{
    if (!is_done)
        return NULL;
    Py_RETURN_NONE;
}

/* ---- Messages ---- */

int message_assign(PyObject *self, PyObject *name, PyObject *value)
{
    Node *node = (Node *)self;
    Field *field = field_of(node->type, name);

    if (field == NULL)
        return -1;
    struct mb_value step = {MB_FIELD, field->is.number};
    if (value == NULL)
        return change(node, field, &step, NULL, mb_message_clear) ? 0 : -1;
    if (field->is.shape >= SHAPE_LIST || is_message_kind(field->is.kind))
        return answered(call_change("set_field", self, (PyObject *)field, value));
    return put(node, field, &step, NULL, mb_message_set, value) ? 0 : -1;
}

PyObject *message_make(PyObject *self, PyObject *name)
{
    Node *node = (Node *)self;
    Field *field = field_of(node->type, name);

    if (field == NULL)
        return NULL;
    struct mb_value step = {MB_FIELD, field->is.number};
    return put_message(node, field, &step, NULL, mb_message_set) ? PyObject_GetItem(self, name) : NULL;
}

PyObject *message_drop_unknown(PyObject *self, PyObject *Py_UNUSED(ignored))
{
    return none_if(change((Node *)self, NULL, NULL, NULL, mb_message_drop_unknown));
}

/* The fields that are set, by rising number. */
PyObject *message_iter(PyObject *self)
{
    PyObject *numbers = message_numbers(self, NULL), *iterator;
    Py_ssize_t count = numbers == NULL ? 0 : PyList_Size(numbers);

    for (Py_ssize_t i = 0; numbers != NULL && i < count; i++) {
        Field *field = field_by_number(((Node *)self)->type, (uint32_t)PyLong_AsUnsignedLong(PyList_GetItem(numbers, i)));
        Py_XINCREF(field);
        if (field == NULL)
            Py_CLEAR(numbers);
        else
            PyList_SetItem(numbers, i, (PyObject *)field);
    }
    if (numbers == NULL)
        return NULL;
    iterator = PyObject_GetIter(numbers);
    Py_DECREF(numbers);
    return iterator;
}

/* ---- Raw calls ---- */

const char change_doc[] = "_change($self, call, place, strings, value, /)\n--\n\nMakes a call of the library, by steps and a value as it takes them, and"
                          "\nreturns the answer.";

/* The kind and the number of a pair. */
static bool take_pair(PyObject *pair, struct mb_value *value)
{
    unsigned kind = 0;
    unsigned long long number = 0;
    bool is_taken = PyTuple_Check(pair) && PyArg_ParseTuple(pair, "IK", &kind, &number);

    *value = (struct mb_value){kind, number};
    if (!is_taken && !PyErr_Occurred())
        PyErr_SetString(PyExc_TypeError, "a step is a pair");
    return is_taken;
}

static uint32_t raw_answer(struct mb_message *handle, const char *call, const struct mb_value *place, size_t place_len, const struct mb_bytes *strings,
                           size_t strings_len, const struct mb_value *value)
{
    static const struct { const char *name; changer *change; putter *put; } calls[] = {
        {"set", NULL, mb_message_set}, {"clear", mb_message_clear, NULL}, {"push", NULL, mb_message_push}, {"insert", NULL, mb_message_insert},
        {"remove", mb_message_remove, NULL}, {"drop_unknown", mb_message_drop_unknown, NULL},
    };

    for (size_t i = 0; i < sizeof calls / sizeof *calls; i++) {
        if (strcmp(call, calls[i].name) != 0)
            continue;
        return calls[i].put ? calls[i].put(handle, place, place_len, strings, strings_len, value)
                            : calls[i].change(handle, place, place_len, strings, strings_len);
    }
    return MB_BAD_VALUE;
}

/* What a raw call is given. The steps and the strings are owned, since reading a number may run Python code, which may change the lists. */
struct raw {
    PyObject *steps, *given;
    struct mb_value place[256], value;
    struct mb_bytes strings[64];
    size_t count, strings_count;
};

static bool take_steps(struct raw *raw)
{
    raw->count = (size_t)PyTuple_Size(raw->steps);
    if (raw->count > sizeof raw->place / sizeof *raw->place) {
        PyErr_SetString(PyExc_ValueError, "a place has at most 256 steps");
        return false;
    }
    for (size_t i = 0; i < raw->count; i++)
        if (!take_pair(PyTuple_GetItem(raw->steps, (Py_ssize_t)i), &raw->place[i]))
            return false;
    return true;
}

static bool take_strings(struct raw *raw)
{
    raw->strings_count = (size_t)PyTuple_Size(raw->given);
    if (raw->strings_count > sizeof raw->strings / sizeof *raw->strings) {
        PyErr_SetString(PyExc_ValueError, "a place has at most 64 strings");
        return false;
    }
    for (size_t i = 0; i < raw->strings_count; i++) {
        PyObject *it = PyTuple_GetItem(raw->given, (Py_ssize_t)i);
        if (!PyBytes_Check(it)) {
            PyErr_SetString(PyExc_TypeError, "a string is bytes");
            return false;
        }
        raw->strings[i] = (struct mb_bytes){(const uint8_t *)PyBytes_AsString(it), (size_t)PyBytes_Size(it)};
    }
    return true;
}

PyObject *message_change(PyObject *self, PyObject *args)
{
    struct raw raw = {0};
    const char *call;
    PyObject *steps, *given, *of, *answer = NULL;

    if (!PyArg_ParseTuple(args, "sO!O!O", &call, &PyList_Type, &steps, &PyList_Type, &given, &of))
        return NULL;
    raw.steps = PyList_AsTuple(steps);
    raw.given = raw.steps == NULL ? NULL : PyList_AsTuple(given);
    if (raw.given != NULL && take_steps(&raw) && (of == Py_None || take_pair(of, &raw.value)) && take_strings(&raw)) {
        struct mb_message *handle = handle_of((Node *)self);
        if (handle != NULL) {
            uint32_t answered = raw_answer(handle, call, raw.place, raw.count, raw.strings, raw.strings_count, &raw.value);
            has_changed(root_of((Node *)self));
            lose_all(root_of((Node *)self));
            answer = PyLong_FromUnsignedLong(answered);
        }
    }
    Py_XDECREF(raw.steps);
    Py_XDECREF(raw.given);
    return answer;
}

/* ---- Lists and maps ---- */

/* The type of the messages that a list or a map has. */
static PyObject *type_of_values(Node *part)
{
    return (PyObject *)type_by_number(part->field->pool, (uint32_t)part->field->is.type_of, NULL);
}

PyObject *list_append(PyObject *self, PyObject *value)
{
    Node *part = (Node *)self;
    PyObject *type, *answer;

    if (!is_message_kind(part->field->is.kind))
        return none_if(put(part, part->field, NULL, NULL, mb_message_push, value));
    if ((type = type_of_values(part)) == NULL)
        return NULL;
    answer = call_change("append", self, type, value);
    Py_DECREF(type);
    return answer;
}

PyObject *list_extend(PyObject *self, PyObject *values)
{
    return call_change("extend", self, values, NULL);
}

PyObject *part_clear(PyObject *self, PyObject *Py_UNUSED(ignored))
{
    return none_if(change((Node *)self, ((Node *)self)->field, NULL, NULL, mb_message_clear));
}

PyObject *list_make(PyObject *self, PyObject *Py_UNUSED(ignored))
{
    Py_ssize_t length = part_length(self);

    return length >= 0 && put_message((Node *)self, ((Node *)self)->field, NULL, NULL, mb_message_push) ? PySequence_GetItem(self, length) : NULL;
}

/* The step to an element of a list, by an index that may count from the end. Returns whether it is there; else an exception is set. */
static bool index_step(Node *part, PyObject *index, struct mb_value *step)
{
    if (!PyIndex_Check(index)) {
        PyErr_SetString(PyExc_TypeError, "the index of a list is an integer or a slice");
        return false;
    }
    Py_ssize_t at = PyNumber_AsSsize_t(index, PyExc_IndexError), length;
    if ((at == -1 && PyErr_Occurred()) || (length = part_length((PyObject *)part)) < 0)
        return false;
    at += at < 0 ? length : 0;
    if (at < 0 || at >= length)
        PyErr_SetString(PyExc_IndexError, "the list is shorter");
    *step = (struct mb_value){MB_INDEX, (uint64_t)at};
    return at >= 0 && at < length;
}

PyObject *list_make_at(PyObject *self, PyObject *index)
{
    struct mb_value step;
    Node *part = (Node *)self;

    if (!index_step(part, index, &step) || !put_message(part, part->field, &step, NULL, mb_message_set))
        return NULL;
    return inner(part, step, NULL, part->field);
}

int list_assign(PyObject *self, PyObject *index, PyObject *value)
{
    Node *part = (Node *)self;
    struct mb_value step;

    if (PySlice_Check(index))
        return answered(value == NULL ? call_change("delete_slice", self, index, NULL) : call_change("set_slice", self, index, value));
    if (!index_step(part, index, &step))
        return -1;
    if (value == NULL)
        return change(part, part->field, &step, NULL, mb_message_remove) ? 0 : -1;
    if (!is_message_kind(part->field->is.kind))
        return put(part, part->field, &step, NULL, mb_message_set, value) ? 0 : -1;
    return answered(call_change("set_message", self, index, value));
}

/* Changes the entry of a key: removes it, puts an empty message there, or a value. */
static bool change_entry(Node *part, PyObject *key, PyObject *value, bool is_message)
{
    struct mb_value step = {0, 0};
    PyObject *bytes = NULL;
    bool is_done;

    if (step_of_key(part, key, &step, &bytes) <= 0)
        return false;
    if (is_message)
        is_done = put_message(part, part->field, &step, bytes, mb_message_insert);
    else if (value == NULL)
        is_done = change(part, part->field, &step, bytes, mb_message_remove);
    else
        is_done = put(part, part->field, &step, bytes, mb_message_insert, value);
    Py_XDECREF(bytes);
    return is_done;
}

PyObject *map_make(PyObject *self, PyObject *key)
{
    return change_entry((Node *)self, key, NULL, true) ? PyObject_GetItem(self, key) : NULL;
}

static int put_entry(PyObject *self, PyObject *key, PyObject *value)
{
    PyObject *type = type_of_values((Node *)self), *pair = type == NULL ? NULL : PyTuple_Pack(2, key, value);
    int answer = pair == NULL ? -1 : answered(call_change("put_entry", self, type, pair));

    Py_XDECREF(pair);
    Py_XDECREF(type);
    return answer;
}

int map_assign(PyObject *self, PyObject *key, PyObject *value)
{
    Node *part = (Node *)self;

    if (value == NULL) {
        int is_found = PySequence_Contains(self, key);
        if (is_found == 0)
            PyErr_SetObject(PyExc_KeyError, key);
        return is_found == 1 && change_entry(part, key, NULL, false) ? 0 : -1;
    }
    if (is_message_kind(part->field->is.kind))
        return put_entry(self, key, value);
    return change_entry(part, key, value, false) ? 0 : -1;
}
