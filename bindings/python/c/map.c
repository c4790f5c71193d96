/* Maps in messages. All keys of a map are read of the canonical bytes of its message, in one pass. */
#include "node.h"

PyObject *map_type;

int step_of_key(Node *node, PyObject *key, struct mb_value *step, PyObject **bytes)
{
    struct given given;

    *bytes = NULL;
    if (!give_key(node->field, key, &given)) {
        bool is_none = PyErr_ExceptionMatches(PyExc_TypeError) || PyErr_ExceptionMatches(PyExc_ValueError);
        return is_none ? 0 : -1;
    }
    *bytes = given.held;
    *step = given.value;
    return 1;
}

/* What is under a key, or NULL, without an exception where nothing is, as where the object can't be a key. */
static PyObject *under(Node *node, PyObject *key)
{
    struct mb_value step = {0, 0};
    PyObject *bytes, *found;

    if (handle_of(node) == NULL)
        return NULL;
    int is_key = step_of_key(node, key, &step, &bytes);
    if (is_key == 0)
        PyErr_Clear();
    if (is_key <= 0)
        return NULL;
    found = inner(node, step, bytes, node->field);
    Py_XDECREF(bytes);
    return found;
}

static PyObject *map_subscript(PyObject *self, PyObject *key)
{
    PyObject *found = under((Node *)self, key);

    if (found == NULL && !PyErr_Occurred())
        PyErr_SetObject(PyExc_KeyError, key);
    return found;
}

static int map_contains(PyObject *self, PyObject *key)
{
    PyObject *found = under((Node *)self, key);

    if (found == NULL)
        return PyErr_Occurred() ? -1 : 0;
    Py_DECREF(found);
    return 1;
}

static PyObject *map_get(PyObject *self, PyObject *args, PyObject *kwargs)
{
    static char *names[] = {"key", "default", NULL};
    PyObject *key, *otherwise = Py_None, *found;

    if (!PyArg_ParseTupleAndKeywords(args, kwargs, "O|O:get", names, &key, &otherwise))
        return NULL;
    found = under((Node *)self, key);
    if (found == NULL && !PyErr_Occurred()) {
        Py_INCREF(otherwise);
        found = otherwise;
    }
    return found;
}

PyDoc_STRVAR(key_doc, "_key($self, index, /)\n--\n\nThe key at an index, as the library reports it: kind, number, and the bytes of a string, or None.");

static PyObject *map_key(PyObject *self, PyObject *index)
{
    Node *node = (Node *)self;
    struct mb_value key = {0, 0};
    size_t at = PyLong_AsSize_t(index);
    struct mb_message *handle = PyErr_Occurred() ? NULL : handle_of(node);
    PyObject *name = NULL;

    if (handle == NULL)
        return NULL;
    uint32_t answer = mb_message_key(handle, PLACE(node), at, &key, NULL, 0);
    if (answer != MB_DONE)
        return nothing_there(answer);
    if (key.kind == MB_STRING) {
        name = PyBytes_FromStringAndSize(NULL, (Py_ssize_t)key.number);
        if (name == NULL)
            return NULL;
        answer = mb_message_key(handle, PLACE(node), at, &key, (uint8_t *)PyBytes_AsString(name), (size_t)key.number);
        if (answer != MB_DONE) {
            Py_DECREF(name);
            return nothing_there(answer);
        }
    } else {
        Py_INCREF(name = Py_None);
    }
    return Py_BuildValue("IKN", key.kind, (unsigned long long)key.number, name);
}

/* ---- All entries ---- */

/* What a list of a map has of each entry. */
enum what { KEYS, VALUES, ITEMS };

/* The value of an entry: a message is the part under its key. */
static PyObject *value_of_entry(Node *node, PyObject *key, const struct record *value)
{
    return is_message_kind(node->field->is.kind) ? map_subscript((PyObject *)node, key) : wire_value(node->field->is.kind, value);
}

static PyObject *listed_entry(Node *node, struct span entry, enum what what)
{
    struct record key_record, value_record;

    if (!entry_of(entry, &key_record, &value_record))
        return nothing_there(MB_BAD_PLACE);
    PyObject *key = wire_value(node->field->is.key, &key_record);
    if (key == NULL || what == KEYS)
        return key;
    PyObject *value = value_of_entry(node, key, &value_record);
    PyObject *it = value == NULL || what == VALUES ? value : PyTuple_Pack(2, key, value);
    if (it != value)
        Py_DECREF(value);
    Py_DECREF(key);
    return it;
}

/* What there is of each entry, by rising keys. */
static PyObject *listed(PyObject *self, enum what what)
{
    Node *node = (Node *)self;
    struct span inside;
    struct record record;
    PyObject *held, *list = PyList_New(0);

    if (list == NULL || !span_of(node, &inside, &held)) {
        Py_XDECREF(list);
        return NULL;
    }
    while (list != NULL && next_record(&inside, &record)) {
        if (record.number != node->field->is.number || record.wire != WIRE_BYTES)
            continue;
        PyObject *it = listed_entry(node, record.inside, what);
        if (it == NULL || PyList_Append(list, it) < 0)
            Py_CLEAR(list);
        Py_XDECREF(it);
    }
    Py_DECREF(held);
    return list;
}

PyDoc_STRVAR(keys_doc, "keys($self, /)\n--\n\nReturns the keys as a list, in rising order.");

static PyObject *map_keys(PyObject *self, PyObject *Py_UNUSED(ignored))
{
    return listed(self, KEYS);
}

PyDoc_STRVAR(values_doc, "values($self, /)\n--\n\nReturns the values as a list, in the order of their keys.");

static PyObject *map_values(PyObject *self, PyObject *Py_UNUSED(ignored))
{
    return listed(self, VALUES);
}

PyDoc_STRVAR(items_doc, "items($self, /)\n--\n\nReturns pairs of key and value as a list, in the order of the keys.");

static PyObject *map_items(PyObject *self, PyObject *Py_UNUSED(ignored))
{
    return listed(self, ITEMS);
}

static PyObject *map_iter(PyObject *self)
{
    PyObject *keys = map_keys(self, NULL), *iterator;

    if (keys == NULL)
        return NULL;
    iterator = PyObject_GetIter(keys);
    Py_DECREF(keys);
    return iterator;
}

/* The entries as a dict of Python's. */
static PyObject *entries(PyObject *self)
{
    PyObject *items = map_items(self, NULL), *dict = items == NULL ? NULL : PyDict_New();

    if (dict != NULL && PyDict_MergeFromSeq2(dict, items, 1) < 0)
        Py_CLEAR(dict);
    Py_XDECREF(items);
    return dict;
}

/* A map is compared with another one, and with dicts, as dicts are. */
static PyObject *map_compare(PyObject *self, PyObject *other, int how)
{
    bool is_part = Py_TYPE(other) == Py_TYPE(self);

    if ((how != Py_EQ && how != Py_NE) || (!is_part && !PyDict_Check(other)))
        Py_RETURN_NOTIMPLEMENTED;
    PyObject *one = entries(self), *two = one == NULL ? NULL : is_part ? entries(other) : other;
    PyObject *answer = two == NULL ? NULL : PyObject_RichCompare(one, two, how);
    if (is_part)
        Py_XDECREF(two);
    Py_XDECREF(one);
    return answer;
}

PyObject *made_map_type(void)
{
    static PyMethodDef methods[] = {
        {"get", (PyCFunction)(void (*)(void))map_get, METH_VARARGS | METH_KEYWORDS,
         "get($self, /, key, default=None)\n--\n\nReturns the value under a key if it is there, else the default."},
        {"keys", map_keys, METH_NOARGS, keys_doc},
        {"values", map_values, METH_NOARGS, values_doc},
        {"items", map_items, METH_NOARGS, items_doc},
        {"_key", map_key, METH_O, key_doc},
        {"_read", node_read, METH_VARARGS, read_doc},
        {"clear", part_clear, METH_NOARGS, clear_doc},
        {"_make", map_make, METH_O, make_doc},
        {NULL, NULL, 0, NULL},
    };
    static PyGetSetDef getset[] = {
        {"field", part_get_field, NULL, "The field of the map.", NULL},
        {NULL, NULL, NULL, NULL, NULL},
    };
    static PyType_Slot slots[] = {
        {Py_tp_doc, "A map in a message, which is compared with dicts by its entries."},
        {Py_tp_new, no_new},
        {Py_tp_dealloc, node_dealloc},
        {Py_tp_repr, part_repr},
        {Py_tp_richcompare, map_compare},
        {Py_tp_hash, PyObject_HashNotImplemented},
        {Py_tp_methods, methods},
        {Py_tp_getset, getset},
        {Py_tp_iter, map_iter},
        {Py_mp_length, part_length},
        {Py_mp_subscript, map_subscript},
        {Py_mp_ass_subscript, map_assign},
        {Py_sq_contains, map_contains},
        {0, NULL},
    };
    static PyType_Spec spec = {"mabristu.Map", sizeof(Node), 0, Py_TPFLAGS_DEFAULT, slots};
    return PyType_FromSpec(&spec);
}
