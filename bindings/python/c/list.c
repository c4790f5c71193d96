/* Lists in messages. */
#include "node.h"

PyObject *list_type;

/* How many values a list or a map has, or -1. */
Py_ssize_t part_length(PyObject *self)
{
    Node *node = (Node *)self;
    Py_ssize_t length = node->view == NO_VIEW ? -1 : given_length(node);
    struct mb_value value = {0, 0};

    if (length >= 0)
        return length;
    struct mb_message *handle = handle_of(node);
    if (handle == NULL)
        return -1;
    uint32_t answer = mb_message_get(handle, PLACE(node), &value);
    if (answer == MB_ABSENT)
        return 0;
    if (answer != MB_DONE) {
        refuse(answer, NULL);
        return -1;
    }
    return (Py_ssize_t)value.number;
}

PyObject *part_get_field(PyObject *self, void *Py_UNUSED(which))
{
    PyObject *field = (PyObject *)((Node *)self)->field;

    Py_INCREF(field);
    return field;
}

/* An element that the bytes say which were given. */
static PyObject *made_of(Node *list, size_t index, const struct record *element)
{
    struct mb_value step = {MB_INDEX, index};

    if (!is_message_kind(list->field->is.kind))
        return wire_value(list->field->is.kind, element);
    PyObject *part = make_part(list, message_type, step, NULL, list->field);
    if (part != NULL)
        give_element((Node *)part, element);
    return part;
}

/* The element of an index, or NULL: with an exception, or without one where the list is shorter. */
static PyObject *found_item(Node *list, size_t index)
{
    struct mb_value step = {MB_INDEX, index};
    struct record element;
    int found = list->view == NO_VIEW ? -1 : given_element(list, index, &element);

    if (found < 0)
        return inner(list, step, NULL, list->field);
    return found == 1 ? made_of(list, index, &element) : NULL;
}

/* Python adds the length to a negative index before it comes here. */
static PyObject *list_item(PyObject *self, Py_ssize_t index)
{
    PyObject *found = index < 0 ? NULL : found_item((Node *)self, (size_t)index);

    if (found == NULL && !PyErr_Occurred())
        PyErr_SetString(PyExc_IndexError, "the list is shorter");
    return found;
}

/* The elements of a slice, as a list. */
static PyObject *list_slice(PyObject *self, PyObject *slice)
{
    Py_ssize_t at, stop, step, length;

    if (PySlice_Unpack(slice, &at, &stop, &step) < 0 || (length = part_length(self)) < 0)
        return NULL;
    Py_ssize_t count = PySlice_AdjustIndices(length, &at, &stop, step);
    PyObject *list = PyList_New(0);
    for (Py_ssize_t i = 0; list != NULL && i < count; i++) {
        PyObject *it = list_item(self, at + i * step);
        if (it == NULL || PyList_Append(list, it) < 0)
            Py_CLEAR(list);
        Py_XDECREF(it);
    }
    return list;
}

static PyObject *list_subscript(PyObject *self, PyObject *index)
{
    if (PySlice_Check(index))
        return list_slice(self, index);
    if (!PyIndex_Check(index)) {
        PyErr_SetString(PyExc_TypeError, "the index of a list is an integer or a slice");
        return NULL;
    }
    Py_ssize_t at = PyNumber_AsSsize_t(index, PyExc_IndexError);
    if (at == -1 && PyErr_Occurred())
        return NULL;
    if (at < 0) {
        Py_ssize_t length = part_length(self);
        if (length < 0)
            return NULL;
        at += length;
    }
    return list_item(self, at);
}

/* The elements as a list of Python's. */
static PyObject *elements(PyObject *self)
{
    PyObject *slice = PySlice_New(NULL, NULL, NULL), *list = slice == NULL ? NULL : list_slice(self, slice);

    Py_XDECREF(slice);
    return list;
}

/* A list is compared with another one, and with lists of Python's, as lists are: by copies, since comparing may run Python code. */
static PyObject *list_compare(PyObject *self, PyObject *other, int how)
{
    bool is_part = Py_TYPE(other) == Py_TYPE(self);

    if ((how != Py_EQ && how != Py_NE) || (!is_part && !PyList_Check(other)))
        Py_RETURN_NOTIMPLEMENTED;
    PyObject *one = elements(self), *two = one == NULL ? NULL : is_part ? elements(other) : other;
    PyObject *answer = two == NULL ? NULL : PyObject_RichCompare(one, two, how);
    if (is_part)
        Py_XDECREF(two);
    Py_XDECREF(one);
    return answer;
}

/* Lists and maps print as those of Python. */
PyObject *part_repr(PyObject *self)
{
    Node *node = (Node *)self;

    if (node->is_gone)
        return PyUnicode_FromString("<part of a message that is gone>");
    PyObject *plain = Py_TYPE(self) == (PyTypeObject *)list_type ? elements(self) : call_change("plain_dict", self, NULL, NULL);
    PyObject *text = plain == NULL ? NULL : PyObject_Repr(plain);
    Py_XDECREF(plain);
    return text;
}

PyObject *made_list_type(void)
{
    static PyMethodDef methods[] = {
        {"_read", node_read, METH_VARARGS, read_doc},
        {"append", list_append, METH_O, append_doc},
        {"extend", list_extend, METH_O, extend_doc},
        {"clear", part_clear, METH_NOARGS, clear_doc},
        {"_make", list_make, METH_NOARGS, make_doc},
        {"_make_at", list_make_at, METH_O, make_at_doc},
        {"_move", list_move, METH_VARARGS, move_doc},
        {NULL, NULL, 0, NULL},
    };
    static PyGetSetDef getset[] = {
        {"field", part_get_field, NULL, "The field of the list.", NULL},
        {NULL, NULL, NULL, NULL, NULL},
    };
    static PyType_Slot slots[] = {
        {Py_tp_doc, "A list in a message, which is compared with lists by its values."},
        {Py_tp_new, no_new},
        {Py_tp_dealloc, node_dealloc},
        {Py_tp_repr, part_repr},
        {Py_tp_richcompare, list_compare},
        {Py_tp_hash, PyObject_HashNotImplemented},
        {Py_tp_methods, methods},
        {Py_tp_getset, getset},
        {Py_sq_length, part_length},
        {Py_sq_item, list_item},
        {Py_mp_length, part_length},
        {Py_mp_subscript, list_subscript},
        {Py_mp_ass_subscript, list_assign},
        {0, NULL},
    };
    static PyType_Spec spec = {"mabristu.List", sizeof(Node), 0, Py_TPFLAGS_DEFAULT, slots};
    return PyType_FromSpec(&spec);
}
