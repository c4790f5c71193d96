/* Two versions of a message type. */
#include "common.h"

static const char *const severities[] = {NULL, "breaks", "loses", "presence", "converts", "renames"};

/* A difference as _schema.py has it: both types, the field of the old one, and what it does. */
static PyObject *difference(MessageType *old, MessageType *new, const struct mb_difference *is)
{
    PyObject *from = (PyObject *)type_by_number(old->pool, (uint32_t)is->old_type, NULL);
    PyObject *to = from == NULL ? NULL : (PyObject *)type_by_number(new->pool, (uint32_t)is->new_type, NULL);
    Field *field = to == NULL ? NULL : field_by_number((MessageType *)from, is->number);
    PyObject *made = field == NULL ? NULL : PyObject_CallFunction(difference_class, "OOOs", from, to, field, severities[is->severity]);

    Py_XDECREF(from);
    Py_XDECREF(to);
    return made;
}

/* The differences that were reported, as a list. */
static PyObject *differences(MessageType *old, MessageType *new, const struct mb_difference *found, size_t count)
{
    PyObject *list = PyList_New((Py_ssize_t)count);

    for (size_t i = 0; list != NULL && i < count; i++) {
        PyObject *it = difference(old, new, &found[i]);
        if (it == NULL)
            Py_CLEAR(list);
        else
            PyList_SetItem(list, (Py_ssize_t)i, it);
    }
    return list;
}

const char compat_doc[] =
"compat($self, new, /)\n--\n\n"
"Returns a list of Difference: what changes if the type `new` reads messages of this type. A difference has the types old and new, a field of old, and"
"\na severity: breaks, loses, presence, converts or renames. The message types of fields are compared too.";

PyObject *type_compat(PyObject *self, PyObject *other)
{
    MessageType *old = (MessageType *)self, *new = (MessageType *)other;
    struct mb_difference small[64], *found = small;
    struct mb_pool pool = {0};
    size_t count = 0;

    if (Py_TYPE(other) != Py_TYPE(self)) {
        PyErr_SetString(PyExc_TypeError, "a type is compared with a message type");
        return NULL;
    }
    if (!share(new->pool, &pool))
        return NULL;
    uint32_t answer = mb_compat(&old->pool->handle, old->number, &pool, new->number, found, sizeof small / sizeof *small, &count);
    if (answer == MB_DONE && count > sizeof small / sizeof *small) {
        found = PyMem_Malloc(count * sizeof *found);
        answer = found == NULL ? MB_MEMORY : mb_compat(&old->pool->handle, old->number, &pool, new->number, found, count, &count);
    }
    mb_pool_free(&pool);
    PyObject *list = answer == MB_DONE ? differences(old, new, found, count) : refuse(answer, NULL);
    if (found != small)
        PyMem_Free(found);
    return list;
}

const char witness_doc[] =
"witness($self, new, difference, /)\n--\n\n"
"Returns a message of this type that shows a break. The type `new` refuses its canonical bytes, or reads another message. The difference is one of"
"\ncompat(new). Returns None if the difference breaks nothing, or if it is more than 99 messages deep.";

static PyObject *not_of_both(void)
{
    PyErr_SetString(PyExc_TypeError, "a witness is of a type of another version, and of a difference between the two");
    return NULL;
}

/* The part of a difference at an index, of this type; NULL where it is none. The reference is borrowed. */
static PyObject *part_of_difference(PyObject *difference, Py_ssize_t index, PyObject *type)
{
    PyObject *part = PyTuple_Check(difference) && PyTuple_Size(difference) == 4 ? PyTuple_GetItem(difference, index) : NULL;

    return part != NULL && Py_TYPE(part) == (PyTypeObject *)type ? part : NULL;
}

PyObject *type_witness(PyObject *self, PyObject *args)
{
    MessageType *old = (MessageType *)self;
    PyObject *other, *difference;

    if (!PyArg_ParseTuple(args, "OO", &other, &difference))
        return NULL;
    MessageType *new = (MessageType *)other, *from = (MessageType *)part_of_difference(difference, 0, message_type_type);
    MessageType *to = (MessageType *)part_of_difference(difference, 1, message_type_type);
    Field *field = (Field *)part_of_difference(difference, 2, field_type);
    if (Py_TYPE(other) != Py_TYPE(self) || from == NULL || to == NULL || field == NULL || from->pool != old->pool || to->pool != new->pool)
        return not_of_both();
    struct mb_difference is = {from->number, to->number, field->is.number, 0};
    struct mb_pool pool = {0};
    Node *made = share(new->pool, &pool) ? new_message(old) : NULL;
    if (made == NULL) {
        mb_pool_free(&pool);
        return NULL;
    }
    uint32_t answer = mb_compat_witness(&old->pool->handle, old->number, &pool, new->number, &is, &made->handle);
    mb_pool_free(&pool);
    if (answer == MB_DONE)
        return (PyObject *)made;
    Py_DECREF(made);
    if (answer == MB_ABSENT)
        Py_RETURN_NONE;
    return refuse(answer, NULL);
}
