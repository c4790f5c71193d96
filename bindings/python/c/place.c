/* Paths with the names of fields, as the steps of a place. */
#include "common.h"

const char place_doc[] =
"place($self, path, /)\n--\n\n"
"Returns the steps of a path, as lines[2].article or discounts[\"loyal\"]: a tuple of field numbers, indexes and keys. Raises KeyError if no field has a"
"\nname of the path, and ValueError if a part cannot be there. Both say at which byte.";

static PyObject *step_of(const struct mb_value *step, const uint8_t *at, size_t len)
{
    if (step->kind == MB_STRING)
        return as_str(at, len);
    if (step->kind == MB_BOOL)
        return PyBool_FromLong(step->number != 0);
    return step->kind == MB_INT32 || step->kind == MB_INT64 ? PyLong_FromLongLong((int64_t)step->number) : PyLong_FromUnsignedLongLong(step->number);
}

static PyObject *steps_of(const struct mb_value *place, size_t steps, const size_t *lengths, const uint8_t *strings)
{
    PyObject *made = PyTuple_New((Py_ssize_t)steps);

    for (size_t i = 0; made != NULL && i < steps; i++) {
        size_t len = place[i].kind == MB_STRING ? *lengths++ : 0;
        PyObject *step = step_of(&place[i], strings, len);
        if (step == NULL || PyTuple_SetItem(made, (Py_ssize_t)i, step) < 0)
            Py_CLEAR(made);
        strings += len;
    }
    return made;
}

static PyObject *refuse_place(uint32_t answer, size_t byte)
{
    if (answer == MB_ABSENT)
        PyErr_Format(PyExc_KeyError, "path byte %zu: no field of this name", byte);
    else if (answer == MB_BAD_PLACE)
        PyErr_Format(PyExc_ValueError, "path byte %zu: not as a path goes on there", byte);
    else
        refuse(answer, NULL);
    return NULL;
}

PyObject *type_place(PyObject *self, PyObject *path)
{
    MessageType *type = (MessageType *)self;
    struct mb_steps is = {0};
    PyObject *made = NULL;
    char *at = NULL;
    Py_ssize_t len = 0;

    if (!PyUnicode_Check(path)) {
        PyErr_SetString(PyExc_TypeError, "a path is a str");
        return NULL;
    }
    PyObject *text = PyUnicode_AsUTF8String(path);
    if (text == NULL || PyBytes_AsStringAndSize(text, &at, &len) < 0) {
        Py_XDECREF(text);
        return NULL;
    }
    /* A path has no more steps, and no more bytes in strings, than bytes. */
    size_t most = (size_t)len + 1;
    struct mb_value *place = PyMem_Malloc(most * sizeof *place);
    size_t *lengths = PyMem_Malloc(most * sizeof *lengths);
    uint8_t *strings = PyMem_Malloc(most);
    if (place == NULL || lengths == NULL || strings == NULL) {
        PyErr_NoMemory();
    } else {
        uint32_t answer = mb_path(&type->pool->handle, type->number, (const uint8_t *)at, (size_t)len, place, most, lengths, most, strings, most, &is);
        made = answer == MB_DONE ? steps_of(place, is.steps, lengths, strings) : refuse_place(answer, is.byte);
    }
    PyMem_Free(place);
    PyMem_Free(lengths);
    PyMem_Free(strings);
    Py_DECREF(text);
    return made;
}
