/* Arguments in, bytes out. */
#include "common.h"

/* It is part of the stable ABI, but headers from 3.13 on do not declare it. */
PyAPI_FUNC(int) PyObject_AsReadBuffer(PyObject *, const void **, Py_ssize_t *);

bool take_input(PyObject *object, struct input *input)
{
    Py_ssize_t len = 0;

    if (PyBytes_Check(object)) {
        char *at = NULL;
        if (PyBytes_AsStringAndSize(object, &at, &len) < 0)
            return false;
        Py_INCREF(object);
        *input = (struct input){(const uint8_t *)at, (size_t)len, object, true};
        return true;
    }
    /* The memoryview keeps the buffer until it is dropped. Its bytes may be written by other threads, so the global lock is kept meanwhile. */
    PyObject *view = PyMemoryView_FromObject(object);
    const void *at = NULL;
    if (view == NULL)
        return false;
#pragma GCC diagnostic push
#pragma GCC diagnostic ignored "-Wdeprecated-declarations"
    int answer = PyObject_AsReadBuffer(view, &at, &len);
#pragma GCC diagnostic pop
    if (answer < 0) {
        Py_DECREF(view);
        return false;
    }
    *input = (struct input){at, (size_t)len, view, false};
    return true;
}

void drop_input(struct input *input)
{
    Py_CLEAR(input->held);
}

bool set_limits(Py_ssize_t max_bytes, Py_ssize_t max_depth, struct limits *limits)
{
    if (max_bytes < 0 || max_bytes > (Py_ssize_t)MB_MAX_BYTES || max_depth < 0 || max_depth > MB_MAX_DEPTH) {
        PyErr_Format(PyExc_ValueError, "max_bytes is at most %zd, and max_depth at most %d", (Py_ssize_t)MB_MAX_BYTES, MB_MAX_DEPTH);
        return false;
    }
    *limits = (struct limits){(uint32_t)max_bytes, (uint8_t)max_depth};
    return true;
}

bool take_data(PyObject *args, PyObject *kwargs, PyObject **data, struct limits *limits)
{
    static char *names[] = {"data", "max_bytes", "max_depth", NULL};
    Py_ssize_t max_bytes = MB_MAX_BYTES, max_depth = MB_MAX_DEPTH;

    if (kwargs == NULL && PyTuple_Size(args) == 1) {
        *data = PyTuple_GetItem(args, 0);
        *limits = (struct limits){MB_MAX_BYTES, MB_MAX_DEPTH};
        return true;
    }
    return PyArg_ParseTupleAndKeywords(args, kwargs, "O|$nn", names, data, &max_bytes, &max_depth) && set_limits(max_bytes, max_depth, limits);
}

PyObject *as_bytes(const uint8_t *at, size_t len)
{
    return PyBytes_FromStringAndSize((const char *)at, (Py_ssize_t)len);
}

PyObject *as_str(const uint8_t *at, size_t len)
{
    return PyUnicode_DecodeUTF8((const char *)at, (Py_ssize_t)len, NULL);
}

PyObject *no_new(PyTypeObject *Py_UNUSED(type), PyObject *Py_UNUSED(args), PyObject *Py_UNUSED(kwargs))
{
    PyErr_SetString(PyExc_TypeError, "the calls of a pool and of its types make such objects");
    return NULL;
}
