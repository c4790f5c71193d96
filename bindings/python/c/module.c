/* The module mabristu._mabristu. It has no state but its types, so a process imports it once; Python refuses it in interpreters with a lock of their own. */
#include "common.h"

/* Calls without a schema. */
static PyObject *raw(PyObject *args, PyObject *kwargs, bool is_short)
{
    struct report report;
    struct limits limits;
    struct input in;
    PyObject *data, *answer = NULL;
    size_t size = 0;
    uint8_t *out = NULL;
    uint32_t got;

    if (!take_data(args, kwargs, &data, &limits) || !take_input(data, &in))
        return NULL;
    /* The shortest spelling is never longer than the input. */
    if (is_short && (out = PyMem_Malloc(in.len + 1)) == NULL) {
        drop_input(&in);
        return PyErr_NoMemory();
    }
    PyThreadState *state = in.is_fixed && in.len >= LONG_INPUT ? PyEval_SaveThread() : NULL;
    if (is_short)
        got = mb_raw_short(in.at, in.len, limits.max_bytes, limits.max_depth, out, in.len, &size, &report.fault, report.path, MB_MAX_STEPS);
    else
        got = mb_raw_check(in.at, in.len, limits.max_bytes, limits.max_depth, &report.fault, report.path, MB_MAX_STEPS);
    if (state != NULL)
        PyEval_RestoreThread(state);
    if (got == MB_DONE && size > in.len)
        got = MB_TOO_LARGE;
    if (got != MB_DONE)
        refuse(got, &report);
    else if (is_short)
        answer = as_bytes(out, size);
    else
        Py_INCREF(answer = Py_None);
    PyMem_Free(out);
    drop_input(&in);
    return answer;
}

PyDoc_STRVAR(raw_check_doc,
"raw_check($module, data, /, *, max_bytes=2147483647, max_depth=100)\n--\n\n"
"Checks the fields of a message without a schema. Raises Refused if the bytes are not a message of any type.");

static PyObject *raw_check(PyObject *Py_UNUSED(module), PyObject *args, PyObject *kwargs)
{
    return raw(args, kwargs, false);
}

PyDoc_STRVAR(raw_short_doc,
"raw_short($module, data, /, *, max_bytes=2147483647, max_depth=100)\n--\n\n"
"Returns the shortest encoding of the fields of a message, without a schema. Raises Refused as raw_check does.");

static PyObject *raw_short(PyObject *Py_UNUSED(module), PyObject *args, PyObject *kwargs)
{
    return raw(args, kwargs, true);
}

static PyMethodDef methods[] = {
    {"raw_check", (PyCFunction)(void (*)(void))raw_check, METH_VARARGS | METH_KEYWORDS, raw_check_doc},
    {"raw_short", (PyCFunction)(void (*)(void))raw_short, METH_VARARGS | METH_KEYWORDS, raw_short_doc},
    {NULL, NULL, 0, NULL},
};

static struct PyModuleDef definition = {PyModuleDef_HEAD_INIT, "mabristu._mabristu", "Calls of the library mabristu.", -1, methods, NULL, NULL, NULL, NULL};

/* Takes a name of another module of the package. */
static PyObject *taken(const char *module, const char *name)
{
    PyObject *from = PyImport_ImportModule(module), *found = from == NULL ? NULL : PyObject_GetAttrString(from, name);

    Py_XDECREF(from);
    return found;
}

static bool add(PyObject *module, const char *name, PyObject *object)
{
    if (object == NULL)
        return false;
    Py_INCREF(object);
    if (PyModule_AddObject(module, name, object) == 0)
        return true;
    Py_DECREF(object);
    return false;
}

/* Puts the names of all causes into CAUSES of _refused.py. Their numbers fit one byte. */
static bool name_causes(void)
{
    PyObject *causes = taken("mabristu._refused", "CAUSES");
    bool is_named = causes != NULL;

    for (uint32_t number = 0; is_named && number < 256; number++) {
        uint8_t name[64];
        size_t size = 0;
        if (mb_cause_name(number, name, sizeof name, &size) != MB_DONE)
            continue;
        PyObject *key = PyLong_FromUnsignedLong(number), *text = as_str(name, size < sizeof name ? size : sizeof name);
        is_named = key != NULL && text != NULL && PyDict_SetItem(causes, key, text) == 0;
        Py_XDECREF(key);
        Py_XDECREF(text);
    }
    Py_XDECREF(causes);
    return is_named;
}

PyMODINIT_FUNC PyInit__mabristu(void)
{
    PyObject *module;

    if (mb_interface() != MB_INTERFACE) {
        PyErr_Format(PyExc_ImportError, "the library has interface %u, and this module is of %u", (unsigned)mb_interface(), MB_INTERFACE);
        return NULL;
    }
    make_fault = taken("mabristu._refused", "fault");
    make_link = taken("mabristu._refused", "refused");
    frames_class = taken("mabristu._frames", "Frames");
    schema_class = taken("mabristu._schema", "Schema");
    difference_class = taken("mabristu._schema", "Difference");
    enum_class = taken("mabristu._schema", "Enum");
    change_functions = PyImport_ImportModule("mabristu._change");
    refused_functions = PyImport_ImportModule("mabristu._refused");
    pool_type = make_pool_type();
    message_type_type = make_message_type_type();
    field_type = make_field_type();
    decoder_type = make_decoder_type();
    if (make_fault == NULL || make_link == NULL || frames_class == NULL || schema_class == NULL || difference_class == NULL || enum_class == NULL ||
        change_functions == NULL || refused_functions == NULL || !name_causes() || !make_message_types() || (module = PyModule_Create(&definition)) == NULL)
        return NULL;
    if (!add(module, "Pool", pool_type) || !add(module, "MessageType", message_type_type) || !add(module, "Field", field_type) ||
        !add(module, "Message", message_type) || !add(module, "List", list_type) || !add(module, "Map", map_type) || !add(module, "Decoder", decoder_type) ||
        PyModule_AddIntConstant(module, "MAX_BYTES", MB_MAX_BYTES) < 0 || PyModule_AddIntConstant(module, "MAX_DEPTH", MB_MAX_DEPTH) < 0 ||
        PyModule_AddIntConstant(module, "INTERFACE", MB_INTERFACE) < 0) {
        Py_DECREF(module);
        return NULL;
    }
    return module;
}
