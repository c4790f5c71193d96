/* From what a call answers to an exception. */
#include "common.h"

/* Where the causes of changes, of sets and sources, of sets alone, and of linking begin and end among the answers. */
enum { FIRST_OF_CHANGES = 21, LAST_OF_CHANGES = 30, FIRST_OF_SETS = 52, LAST_OF_SETS = 60 };

PyObject *make_fault, *make_link, *frames_class, *schema_class, *difference_class, *enum_class, *refused_functions;

bool is_cause_of_change(uint32_t answer)
{
    return answer >= FIRST_OF_CHANGES && answer <= LAST_OF_CHANGES;
}

/* Raises what a function of _refused.py makes. */
static PyObject *raise_made(PyObject *made)
{
    if (made != NULL) {
        PyErr_SetObject((PyObject *)Py_TYPE(made), made);
        Py_DECREF(made);
    }
    return NULL;
}

static PyObject *path_of(const struct report *report)
{
    size_t steps = report->fault.steps < MB_MAX_STEPS ? report->fault.steps : MB_MAX_STEPS;
    PyObject *path = PyTuple_New((Py_ssize_t)steps);

    for (size_t i = 0; path != NULL && i < steps; i++) {
        PyObject *step = Py_BuildValue("(II)", report->path[i].number, report->path[i].before);
        if (step == NULL)
            Py_CLEAR(path);
        else
            PyTuple_SetItem(path, (Py_ssize_t)i, step);
    }
    return path;
}

/* A fault of bytes, with words before it. */
static PyObject *refuse_fault(const struct report *report, const char *before)
{
    PyObject *path = path_of(report);

    if (path == NULL)
        return NULL;
    return raise_made(PyObject_CallFunction(make_fault, "KNIs", (unsigned long long)report->fault.byte, path, report->fault.cause, before));
}

PyObject *refuse_path(const char *what, uint32_t answer, PyObject *path)
{
    return raise_made(PyObject_CallFunction(make_link, "sIN", what, answer, path));
}

PyObject *refuse_text(uint32_t answer, size_t byte)
{
    return raise_made(PyObject_CallFunction(make_link, "sIn", "json text", answer, (Py_ssize_t)byte));
}

PyObject *refuse(uint32_t answer, const struct report *report)
{
    switch (answer) {
    case MB_FAULT:
        return refuse_fault(report, "");
    case MB_MEMORY:
        return PyErr_NoMemory();
    case MB_TOO_LARGE:
        return raise_made(PyObject_CallFunction(make_link, "sI", "output", answer));
    case MB_FINISHED:
        PyErr_SetString(PyExc_ValueError, "the decoder is finished");
        return NULL;
    case MB_BAD_NAME:
        PyErr_SetString(PyExc_ValueError, "the name of a source is not UTF-8");
        return NULL;
    default:
        if (is_cause_of_change(answer))
            return raise_made(PyObject_CallFunction(make_link, "sI", "change", answer));
        PyErr_Format(PyExc_SystemError, "mabristu answers %u", (unsigned)answer);
        return NULL;
    }
}

PyObject *refuse_link(uint32_t answer, const struct report *report, const struct mb_refusal *refusal, const uint8_t *text, PyObject *names)
{
    if (answer == MB_FAULT)
        return refuse_fault(report, "set ");
    if (answer < FIRST_CAUSE)
        return refuse(answer, report);
    if (answer >= FIRST_OF_LINKING)
        return raise_made(PyObject_CallFunction(make_link, "sIy#y#", "link", answer, (const char *)text, (Py_ssize_t)refusal->file_len,
                                                (const char *)text + refusal->file_len, (Py_ssize_t)refusal->name_len));
    if (answer >= FIRST_OF_SETS && answer <= LAST_OF_SETS)
        return raise_made(PyObject_CallFunction(make_link, "sIn", "set", answer, (Py_ssize_t)refusal->file));
    PyObject *name = names == NULL ? NULL : PyList_GetItem(names, (Py_ssize_t)refusal->file);
    return raise_made(name == NULL ? NULL : PyObject_CallFunction(make_link, "sIOK", "source", answer, name, (unsigned long long)refusal->byte));
}

/* ---- What is said beside ---- */

static PyObject *call_refused(const char *name, PyObject *one, PyObject *two, PyObject *three)
{
    PyObject *function = PyObject_GetAttrString(refused_functions, name);
    PyObject *answer = function == NULL ? NULL : PyObject_CallFunctionObjArgs(function, one, two, three, NULL);

    Py_XDECREF(function);
    return answer;
}

void add_hint(const char *function, PyObject *given)
{
    PyObject *kind, *refused, *trace;

    PyErr_Fetch(&kind, &refused, &trace);
    PyErr_NormalizeException(&kind, &refused, &trace);
    Py_XDECREF(call_refused(function, refused, given, NULL));
    /* Without a hint the exception is still the one that it was. */
    PyErr_Clear();
    PyErr_Restore(kind, refused, trace);
}

void add_attribute(const char *name, PyObject *value)
{
    PyObject *kind, *refused, *trace;

    PyErr_Fetch(&kind, &refused, &trace);
    PyErr_NormalizeException(&kind, &refused, &trace);
    if (value == NULL || PyObject_SetAttrString(refused, name, value) < 0)
        PyErr_Clear();
    PyErr_Restore(kind, refused, trace);
}

PyObject *refuse_message(uint32_t answer, const struct report *report, PyObject *type)
{
    refuse(answer, report);
    if (answer == MB_FAULT)
        add_attribute("type", type);
    return NULL;
}

PyObject *refuse_name(const char *what, PyObject *owner, PyObject *name)
{
    PyObject *kind = PyUnicode_FromString(what);

    raise_made(kind == NULL ? NULL : call_refused("unknown", kind, owner, name));
    Py_XDECREF(kind);
    return NULL;
}
