/* What a pool declares, part by part: mabristu/_schema.py makes lists of it. */
#include "common.h"

/* A name that a call writes: to the stack where it is short. */
struct name {
    uint8_t small[256], *at;
    size_t capacity, len;
};

static void begin(struct name *name)
{
    name->at = name->small;
    name->capacity = sizeof name->small;
    name->len = 0;
}

static void drop(struct name *name)
{
    if (name->at != name->small)
        PyMem_Free(name->at);
}

/* Whether the buffer was too small for the whole name: then it is made large enough, and the call is to be made again. */
static bool is_cut(struct name *name, uint32_t *answer)
{
    size_t len = name->len;

    if (*answer != MB_DONE || len <= name->capacity)
        return false;
    drop(name);
    begin(name);
    uint8_t *more = PyMem_Malloc(len);
    if (more == NULL) {
        *answer = MB_MEMORY;
        return false;
    }
    name->at = more;
    name->capacity = len;
    return true;
}

/* Sets the exception where a pool has no such part. */
static PyObject *refuse_part(uint32_t answer)
{
    if (answer != MB_NO_TYPE && answer != MB_ABSENT)
        return refuse(answer, NULL);
    PyErr_SetString(PyExc_IndexError, "the pool has no such part");
    return NULL;
}

/* The name that was written, or NULL with an exception. */
static PyObject *end(struct name *name, uint32_t answer)
{
    PyObject *text = answer == MB_DONE ? as_str(name->at, name->len) : refuse_part(answer);

    drop(name);
    return text;
}

PyObject *read_message(Pool *pool, uint32_t number, struct mb_type *is)
{
    struct name name;
    uint32_t answer;

    begin(&name);
    do
        answer = mb_pool_message(&pool->handle, number, is, name.at, name.capacity, &name.len);
    while (is_cut(&name, &answer));
    return end(&name, answer);
}

PyObject *read_field_at(Pool *pool, uint32_t number, size_t index, struct mb_field *is, uint32_t *detail)
{
    struct name name;
    uint32_t answer;

    begin(&name);
    do
        answer = mb_pool_field_at(&pool->handle, number, index, is, detail, name.at, name.capacity, &name.len);
    while (is_cut(&name, &answer));
    return end(&name, answer);
}

PyObject *read_oneof(Pool *pool, uint32_t number, size_t index)
{
    struct name name;
    uint32_t answer;

    begin(&name);
    do
        answer = mb_pool_oneof(&pool->handle, number, index, name.at, name.capacity, &name.len);
    while (is_cut(&name, &answer));
    return end(&name, answer);
}

PyObject *read_enum(Pool *pool, size_t entry, struct mb_enum *is)
{
    struct name name;
    uint32_t answer;

    begin(&name);
    do
        answer = mb_pool_enum(&pool->handle, entry, is, name.at, name.capacity, &name.len);
    while (is_cut(&name, &answer));
    return end(&name, answer);
}

/* ---- For _schema.py ---- */

PyObject *pool_counts(PyObject *self, PyObject *Py_UNUSED(ignored))
{
    struct mb_counts counts;
    uint32_t answer = mb_pool_counts(&((Pool *)self)->handle, &counts);

    if (answer != MB_DONE)
        return refuse(answer, NULL);
    return Py_BuildValue("nnn", (Py_ssize_t)counts.files, (Py_ssize_t)counts.messages, (Py_ssize_t)counts.enums);
}

bool pool_has_proto2(struct mb_pool *pool)
{
    struct mb_file file = {0, 0, 0, 0};
    uint32_t answer = MB_DONE;

    for (size_t i = 0; answer == MB_DONE; i++) {
        answer = mb_pool_file(pool, i, &file, NULL, 0);
        if (answer == MB_DONE && file.proto2)
            return true;
    }
    return answer != MB_ABSENT;
}

PyObject *pool_file(PyObject *self, PyObject *args)
{
    Py_ssize_t index;
    struct mb_file file = {0, 0, 0, 0};
    struct name name;
    uint32_t answer;
    PyObject *found;

    if (!PyArg_ParseTuple(args, "n", &index))
        return NULL;
    begin(&name);
    do {
        answer = mb_pool_file(&((Pool *)self)->handle, (size_t)index, &file, name.at, name.capacity);
        name.len = file.name_len + file.package_len;
    } while (is_cut(&name, &answer));
    if (answer == MB_DONE)
        found = Py_BuildValue("NNnO", as_str(name.at, file.name_len), as_str(name.at + file.name_len, file.package_len), (Py_ssize_t)file.imports,
                              file.proto2 ? Py_True : Py_False);
    else
        found = refuse_part(answer);
    drop(&name);
    return found;
}

/* Where a message type or enum is declared: the number of the message type, or None. */
static PyObject *parent_of(uint32_t nested, size_t parent)
{
    if (!nested)
        Py_RETURN_NONE;
    return PyLong_FromSize_t(parent);
}

PyObject *pool_message(PyObject *self, PyObject *args)
{
    unsigned int number;
    struct mb_type is;

    if (!PyArg_ParseTuple(args, "I", &number))
        return NULL;
    PyObject *name = read_message((Pool *)self, number, &is);
    return name == NULL ? NULL : Py_BuildValue("NnN", name, (Py_ssize_t)is.file, parent_of(is.nested, is.parent));
}

PyObject *pool_type_at(PyObject *self, PyObject *args)
{
    unsigned int number;

    return PyArg_ParseTuple(args, "I", &number) ? (PyObject *)type_by_number((Pool *)self, number, NULL) : NULL;
}

PyObject *pool_enum(PyObject *self, PyObject *args)
{
    Py_ssize_t entry;
    struct mb_enum is;

    if (!PyArg_ParseTuple(args, "n", &entry))
        return NULL;
    PyObject *name = read_enum((Pool *)self, (size_t)entry, &is);
    return name == NULL ? NULL : Py_BuildValue("NnNn", name, (Py_ssize_t)is.file, parent_of(is.nested, is.parent), (Py_ssize_t)is.values);
}

PyObject *pool_enum_value(PyObject *self, PyObject *args)
{
    Py_ssize_t entry, index;
    int32_t number = 0;
    struct name name;
    uint32_t answer;

    if (!PyArg_ParseTuple(args, "nn", &entry, &index))
        return NULL;
    begin(&name);
    do
        answer = mb_pool_enum_value(&((Pool *)self)->handle, (size_t)entry, (size_t)index, &number, name.at, name.capacity, &name.len);
    while (is_cut(&name, &answer));
    PyObject *text = end(&name, answer);
    return text == NULL ? NULL : Py_BuildValue("Ni", text, (int)number);
}
