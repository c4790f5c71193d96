/* Pools of types. */
#include "common.h"

#include <structmember.h>

PyObject *pool_type;

bool share(Pool *pool, struct mb_pool *other)
{
    uint32_t answer = mb_pool_share(&pool->handle, other);

    if (answer != MB_DONE)
        refuse(answer, NULL);
    return answer == MB_DONE;
}


/* What a call that links is given, and where it reports. */
struct linking {
    struct mb_pool handle;
    struct input set;
    bool is_lenient;
    const struct mb_bytes *names, *texts;
    size_t count, left_out;
    struct report report;
    struct mb_refusal refusal;
    uint8_t *text;
    size_t text_len;
};

static uint32_t link_set(struct linking *it)
{
    if (it->is_lenient)
        return mb_pool_link_lenient(it->set.at, it->set.len, &it->handle, &it->left_out, &it->report.fault, it->report.path, MB_MAX_STEPS,
                                    &it->refusal, it->text, it->text_len);
    return mb_pool_link(it->set.at, it->set.len, &it->handle, &it->report.fault, it->report.path, MB_MAX_STEPS, &it->refusal, it->text,
                        it->text_len);
}

static uint32_t link_sources(struct linking *it)
{
    if (it->is_lenient)
        return mb_pool_compile_lenient(it->names, it->count, it->texts, it->count, &it->handle, &it->refusal, it->text, it->text_len);
    return mb_pool_compile(it->names, it->count, it->texts, it->count, &it->handle, &it->refusal, it->text, it->text_len);
}

/* Links, without the global lock where nothing that is read can change. Where the names that are reported
 * are longer than the buffer for them, it is done again. Returns whether it was linked. */
static bool run_link(struct linking *it, uint32_t (*link)(struct linking *), bool is_fixed, PyObject *names)
{
    uint8_t small[256];
    uint32_t answer;
    bool is_again = false;

    it->text = small;
    it->text_len = sizeof small;
    for (;;) {
        it->refusal = (struct mb_refusal){0};
        if (is_fixed) {
            Py_BEGIN_ALLOW_THREADS
            answer = link(it);
            Py_END_ALLOW_THREADS
        } else {
            answer = link(it);
        }
        if (is_again || answer < FIRST_OF_LINKING || it->refusal.file_len + it->refusal.name_len <= it->text_len)
            break;
        it->text_len = it->refusal.file_len + it->refusal.name_len;
        it->text = PyMem_Malloc(it->text_len);
        if (it->text == NULL) {
            PyErr_NoMemory();
            return false;
        }
        is_again = true;
    }
    if (answer != MB_DONE)
        refuse_link(answer, &it->report, &it->refusal, it->text, names);
    if (it->text != small)
        PyMem_Free(it->text);
    return answer == MB_DONE;
}

/* The pool that was linked, of what it was made of: a set, or a list of pairs of names and sources. */
static PyObject *new_pool(PyTypeObject *type, struct linking *it, bool is_set, PyObject *given)
{
    allocfunc alloc = (allocfunc)PyType_GetSlot(type, Py_tp_alloc);
    Pool *pool = (Pool *)alloc(type, 0);

    if (pool == NULL) {
        mb_pool_free(&it->handle);
        return NULL;
    }
    pool->handle = it->handle;
    pool->left_out = (Py_ssize_t)it->left_out;
    pool->has_proto2 = pool_has_proto2(&pool->handle);
    pool->names = PyDict_New();
    pool->numbers = PyDict_New();
    pool->origin = Py_BuildValue("ONO", is_set ? Py_True : Py_False, is_set ? PyBytes_FromObject(given) : PyList_AsTuple(given),
                                 it->is_lenient ? Py_True : Py_False);
    if (pool->names == NULL || pool->numbers == NULL || pool->origin == NULL)
        Py_CLEAR(pool);
    return (PyObject *)pool;
}

static PyObject *pool_new(PyTypeObject *type, PyObject *args, PyObject *kwargs)
{
    static char *names[] = {"set_bytes", "lenient", NULL};
    PyObject *set;
    struct linking it;
    int is_lenient = 0;

    memset(&it, 0, sizeof it);
    if (!PyArg_ParseTupleAndKeywords(args, kwargs, "O|p", names, &set, &is_lenient) || !take_input(set, &it.set))
        return NULL;
    it.is_lenient = is_lenient != 0;
    PyObject *pool = NULL;
    if (run_link(&it, link_set, it.set.is_fixed, NULL))
        pool = new_pool(type, &it, true, set);
    else
        add_hint("hint_of_set", set);
    drop_input(&it.set);
    return pool;
}

/* The bytes of a string, or of bytes. */
static PyObject *to_bytes(PyObject *object, const char *what)
{
    if (PyUnicode_Check(object))
        return PyUnicode_AsUTF8String(object);
    if (PyBytes_Check(object)) {
        Py_INCREF(object);
        return object;
    }
    PyErr_Format(PyExc_TypeError, "%s is str or bytes", what);
    return NULL;
}

/* Lists the pairs of names and texts, which the lists of objects keep. Returns whether it could. */
static bool list_sources(PyObject *items, struct mb_bytes *listed, PyObject *held, PyObject *names)
{
    size_t count = (size_t)PyList_Size(items);

    for (size_t i = 0; i < 2 * count; i++) {
        PyObject *pair = PyList_GetItem(items, (Py_ssize_t)(i % count));
        if (pair == NULL || !PyTuple_Check(pair) || PyTuple_Size(pair) != 2) {
            PyErr_SetString(PyExc_TypeError, "the items of sources are pairs of a name and a source");
            return false;
        }
        PyObject *object = PyTuple_GetItem(pair, i < count ? 0 : 1);
        PyObject *bytes = object == NULL ? NULL : to_bytes(object, i < count ? "the name of a source" : "a source");
        char *at = NULL;
        Py_ssize_t len = 0;
        if (bytes == NULL)
            return false;
        int failed = PyList_Append(held, bytes) < 0 || PyBytes_AsStringAndSize(bytes, &at, &len) < 0 || (i < count && PyList_Append(names, object) < 0);
        Py_DECREF(bytes);
        if (failed)
            return false;
        listed[i] = (struct mb_bytes){(const uint8_t *)at, (size_t)len};
    }
    return true;
}

/* The items of a mapping, as a list of this call's own. */
static PyObject *items_of(PyObject *sources)
{
    if (PyObject_HasAttrString(sources, "items"))
        return PyMapping_Items(sources);
    PyErr_SetString(PyExc_TypeError, "sources are a mapping from their names to them");
    return NULL;
}

PyDoc_STRVAR(of_sources_doc,
"of_sources($type, sources, *, lenient=False)\n--\n\n"
"Makes a pool of proto3 sources: a mapping from names, as imports use them, to sources, each str or bytes. Imported files must be among the sources,"
"\nalso google/protobuf/timestamp.proto. lenient=True also takes proto2. It leaves out extensions, custom options and default values, and reads a map of a"
"\nclosed enum as the list of its entries. Raises Refused if a source is refused.");

static PyObject *pool_of_sources(PyObject *type, PyObject *args, PyObject *kwargs)
{
    static char *words[] = {"sources", "lenient", NULL};
    struct linking it;
    PyObject *sources;
    int is_lenient = 0;

    memset(&it, 0, sizeof it);
    if (!PyArg_ParseTupleAndKeywords(args, kwargs, "O|$p", words, &sources, &is_lenient))
        return NULL;
    it.is_lenient = is_lenient != 0;
    PyObject *held = PyList_New(0), *names = PyList_New(0), *items = items_of(sources);
    struct mb_bytes *listed = NULL;
    PyObject *pool = NULL;

    if (held != NULL && names != NULL && items != NULL) {
        it.count = (size_t)PyList_Size(items);
        listed = PyMem_Malloc((2 * it.count + 1) * sizeof *listed);
        if (listed == NULL)
            PyErr_NoMemory();
        else if (list_sources(items, listed, held, names)) {
            it.names = listed;
            it.texts = listed + it.count;
            if (run_link(&it, link_sources, true, names))
                pool = new_pool((PyTypeObject *)type, &it, false, items);
            else
                add_hint("hint_of_sources", items);
        }
    }
    PyMem_Free(listed);
    Py_XDECREF(items);
    Py_XDECREF(names);
    Py_XDECREF(held);
    return pool;
}

/* The type of a name: it is asked for once, then kept. None, without an exception, where the pool has no such type. */
static PyObject *find_type(Pool *pool, PyObject *name)
{
    PyObject *found, *text;
    char *at = NULL;
    Py_ssize_t len = 0;
    uint32_t number = 0, answer;

    if (!PyUnicode_Check(name)) {
        PyErr_SetString(PyExc_TypeError, "the name of a type is str, as in pool[\"shop.Order\"]");
        return NULL;
    }
    found = PyDict_GetItemWithError(pool->names, name);
    if (found != NULL || PyErr_Occurred()) {
        Py_XINCREF(found);
        return found;
    }
    text = PyUnicode_AsUTF8String(name);
    if (text == NULL || PyBytes_AsStringAndSize(text, &at, &len) < 0) {
        Py_XDECREF(text);
        return NULL;
    }
    answer = mb_pool_type(&pool->handle, (const uint8_t *)at, (size_t)len, &number);
    Py_DECREF(text);
    if (answer == MB_NO_TYPE)
        return NULL;
    if (answer != MB_DONE)
        return refuse(answer, NULL);
    found = (PyObject *)type_by_number(pool, number, name);
    if (found != NULL && PyDict_SetItem(pool->names, name, found) < 0)
        Py_CLEAR(found);
    return found;
}

static PyObject *pool_get(PyObject *self, PyObject *name)
{
    PyObject *found = find_type((Pool *)self, name);

    return found != NULL || PyErr_Occurred() ? found : refuse_name("type", self, name);
}

static int pool_contains(PyObject *self, PyObject *name)
{
    PyObject *found = find_type((Pool *)self, name);

    if (found == NULL)
        return PyErr_Occurred() ? -1 : 0;
    Py_DECREF(found);
    return 1;
}

MessageType *type_by_number(Pool *pool, uint32_t number, PyObject *name)
{
    PyObject *key = PyLong_FromUnsignedLong(number), *found;
    struct mb_type is;

    if (key == NULL)
        return NULL;
    found = PyDict_GetItemWithError(pool->numbers, key);
    Py_XINCREF(found);
    if (found == NULL && !PyErr_Occurred()) {
        MessageType *made = PyObject_GC_New(MessageType, (PyTypeObject *)message_type_type);
        if (made != NULL) {
            Py_INCREF(pool);
            made->pool = pool;
            made->number = number;
            Py_XINCREF(name);
            made->name = name == NULL ? read_message(pool, number, &is) : name;
            made->fields = PyDict_New();
            made->by_number = NULL;
            made->count = 0;
            made->has_enums = false;
            memset(made->recent, 0, sizeof made->recent);
            PyObject_GC_Track((PyObject *)made);
            if (made->name == NULL || made->fields == NULL || PyDict_SetItem(pool->numbers, key, (PyObject *)made) < 0)
                Py_CLEAR(made);
        }
        found = (PyObject *)made;
    }
    Py_DECREF(key);
    return (MessageType *)found;
}

PyDoc_STRVAR(schema_doc,
"schema($self, /)\n--\n\nReturns all that the pool declares, in the order of its set, as three lists of named tuples: files, types and enums.");

static PyObject *pool_schema(PyObject *self, PyObject *Py_UNUSED(ignored))
{
    return PyObject_CallFunctionObjArgs(schema_class, self, NULL);
}

PyDoc_STRVAR(to_set_doc,
"to_set($self, /)\n--\n\nReturns a descriptor set of the types, without services and options. Pool(pool.to_set()) has the same types.");

static PyObject *pool_to_set(PyObject *self, PyObject *Py_UNUSED(ignored))
{
    struct mb_pool *handle = &((Pool *)self)->handle;
    uint8_t small[SMALL_OUTPUT], *out = small;
    size_t size = 0;
    uint32_t answer = mb_pool_set(handle, out, sizeof small, &size);

    if (answer == MB_DONE && size > sizeof small) {
        out = PyMem_Malloc(size);
        answer = out == NULL ? MB_MEMORY : mb_pool_set(handle, out, size, &size);
    }
    PyObject *set = answer == MB_DONE ? as_bytes(out, size) : refuse(answer, NULL);
    if (out != small)
        PyMem_Free(out);
    return set;
}

static int pool_traverse(PyObject *self, visitproc visit, void *arg)
{
    Py_VISIT(Py_TYPE(self));
    Py_VISIT(((Pool *)self)->names);
    Py_VISIT(((Pool *)self)->numbers);
    Py_VISIT(((Pool *)self)->origin);
    return 0;
}

static int pool_clear(PyObject *self)
{
    Py_CLEAR(((Pool *)self)->names);
    Py_CLEAR(((Pool *)self)->numbers);
    Py_CLEAR(((Pool *)self)->origin);
    return 0;
}

static void pool_dealloc(PyObject *self)
{
    PyTypeObject *type = Py_TYPE(self);

    PyObject_GC_UnTrack(self);
    if (((Pool *)self)->weak != NULL)
        PyObject_ClearWeakRefs(self);
    pool_clear(self);
    mb_pool_free(&((Pool *)self)->handle);
    PyObject_GC_Del(self);
    Py_DECREF(type);
}

PyObject *make_pool_type(void)
{
    static PyMemberDef members[] = {
        {"_origin", T_OBJECT, offsetof(Pool, origin), READONLY, "What it was made of: whether of a set, this or the pairs of sources, whether leniently."},
        {"__weaklistoffset__", T_PYSSIZET, offsetof(Pool, weak), READONLY, NULL},
        {"left_out", T_PYSSIZET, offsetof(Pool, left_out), READONLY, "The number of parts of the set that lenient=True left out."},
        {NULL, 0, 0, 0, NULL},
    };
    static PyMethodDef methods[] = {
        {"of_sources", (PyCFunction)(void (*)(void))pool_of_sources, METH_VARARGS | METH_KEYWORDS | METH_CLASS, of_sources_doc},
        {"schema", pool_schema, METH_NOARGS, schema_doc},
        {"to_set", pool_to_set, METH_NOARGS, to_set_doc},
        {"_counts", pool_counts, METH_NOARGS, "_counts($self, /)\n--\n\nHow many files, message types and enums there are."},
        {"_file", pool_file, METH_VARARGS, "_file($self, index, /)\n--\n\nname, package, how many imports, whether it is of proto2."},
        {"_message", pool_message, METH_VARARGS, "_message($self, number, /)\n--\n\nname, index of the file, number of the parent or None."},
        {"_type_at", pool_type_at, METH_VARARGS, "_type_at($self, number, /)\n--\n\nThe message type of a number."},
        {"_enum", pool_enum, METH_VARARGS, "_enum($self, number, /)\n--\n\nname, index of the file, number of the parent or None, how many values."},
        {"_enum_value", pool_enum_value, METH_VARARGS, "_enum_value($self, number, index, /)\n--\n\nname, number."},
        {NULL, NULL, 0, NULL},
    };
    static PyType_Slot slots[] = {
        {Py_tp_doc, "Pool(set_bytes, lenient=False)\n--\n\nThe message types of a descriptor set, as `protoc --include_imports --descriptor_set_out` or\n"
                    "`pbtool compile` writes it. lenient=True leaves out the parts of proto2 that are otherwise refused: extensions, default values, required\n"
                    "labels, and the marks of maps of closed enums. pool[\"shop.Order\"] is a message type. Threads may share a pool."},
        {Py_tp_new, pool_new},
        {Py_tp_traverse, pool_traverse},
        {Py_tp_clear, pool_clear},
        {Py_tp_dealloc, pool_dealloc},
        {Py_mp_subscript, pool_get},
        {Py_sq_contains, pool_contains},
        {Py_tp_members, members},
        {Py_tp_methods, methods},
        {0, NULL},
    };
    static PyType_Spec spec = {"mabristu.Pool", sizeof(Pool), 0, Py_TPFLAGS_DEFAULT | Py_TPFLAGS_HAVE_GC, slots};
    return PyType_FromSpec(&spec);
}
