/* Fields of message types. */
#include "common.h"

#include <stdlib.h>
#include <structmember.h>

PyObject *field_type;

static const char *const kinds[] = {NULL, "double", "float", "int64", "uint64", "int32", "fixed64", "fixed32", "bool", "string", "group",
                                    "message", "bytes", "uint32", "enum", "sfixed32", "sfixed64", "sint32", "sint64"};
static const char *const shapes[] = {"implicit", "optional", "oneof", "list", "map"};
enum { KINDS = sizeof kinds / sizeof *kinds, SHAPES = sizeof shapes / sizeof *shapes };

/* A field of a type, which keeps it under its name. The reference is borrowed. */
static Field *keep_field(MessageType *type, PyObject *name, const struct mb_field *is)
{
    Field *field = PyObject_GC_New(Field, (PyTypeObject *)field_type);

    if (field == NULL)
        return NULL;
    field->of = type->number;
    field->is = *is;
    field->has_detail = false;
    field->detail = 0;
    field->index = 0;
    field->inner = NULL;
    field->names = NULL;
    Py_INCREF(type->pool);
    field->pool = type->pool;
    Py_INCREF(name);
    field->name = name;
    PyObject_GC_Track((PyObject *)field);
    int failed = PyDict_SetItem(type->fields, name, (PyObject *)field);
    Py_DECREF(field);
    return failed < 0 ? NULL : field;
}

/* Asks the library for the field of a name, which is exactly str, and keeps it. */
static Field *ask_field(MessageType *type, PyObject *name)
{
    struct mb_field is;
    char *at = NULL;
    Py_ssize_t len = 0;
    PyObject *text = PyUnicode_AsUTF8String(name);

    if (text == NULL || PyBytes_AsStringAndSize(text, &at, &len) < 0) {
        Py_XDECREF(text);
        return NULL;
    }
    uint32_t answer = mb_pool_field(&type->pool->handle, type->number, (const uint8_t *)at, (size_t)len, &is);
    Py_DECREF(text);
    if (answer == MB_DONE)
        return keep_field(type, name, &is);
    return (Field *)(answer == MB_ABSENT ? refuse_name("field", (PyObject *)type, name) : refuse(answer, NULL));
}

/* The field of a name that is exactly str. */
static Field *field_named(MessageType *type, PyObject *name)
{
    Field *found = (Field *)PyDict_GetItemWithError(type->fields, name);

    return found != NULL || PyErr_Occurred() ? found : ask_field(type, name);
}

/* The same, where the object may be one that was asked for lately: a name that a program spells is one object. */
static inline Field *recent_field(MessageType *type, PyObject *name)
{
    size_t at = ((uintptr_t)name >> 4) % RECENT;

    if (type->recent[at].name == name)
        return type->recent[at].field;
    Field *found = field_named(type, name);
    if (found != NULL) {
        PyObject *before = type->recent[at].name;
        Py_INCREF(name);
        type->recent[at].name = name;
        type->recent[at].field = found;
        Py_XDECREF(before);
    }
    return found;
}

Field *field_by_name(MessageType *type, PyObject *name)
{
    if (Py_TYPE(name) == &PyUnicode_Type)
        return recent_field(type, name);
    if (!PyUnicode_Check(name)) {
        PyErr_Format(PyExc_TypeError, "a field of %U is named by a str, a number or a Field", type->name);
        return NULL;
    }
    PyObject *exact = PyUnicode_FromObject(name);
    Field *found = exact == NULL ? NULL : field_named(type, exact);
    Py_XDECREF(exact);
    return found;
}

/* The field at an index of a type. The reference is borrowed. */
static Field *field_at(MessageType *type, size_t index)
{
    struct mb_field is;
    uint32_t detail = 0;
    PyObject *name = read_field_at(type->pool, type->number, index, &is, &detail);

    if (name == NULL)
        return NULL;
    Field *field = (Field *)PyDict_GetItemWithError(type->fields, name);
    if (field == NULL && !PyErr_Occurred())
        field = keep_field(type, name, &is);
    Py_DECREF(name);
    if (field != NULL) {
        field->has_detail = true;
        field->detail = detail;
    }
    return field;
}

static int by_rising_number(const void *one, const void *two)
{
    uint32_t left = (*(Field *const *)one)->is.number, right = (*(Field *const *)two)->is.number;

    return (left > right) - (left < right);
}

static bool list_fields(MessageType *type)
{
    struct mb_type is;
    PyObject *name = read_message(type->pool, type->number, &is);

    if (name == NULL)
        return false;
    Py_DECREF(name);
    Field **all = PyMem_Malloc((is.fields + 1) * sizeof *all);
    if (all == NULL)
        PyErr_NoMemory();
    for (size_t i = 0; all != NULL && i < is.fields; i++) {
        all[i] = field_at(type, i);
        if (all[i] == NULL) {
            PyMem_Free(all);
            return false;
        }
        type->has_enums |= all[i]->is.kind == MB_ENUM && all[i]->is.shape != SHAPE_MAP;
    }
    if (all == NULL)
        return false;
    qsort(all, is.fields, sizeof *all, by_rising_number);
    for (size_t i = 0; i < is.fields; i++)
        all[i]->index = i;
    PyMem_Free(type->by_number);
    type->by_number = all;
    type->count = is.fields;
    return true;
}

bool load_fields(MessageType *type)
{
    return type->by_number != NULL || list_fields(type);
}

bool has_closed_enums(MessageType *type)
{
    return type->pool->has_proto2 && load_fields(type) && type->has_enums;
}

Field *find_field(MessageType *type, uint32_t number)
{
    if (!load_fields(type))
        return NULL;
    for (size_t low = 0, high = type->count; low < high;) {
        size_t middle = low + (high - low) / 2;
        Field *field = type->by_number[middle];
        if (field->is.number == number)
            return field;
        if (field->is.number < number)
            low = middle + 1;
        else
            high = middle;
    }
    return NULL;
}

Field *field_by_number(MessageType *type, uint32_t number)
{
    Field *found = find_field(type, number);

    if (found == NULL && !PyErr_Occurred()) {
        PyObject *key = PyLong_FromUnsignedLong(number);
        if (key != NULL)
            refuse_name("field", (PyObject *)type, key);
        Py_XDECREF(key);
    }
    return found;
}

/* The field that an object of its type is, where it is one of the message type. */
static Field *own_field(MessageType *type, Field *field)
{
    if (field->pool == type->pool && field->of == type->number)
        return field;
    MessageType *other = type_by_number(field->pool, field->of, NULL);
    PyObject *line = other == NULL ? NULL : PyUnicode_FromFormat("field %U.%U is of another type than %U%s", other->name, field->name, type->name,
                                                                 field->pool == type->pool ? "" : ", of another pool");
    if (line != NULL)
        PyErr_SetObject(PyExc_KeyError, line);
    Py_XDECREF(line);
    Py_XDECREF(other);
    return NULL;
}

Field *field_of(MessageType *type, PyObject *name)
{
    if (Py_TYPE(name) == &PyUnicode_Type)
        return recent_field(type, name);
    if (Py_TYPE(name) == (PyTypeObject *)field_type)
        return own_field(type, (Field *)name);
    if (!PyLong_Check(name) || PyBool_Check(name))
        return field_by_name(type, name);
    unsigned long long number = PyLong_AsUnsignedLongLong(name);
    if (PyErr_Occurred()) {
        if (!PyErr_ExceptionMatches(PyExc_OverflowError))
            return NULL;
        PyErr_Clear();
        number = 0;
    }
    return field_by_number(type, number <= UINT32_MAX ? (uint32_t)number : 0);
}

const char field_doc[] = "field($self, name, /)\n--\n\nReturns the Field with a simple name, as \"number\". Raises KeyError if the type has no such field.";

PyObject *type_field(PyObject *self, PyObject *name)
{
    Field *field = field_by_name((MessageType *)self, name);

    Py_XINCREF(field);
    return (PyObject *)field;
}

PyObject *type_get_fields(PyObject *self, void *Py_UNUSED(which))
{
    MessageType *type = (MessageType *)self;
    struct mb_type is;
    PyObject *name = read_message(type->pool, type->number, &is), *all;

    if (name == NULL)
        return NULL;
    Py_DECREF(name);
    all = PyTuple_New((Py_ssize_t)is.fields);
    for (size_t i = 0; all != NULL && i < is.fields; i++) {
        Field *field = field_at(type, i);
        Py_XINCREF(field);
        if (field == NULL)
            Py_CLEAR(all);
        else
            PyTuple_SetItem(all, (Py_ssize_t)i, (PyObject *)field);
    }
    return all;
}

static PyObject *field_get_owner(PyObject *self, void *Py_UNUSED(which))
{
    return (PyObject *)type_by_number(((Field *)self)->pool, ((Field *)self)->of, NULL);
}

static PyObject *field_get_full_name(PyObject *self, void *Py_UNUSED(which))
{
    return full_name((Field *)self);
}

static PyObject *field_get_kind(PyObject *self, void *Py_UNUSED(which))
{
    uint32_t kind = ((Field *)self)->is.kind;
    return PyUnicode_FromString(kind < KINDS && kinds[kind] ? kinds[kind] : "?");
}

static PyObject *field_get_shape(PyObject *self, void *Py_UNUSED(which))
{
    uint32_t shape = ((Field *)self)->is.shape;
    return PyUnicode_FromString(shape < SHAPES ? shapes[shape] : "?");
}

static PyObject *field_get_key(PyObject *self, void *Py_UNUSED(which))
{
    uint32_t key = ((Field *)self)->is.key;
    if (key == 0 || key >= KINDS)
        Py_RETURN_NONE;
    return PyUnicode_FromString(kinds[key]);
}

MessageType *type_inside(Field *field)
{
    if (field->inner == NULL)
        field->inner = type_by_number(field->pool, (uint32_t)field->is.type_of, NULL);
    return field->inner;
}

static PyObject *field_get_type(PyObject *self, void *Py_UNUSED(which))
{
    Field *field = (Field *)self;
    if (!is_message_kind(field->is.kind))
        Py_RETURN_NONE;
    PyObject *type = (PyObject *)type_inside(field);
    Py_XINCREF(type);
    return type;
}

static PyObject *field_get_enum(PyObject *self, void *Py_UNUSED(which))
{
    Field *field = (Field *)self;

    if (field->is.kind != MB_ENUM)
        Py_RETURN_NONE;
    if (field->names == NULL)
        field->names = PyObject_CallFunction(enum_class, "On", field->pool, (Py_ssize_t)field->is.type_of);
    Py_XINCREF(field->names);
    return field->names;
}

/* All fields of the type are listed for it: the library reports it by the index of a field. */
bool read_detail(Field *field)
{
    MessageType *type = type_by_number(field->pool, field->of, NULL);
    bool is_read = type != NULL && load_fields(type);

    Py_XDECREF(type);
    return is_read && field->has_detail;
}

PyObject *full_name(const Field *field)
{
    MessageType *type = type_by_number(field->pool, field->of, NULL);
    PyObject *name = type == NULL ? NULL : PyUnicode_FromFormat("%U.%U", type->name, field->name);

    Py_XDECREF(type);
    return name;
}

static PyObject *field_get_oneof(PyObject *self, void *Py_UNUSED(which))
{
    Field *field = (Field *)self;

    if (field->is.shape != SHAPE_ONEOF)
        Py_RETURN_NONE;
    if (!field->has_detail && !read_detail(field))
        return NULL;
    return read_oneof(field->pool, field->of, field->detail);
}

static PyObject *field_get_packed(PyObject *self, void *Py_UNUSED(which))
{
    Field *field = (Field *)self;

    if (field->is.shape != SHAPE_LIST)
        Py_RETURN_FALSE;
    if (!field->has_detail && !read_detail(field))
        return NULL;
    return PyBool_FromLong(field->detail == 1);
}

static PyObject *field_get_numbers(PyObject *self, void *Py_UNUSED(which))
{
    const struct mb_field *is = &((Field *)self)->is;
    return Py_BuildValue("IIIIn", is->number, is->kind, is->shape, is->key, (Py_ssize_t)is->type_of);
}

static PyObject *field_repr(PyObject *self)
{
    PyObject *kind = field_get_kind(self, NULL), *shape = field_get_shape(self, NULL), *answer = NULL;
    if (kind != NULL && shape != NULL)
        answer = PyUnicode_FromFormat("<mabristu.Field %U: %U, %U, %u>", ((Field *)self)->name, kind, shape, (unsigned)((Field *)self)->is.number);
    Py_XDECREF(kind);
    Py_XDECREF(shape);
    return answer;
}

static int field_traverse(PyObject *self, visitproc visit, void *arg)
{
    Py_VISIT(Py_TYPE(self));
    Py_VISIT(((Field *)self)->pool);
    Py_VISIT(((Field *)self)->names);
    Py_VISIT((PyObject *)((Field *)self)->inner);
    return 0;
}

static int field_clear(PyObject *self)
{
    Py_CLEAR(((Field *)self)->names);
    Py_CLEAR(((Field *)self)->inner);
    Py_CLEAR(((Field *)self)->pool);
    return 0;
}

static void field_dealloc(PyObject *self)
{
    PyTypeObject *type = Py_TYPE(self);

    PyObject_GC_UnTrack(self);
    field_clear(self);
    Py_CLEAR(((Field *)self)->name);
    PyObject_GC_Del(self);
    Py_DECREF(type);
}

PyObject *make_field_type(void)
{
    static PyMemberDef members[] = {
        {"name", T_OBJECT, offsetof(Field, name), READONLY, "The simple name."},
        {"number", T_UINT, offsetof(Field, is.number), READONLY, "The field number."},
        {NULL, 0, 0, 0, NULL},
    };
    static PyGetSetDef getset[] = {
        {"owner", field_get_owner, NULL, "The message type that has the field.", NULL},
        {"full_name", field_get_full_name, NULL, "The full name, as shop.Order.number.", NULL},
        {"kind", field_get_kind, NULL, "The kind of its values, as a source writes it: int32, string, message, enum ..", NULL},
        {"shape", field_get_shape, NULL, "implicit, optional, oneof, list or map. An implicit field that has its default value is not set.", NULL},
        {"key", field_get_key, NULL, "For a map the kind of its keys, else None.", NULL},
        {"type", field_get_type, NULL, "The message type of its values, or None.", NULL},
        {"enum", field_get_enum, NULL,
         "The Enum of its values, or None. An Enum is a str, its full name. Its names is a dict from number to name, and its numbers from name to number.", NULL},
        {"oneof", field_get_oneof, NULL, "The name of its oneof, or None.", NULL},
        {"packed", field_get_packed, NULL, "Whether the list is written packed.", NULL},
        {"numbers", field_get_numbers, NULL, "number, kind, shape, key and type_of of struct mb_field.", NULL},
        {NULL, NULL, NULL, NULL, NULL},
    };
    static PyType_Slot slots[] = {
        {Py_tp_doc, "A field of a message type."},
        {Py_tp_traverse, field_traverse},
        {Py_tp_clear, field_clear},
        {Py_tp_new, no_new},
        {Py_tp_dealloc, field_dealloc},
        {Py_tp_repr, field_repr},
        {Py_tp_members, members},
        {Py_tp_getset, getset},
        {0, NULL},
    };
    static PyType_Spec spec = {"mabristu.Field", sizeof(Field), 0, Py_TPFLAGS_DEFAULT | Py_TPFLAGS_HAVE_GC, slots};
    return PyType_FromSpec(&spec);
}

PyObject *default_of(const struct mb_field *field)
{
    if (field->shape != SHAPE_IMPLICIT)
        Py_RETURN_NONE;
    switch (field->kind) {
    case MB_DOUBLE: case MB_FLOAT:
        return PyFloat_FromDouble(0.0);
    case MB_BOOL:
        Py_RETURN_FALSE;
    case MB_STRING:
        return PyUnicode_FromString("");
    case MB_BYTES:
        return PyBytes_FromString("");
    case MB_MESSAGE: case KIND_GROUP:
        Py_RETURN_NONE;
    default:
        return PyLong_FromLong(0);
    }
}
