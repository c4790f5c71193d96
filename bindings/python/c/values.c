/* What Python gives as a value of a field or as a key of a map, as the library takes it, and the exceptions that say what a field takes. */
#include "node.h"

/* ---- What a field takes ---- */

static const char *wanted_of(uint32_t kind)
{
    switch (kind) {
    case MB_DOUBLE: case MB_FLOAT:
        return "a float or an int";
    case MB_BOOL:
        return "True or False";
    case MB_STRING:
        return "a str";
    case MB_BYTES:
        return "bytes";
    case MB_UINT32: case KIND_FIXED32:
        return "an int from 0 to 4294967295";
    case MB_UINT64: case KIND_FIXED64:
        return "an int from 0 to 18446744073709551615";
    case MB_INT64: case KIND_SINT64: case KIND_SFIXED64:
        return "an int from -9223372036854775808 to 9223372036854775807";
    case MB_ENUM:
        return "the name of a value or an int from -2147483648 to 2147483647";
    case MB_MESSAGE: case KIND_GROUP:
        return "a message of its type or a dict";
    default:
        return "an int from -2147483648 to 2147483647";
    }
}

/* Sets an exception: of what a field, or a key of it, takes, and of what it was given. */
static bool say_wanted(PyObject *exception, Field *field, bool is_key, PyObject *given)
{
    PyObject *name = full_name(field);

    if (name != NULL && given != NULL)
        PyErr_Format(exception, "%s%U takes %s, and not %S", is_key ? "a key of " : "", name, wanted_of(is_key ? field->is.key : field->is.kind), given);
    else if (name != NULL)
        PyErr_Format(exception, "%s%U takes %s: the value is out of range", is_key ? "a key of " : "", name,
                     wanted_of(is_key ? field->is.key : field->is.kind));
    Py_XDECREF(name);
    return false;
}

bool wrong_type(Field *field, bool is_key, PyObject *object)
{
    PyObject *type = PyObject_GetAttrString((PyObject *)Py_TYPE(object), "__name__");

    if (type != NULL)
        say_wanted(PyExc_TypeError, field, is_key, type);
    Py_XDECREF(type);
    return false;
}

bool out_of_range(Field *field, bool is_key, PyObject *object)
{
    (void)object;
    PyErr_Clear();
    return say_wanted(PyExc_ValueError, field, is_key, NULL);
}

/* ---- Values ---- */

static bool has_64_bits(uint32_t kind)
{
    return kind == MB_INT64 || kind == MB_UINT64 || kind == KIND_FIXED64 || kind == KIND_SFIXED64 || kind == KIND_SINT64;
}

static bool give_signed(PyObject *object, struct given *given)
{
    int overflow = 0;
    long long number = PyLong_AsLongLongAndOverflow(object, &overflow);

    given->value.number = (uint64_t)number;
    if (number == -1 && (overflow != 0 || PyErr_Occurred()))
        return false;
    return (number >= INT32_MIN && number <= INT32_MAX) || has_64_bits(given->value.kind);
}

static bool give_unsigned(PyObject *object, struct given *given)
{
    given->value.number = PyLong_AsUnsignedLongLong(object);
    if (given->value.number == UINT64_MAX && PyErr_Occurred())
        return false;
    return given->value.number <= UINT32_MAX || has_64_bits(given->value.kind);
}

static bool give_real(uint32_t kind, PyObject *object, struct given *given)
{
    double number = PyFloat_AsDouble(object);
    float half = (float)number;
    uint32_t bits;

    if (kind == MB_DOUBLE) {
        memcpy(&given->value.number, &number, sizeof number);
    } else {
        memcpy(&bits, &half, sizeof bits);
        given->value.number = bits;
    }
    return !PyErr_Occurred();
}

/* The number of the value of an enum that a name names. */
static bool give_named(Field *field, PyObject *name, struct given *given)
{
    PyObject *of = PyObject_GetAttrString((PyObject *)field, "enum");
    PyObject *numbers = of == NULL ? NULL : PyObject_GetAttrString(of, "numbers");
    PyObject *number = numbers == NULL ? NULL : PyObject_GetItem(numbers, name);
    bool is_given = number != NULL && PyLong_Check(number) && give_signed(number, given);

    if (numbers != NULL && number == NULL && PyErr_ExceptionMatches(PyExc_KeyError)) {
        PyErr_Clear();
        refuse_name("value", (PyObject *)field, name);
    }
    Py_XDECREF(number);
    Py_XDECREF(numbers);
    Py_XDECREF(of);
    return is_given;
}

/* What an object is as a value of a kind: 1, 0 where it is of another type, or -1 where it is out of range, or with an exception. */
static int give_kind(uint32_t kind, PyObject *object, struct given *given)
{
    bool is_integer = Py_TYPE(object) == &PyLong_Type || (PyLong_Check(object) && !PyBool_Check(object));

    *given = (struct given){{kind, 0}, NULL};
    switch (kind) {
    case MB_DOUBLE: case MB_FLOAT:
        return !is_integer && !PyFloat_Check(object) ? 0 : give_real(kind, object, given) ? 1 : -1;
    case MB_BOOL:
        given->value.number = object == Py_True;
        return PyBool_Check(object);
    case MB_STRING:
        given->held = PyUnicode_Check(object) ? PyUnicode_AsUTF8String(object) : NULL;
        return given->held != NULL ? 1 : PyErr_Occurred() ? -1 : 0;
    case MB_BYTES:
        if (!PyBytes_Check(object) && !PyByteArray_Check(object) && !PyMemoryView_Check(object))
            return 0;
        given->held = PyBytes_FromObject(object);
        return given->held != NULL ? 1 : -1;
    case MB_MESSAGE: case KIND_GROUP:
        return 0;
    case MB_UINT32: case MB_UINT64: case KIND_FIXED64: case KIND_FIXED32:
        return !is_integer ? 0 : give_unsigned(object, given) ? 1 : -1;
    default:
        return !is_integer ? 0 : give_signed(object, given) ? 1 : -1;
    }
}

/* Sets the exception where an object was not given. An int that is too large for C is out of range. */
static bool is_given(int answer, Field *field, bool is_key, PyObject *object)
{
    if (answer > 0)
        return true;
    if (answer == 0)
        return wrong_type(field, is_key, object);
    if (PyErr_Occurred() && !PyErr_ExceptionMatches(PyExc_OverflowError))
        return false;
    return out_of_range(field, is_key, object);
}

bool give(Field *field, PyObject *object, struct given *given)
{
    if (field->is.kind == MB_ENUM && PyUnicode_Check(object)) {
        *given = (struct given){{MB_ENUM, 0}, NULL};
        return give_named(field, object, given);
    }
    return is_given(give_kind(field->is.kind, object, given), field, false, object);
}

bool give_key(Field *field, PyObject *object, struct given *given)
{
    return is_given(give_kind(field->is.key, object, given), field, true, object);
}
