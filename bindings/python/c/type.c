/* Message types, and calls on the bytes of messages. */
#include "common.h"

#include <structmember.h>

PyObject *message_type_type;

/* ---- Calls on bytes: with a handle of their own, and without the global lock, where the bytes are long and can't change ---- */

/* A call on the bytes of a message. */
struct call {
    MessageType *type;
    struct input in;
    struct limits limits;
    struct report report;
    uint32_t answer;
    /* Of JSON: whether names that no field has are passed over, and the byte where what is refused begins. */
    bool ignores_unknown;
    size_t byte;
};

static bool begin(struct call *call, PyObject *self, PyObject *args, PyObject *kwargs)
{
    PyObject *data;

    call->type = (MessageType *)self;
    return take_data(args, kwargs, &data, &call->limits) && take_input(data, &call->in);
}

/* Calls with the pool's handle, or with another one of the same pool. */
#define CALL(call, function, ...) CALL_WITH(call, handle, function, __VA_ARGS__)
#define CALL_WITH(call, pool, function, ...) \
    ((call)->answer = function(pool, (call)->type->number, (call)->in.at, (call)->in.len, (call)->limits.max_bytes, (call)->limits.max_depth, \
                               __VA_ARGS__, &(call)->report.fault, (call)->report.path, MB_MAX_STEPS))
#define RUN(call, is_long, made) \
    do { \
        struct mb_pool own = {0}, *handle = &(call)->type->pool->handle; \
        if (!(is_long)) { \
            made; \
        } else if (share((call)->type->pool, &own)) { \
            handle = &own; \
            Py_BEGIN_ALLOW_THREADS \
            made; \
            mb_pool_free(&own); \
            Py_END_ALLOW_THREADS \
        } else { \
            (call)->answer = MB_MEMORY; \
        } \
    } while (0)

static bool is_long(const struct call *call)
{
    return call->in.is_fixed && call->in.len >= LONG_INPUT;
}

static PyObject *end(struct call *call, PyObject *answer)
{
    drop_input(&call->in);
    if (call->answer != MB_DONE && !PyErr_Occurred())
        refuse_message(call->answer, &call->report, (PyObject *)call->type);
    if (PyErr_Occurred())
        Py_CLEAR(answer);
    return answer;
}

PyDoc_STRVAR(check_doc,
"check($self, data, /, *, max_bytes=2147483647, max_depth=100)\n--\n\n"
"Checks that the bytes are a message of this type, and builds no message. Raises Refused if they are not."
"\nmax_bytes and max_depth are the most bytes and levels that a message may have.");

static PyObject *type_check(PyObject *self, PyObject *args, PyObject *kwargs)
{
    struct call call;

    if (!begin(&call, self, args, kwargs))
        return NULL;
    RUN(&call, is_long(&call),
        call.answer = mb_check(handle, call.type->number, call.in.at, call.in.len, call.limits.max_bytes, call.limits.max_depth, &call.report.fault,
                               call.report.path, MB_MAX_STEPS));
    Py_INCREF(Py_None);
    return end(&call, Py_None);
}

/* A call that writes, as mb_canon does. */
typedef uint32_t writer(struct mb_pool *, uint32_t, const uint8_t *, size_t, uint32_t, uint8_t, uint8_t *, size_t, size_t *, struct mb_fault *,
                        struct mb_step *, size_t);

/* Makes a call: of JSON, or of the bytes of a message, by one that writes. */
static void write_once(struct call *call, writer *write, uint8_t *out, size_t out_len, size_t *size)
{
    if (write != NULL)
        RUN(call, is_long(call), CALL(call, write, out, out_len, size));
    else
        RUN(call, is_long(call),
            call->answer = mb_from_json(handle, call->type->number, call->in.at, call->in.len, call->ignores_unknown, out, out_len, size, &call->byte));
}

/* What a call writes: to the stack where it should be little, else to memory of the length that it should have, and once more where it is longer. */
static PyObject *write_all(struct call *call, writer *write, size_t expected, PyObject *(*made)(const uint8_t *, size_t))
{
    uint8_t small[SMALL_OUTPUT], *out = small;
    size_t out_len = sizeof small, size = expected <= sizeof small ? 0 : expected;
    PyObject *answer = NULL;

    for (;;) {
        if (size > out_len) {
            uint8_t *more = PyMem_Realloc(out == small ? NULL : out, size);
            if (more == NULL) {
                call->answer = MB_MEMORY;
                break;
            }
            out = more;
            out_len = size;
        }
        write_once(call, write, out, out_len, &size);
        if (call->answer != MB_DONE || size <= out_len)
            break;
    }
    if (call->answer == MB_DONE)
        answer = made(out, size);
    if (out != small)
        PyMem_Free(out);
    return answer;
}

static PyObject *written(PyObject *self, PyObject *args, PyObject *kwargs, writer *write, size_t times, PyObject *(*made)(const uint8_t *, size_t))
{
    struct call call;

    if (!begin(&call, self, args, kwargs))
        return NULL;
    return end(&call, write_all(&call, write, times * (call.in.len + call.in.len / 4), made));
}

PyDoc_STRVAR(canonical_doc,
"canonical($self, data, /, *, max_bytes=2147483647, max_depth=100)\n--\n\n"
"Returns the canonical bytes of the message that the bytes encode. Raises Refused as check does.");

static PyObject *type_canonical(PyObject *self, PyObject *args, PyObject *kwargs)
{
    return written(self, args, kwargs, mb_canon, 1, as_bytes);
}

PyDoc_STRVAR(listing_doc,
"listing($self, data, /, *, decimal=False, max_bytes=2147483647, max_depth=100)\n--\n\n"
"Returns the listing of the message that the bytes encode, as `pbtool show` prints it. With decimal=True floats have the fewest decimal digits that"
"\nread back as the same bits. Raises Refused as check does.");

/* Takes a flag out of the keywords. Returns 1, 0, or -1 with an exception; the other keywords are in a new dict, or NULL. */
static int take_flag(PyObject *kwargs, const char *name, PyObject **rest)
{
    if (kwargs == NULL)
        return 0;
    *rest = PyDict_Copy(kwargs);
    if (*rest == NULL)
        return -1;
    PyObject *flag = PyDict_GetItemString(*rest, name);
    int is_set = flag == NULL ? 0 : PyObject_IsTrue(flag);
    return flag != NULL && is_set >= 0 && PyDict_DelItemString(*rest, name) < 0 ? -1 : is_set;
}

static PyObject *type_listing(PyObject *self, PyObject *args, PyObject *kwargs)
{
    PyObject *rest = NULL, *answer = NULL;
    int is_decimal = take_flag(kwargs, "decimal", &rest);

    if (is_decimal >= 0)
        answer = written(self, args, rest, is_decimal ? mb_show_decimal : mb_show, 4, as_str);
    Py_XDECREF(rest);
    return answer;
}

PyDoc_STRVAR(decode_doc,
"decode($self, data, /, *, max_bytes=2147483647, max_depth=100)\n--\n\n"
"Returns the message that the bytes encode. Raises Refused as check does.");

static PyObject *type_decode(PyObject *self, PyObject *args, PyObject *kwargs)
{
    struct call call;

    if (!begin(&call, self, args, kwargs))
        return NULL;
    Node *message = new_message(call.type);
    if (message == NULL) {
        drop_input(&call.in);
        return NULL;
    }
    message->hint = call.in.len;
    RUN(&call, is_long(&call), CALL(&call, mb_message_decode, &message->handle));
    if (call.answer == MB_DONE)
        keep_given(message, &call.in);
    return end(&call, (PyObject *)message);
}

PyDoc_STRVAR(from_json_doc,
"from_json($self, text, *, ignore_unknown=False, lenient=False)\n--\n\n"
"Returns the message of a JSON text (ProtoJSON), a str or bytes in UTF-8. Raises Refused if the text is no message. ignore_unknown=True skips members that no"
"\nfield has, and strings that an enum does not declare. lenient is an older name of this flag.");

/* Reads the arguments (text, *, ignore_unknown) of a method; lenient is an older name of the flag. A str is taken as its bytes in UTF-8. */
static bool begin_json(struct call *call, PyObject *self, PyObject *args, PyObject *kwargs, const char *format)
{
    static char *names[] = {"text", "ignore_unknown", "lenient", NULL};
    PyObject *text;
    int ignores_unknown = 0, is_lenient = 0;

    if (!PyArg_ParseTupleAndKeywords(args, kwargs, format, names, &text, &ignores_unknown, &is_lenient))
        return false;
    call->type = (MessageType *)self;
    call->ignores_unknown = ignores_unknown || is_lenient;
    if (!PyUnicode_Check(text))
        return take_input(text, &call->in);
    PyObject *bytes = PyUnicode_AsUTF8String(text);
    bool is_taken = bytes != NULL && take_input(bytes, &call->in);
    Py_XDECREF(bytes);
    return is_taken;
}

static PyObject *end_json(struct call *call, PyObject *answer)
{
    if (call->answer >= MB_JSON_UNEXPECTED_BYTE && call->answer <= MB_JSON_BAD_VALUE) {
        refuse_text(call->answer, call->byte);
        add_hint("hint_of_json", call->in.held);
    }
    return end(call, answer);
}

static PyObject *type_from_json(PyObject *self, PyObject *args, PyObject *kwargs)
{
    struct call call;

    if (!begin_json(&call, self, args, kwargs, "O|$pp:from_json"))
        return NULL;
    Node *message = new_message(call.type);
    if (message == NULL) {
        drop_input(&call.in);
        return NULL;
    }
    message->hint = call.in.len;
    RUN(&call, is_long(&call),
        call.answer = mb_message_from_json(handle, call.type->number, call.in.at, call.in.len, call.ignores_unknown, &message->handle, &call.byte));
    return end_json(&call, (PyObject *)message);
}

PyDoc_STRVAR(canonical_from_json_doc,
"canonical_from_json($self, text, *, ignore_unknown=False, lenient=False)\n--\n\n"
"Returns the canonical bytes of the message that from_json returns.");

static PyObject *type_canonical_from_json(PyObject *self, PyObject *args, PyObject *kwargs)
{
    struct call call;

    if (!begin_json(&call, self, args, kwargs, "O|$pp:canonical_from_json"))
        return NULL;
    return end_json(&call, write_all(&call, NULL, call.in.len, as_bytes));
}

PyDoc_STRVAR(new_doc, "new($self, /)\n--\n\nReturns an empty message. Order() is the same.");

static PyObject *type_empty(PyObject *self, PyObject *Py_UNUSED(ignored))
{
    Node *message = new_message((MessageType *)self);

    if (message == NULL)
        return NULL;
    uint32_t answer = mb_message_new(&((MessageType *)self)->pool->handle, ((MessageType *)self)->number, &message->handle);
    if (answer != MB_DONE) {
        Py_DECREF(message);
        return refuse(answer, NULL);
    }
    return (PyObject *)message;
}

PyDoc_STRVAR(from_dict_doc,
"from_dict($self, fields, /)\n--\n\n"
"Returns a message with these fields, by name, as to_dict gives them. Messages and maps are dicts, lists are lists. You may also give a message as a"
"\nmessage, and an enum value by its name. Order(number=1) is the same as Order.from_dict({\"number\": 1}).");

static PyObject *type_from_dict(PyObject *self, PyObject *fields)
{
    PyObject *function = PyObject_GetAttrString(change_functions, "from_dict");
    PyObject *answer = function == NULL ? NULL : PyObject_CallFunctionObjArgs(function, self, fields, NULL);

    Py_XDECREF(function);
    return answer;
}

static PyObject *type_call(PyObject *self, PyObject *args, PyObject *kwargs)
{
    if (PyTuple_Size(args) != 0) {
        PyErr_SetString(PyExc_TypeError, "a message is made of fields by their names, as in Order(number=1)");
        return NULL;
    }
    return kwargs == NULL || PyDict_Size(kwargs) == 0 ? type_empty(self, NULL) : type_from_dict(self, kwargs);
}

PyDoc_STRVAR(frame_doc,
"_frame($self, data, at, max_bytes, max_depth, /)\n--\n\nThe frame that begins at an index of the bytes: where its message begins and ends, counted from there, and whether"
"\nit is whole; the numbers are 0 where its length can't be read. A frame that is refused has its size in the exception.");

/* A size, up to the greatest that Python has. */
static Py_ssize_t signed_size(size_t size)
{
    return size > PY_SSIZE_T_MAX ? PY_SSIZE_T_MAX : (Py_ssize_t)size;
}

static PyObject *type_frame(PyObject *self, PyObject *args)
{
    PyObject *data;
    Py_ssize_t at, max_bytes, max_depth;
    struct mb_frame frame = {0, 0};
    struct call call;

    if (!PyArg_ParseTuple(args, "Onnn", &data, &at, &max_bytes, &max_depth) || !set_limits(max_bytes, max_depth, &call.limits) ||
        !take_input(data, &call.in))
        return NULL;
    call.type = (MessageType *)self;
    if (at < 0 || (size_t)at > call.in.len)
        at = (Py_ssize_t)call.in.len;
    call.in.at = at == 0 ? call.in.at : call.in.at + at;
    call.in.len -= (size_t)at;
    /* Most frames are short, whatever comes after them. */
    RUN(&call, call.in.is_fixed && call.in.len >= 16 * LONG_INPUT, CALL(&call, mb_frames, &frame));
    bool is_whole = call.answer == MB_DONE, is_refused = call.answer == MB_FAULT;
    if (call.answer == MB_PART)
        call.answer = MB_DONE;
    PyObject *answer = end(&call, call.answer == MB_DONE ? Py_BuildValue("nnO", (Py_ssize_t)frame.begin, signed_size(frame.end), is_whole ? Py_True : Py_False) : NULL);
    if (is_refused && frame.end != 0) {
        PyObject *size = PyLong_FromSsize_t(signed_size(frame.end));
        add_attribute("size", size);
        Py_XDECREF(size);
    }
    return answer;
}

PyDoc_STRVAR(frames_doc,
"frames($self, source, /, *, skip=None, max_bytes=2147483647, max_depth=100)\n--\n\n"
"Reads a stream, in which each message comes after its length. The source is a binary file or bytes. The iterator gives a Frame for each message:"
"\nat is where the frame begins, size is the number of its bytes, and data has the bytes of the message. If a message is refused, the iterator calls skip"
"\nwith the exception and goes on. Without skip it raises Refused, and the next call of next() goes on after the frame.");

static PyObject *type_frames(PyObject *self, PyObject *args, PyObject *kwargs)
{
    PyObject *all = PyTuple_New(PyTuple_Size(args) + 1), *answer;

    if (all == NULL)
        return NULL;
    Py_INCREF(self);
    PyTuple_SetItem(all, 0, self);
    for (Py_ssize_t i = 0; i < PyTuple_Size(args); i++) {
        PyObject *it = PyTuple_GetItem(args, i);
        Py_INCREF(it);
        PyTuple_SetItem(all, i + 1, it);
    }
    answer = PyObject_Call(frames_class, all, kwargs);
    Py_DECREF(all);
    return answer;
}

/* ---- One value, read from bytes ---- */

/* What was found, as Python's. */
static PyObject *found_value(const struct mb_value *value, const uint8_t *at)
{
    double number;
    float half;
    uint32_t bits;

    switch (value->kind) {
    case MB_DOUBLE:
        memcpy(&number, &value->number, sizeof number);
        return PyFloat_FromDouble(number);
    case MB_FLOAT:
        bits = (uint32_t)value->number;
        memcpy(&half, &bits, sizeof half);
        return PyFloat_FromDouble(half);
    case MB_BOOL:
        return PyBool_FromLong(value->number != 0);
    case MB_STRING:
        return as_str(at, (size_t)value->number);
    case MB_BYTES:
        return as_bytes(at, (size_t)value->number);
    case MB_UINT32: case MB_UINT64:
        return as_unsigned(value->number);
    default:
        return as_signed(value->number);
    }
}

/* Reads the numbers of fields after the first argument, for _find. Returns whether it could. */
static bool find_numbers(MessageType *Py_UNUSED(type), PyObject *args, Py_ssize_t count, uint32_t *numbers, struct mb_field *Py_UNUSED(last))
{
    for (Py_ssize_t i = 0; i < count; i++) {
        unsigned long number = PyLong_AsUnsignedLong(PyTuple_GetItem(args, i + 1));
        if (PyErr_Occurred())
            return false;
        numbers[i] = number <= UINT32_MAX ? (uint32_t)number : 0;
    }
    return true;
}

/* Goes one name on: the field's declaration and number, and the type of its message where another name follows. Returns whether it could. */
static bool find_step(MessageType **type, PyObject *name, bool is_last, uint32_t *number, struct mb_field *is)
{
    Field *field = field_of(*type, name);
    MessageType *inner = NULL;

    if (field == NULL)
        return false;
    *number = field->is.number;
    *is = field->is;
    if (field->is.shape == SHAPE_LIST || field->is.shape == SHAPE_MAP)
        PyErr_Format(PyExc_TypeError, "%U of %U is a %s: find goes through messages to one scalar", field->name, (*type)->name,
                     field->is.shape == SHAPE_LIST ? "list" : "map");
    else if (is_message_kind(field->is.kind) == is_last)
        PyErr_Format(PyExc_TypeError, is_last ? "%U of %U is a message: find reads one scalar" : "%U of %U is no message", field->name, (*type)->name);
    else if (!is_last)
        inner = type_by_number(field->pool, (uint32_t)field->is.type_of, NULL);
    Py_DECREF(*type);
    *type = inner;
    return !PyErr_Occurred();
}

/* Reads the fields that are named after the first argument: the last one's declaration, and the number of each. Returns whether it could. */
static bool find_path(MessageType *type, PyObject *args, Py_ssize_t count, uint32_t *numbers, struct mb_field *last)
{
    Py_INCREF(type);
    for (Py_ssize_t i = 0; i < count; i++)
        if (!find_step(&type, PyTuple_GetItem(args, i + 1), i + 1 == count, &numbers[i], last)) {
            Py_XDECREF(type);
            return false;
        }
    return true;
}

/* Whether the message that holds the last field of a path is there, of bytes that are a message: 1, 0, or -1 with an exception. */
static int is_parent_there(struct call *call, const uint32_t *numbers, size_t count)
{
    struct mb_value place[MB_MAX_DEPTH + 1], value;
    struct mb_message message = {NULL, false};

    if (count == 1)
        return 1;
    for (size_t i = 0; i + 1 < count; i++)
        place[i] = (struct mb_value){MB_FIELD, numbers[i]};
    CALL_WITH(call, &call->type->pool->handle, mb_message_decode, &message);
    if (call->answer == MB_DONE)
        call->answer = mb_message_get(&message, place, count - 1, NULL, 0, &value);
    mb_message_free(&message);
    if (call->answer != MB_DONE && call->answer != MB_ABSENT)
        return -1;
    return call->answer == MB_DONE;
}

/* What a field is that is not found: of implicit presence its default where its message is there, else None. */
static PyObject *absent_value(struct call *call, const uint32_t *numbers, size_t count, const struct mb_field *last)
{
    int is_there = last->shape == SHAPE_IMPLICIT ? is_parent_there(call, numbers, count) : 0;

    if (is_there < 0)
        return NULL;
    call->answer = MB_DONE;
    if (is_there)
        return default_of(last);
    Py_RETURN_NONE;
}

/* What was found, with its kind, as the library reports it. */
static PyObject *found_reported(const struct mb_value *value, const uint8_t *at)
{
    if (value->kind == MB_STRING || value->kind == MB_BYTES)
        return Py_BuildValue("IN", value->kind, as_bytes(at, (size_t)value->number));
    return Py_BuildValue("IK", value->kind, (unsigned long long)value->number);
}

/* Reads the limits, which are keywords. */
static bool find_limits(PyObject *kwargs, struct limits *limits)
{
    static char *names[] = {"max_bytes", "max_depth", NULL};
    Py_ssize_t max_bytes = MB_MAX_BYTES, max_depth = MB_MAX_DEPTH;
    PyObject *none = PyTuple_New(0);
    bool is_read = none != NULL && PyArg_ParseTupleAndKeywords(none, kwargs, "|$nn", names, &max_bytes, &max_depth);

    Py_XDECREF(none);
    return is_read && set_limits(max_bytes, max_depth, limits);
}

/* Reads the path after the first argument. Returns whether it could. */
typedef bool path_reader(MessageType *, PyObject *, Py_ssize_t, uint32_t *, struct mb_field *);

static PyObject *find(PyObject *self, PyObject *args, PyObject *kwargs, path_reader *read, PyObject *(*made)(const struct mb_value *, const uint8_t *))
{
    Py_ssize_t count = PyTuple_Size(args) - 1;
    uint32_t numbers[MB_MAX_DEPTH + 1];
    struct mb_field last = {0, 0, SHAPE_OPTIONAL, 0, 0};
    struct mb_value value = {0, 0};
    struct call call;
    uint8_t small[256], *out = small;
    size_t out_len = sizeof small;
    PyObject *answer = NULL;

    if (!find_limits(kwargs, &call.limits))
        return NULL;
    if (count < 1 || count > MB_MAX_DEPTH + 1) {
        PyErr_SetString(PyExc_TypeError, "find takes the bytes and the names of fields, from the outermost on");
        return NULL;
    }
    call.type = (MessageType *)self;
    if (!read(call.type, args, count, numbers, &last) || !take_input(PyTuple_GetItem(args, 0), &call.in))
        return NULL;
    for (;;) {
        RUN(&call, is_long(&call), CALL(&call, mb_find, numbers, (size_t)count, &value, out, out_len));
        if (call.answer != MB_DONE || (value.kind != MB_STRING && value.kind != MB_BYTES) || value.number <= out_len)
            break;
        out_len = (size_t)value.number;
        out = PyMem_Malloc(out_len);
        if (out == NULL) {
            out = small;
            call.answer = MB_MEMORY;
            break;
        }
    }
    if (call.answer == MB_DONE)
        answer = made(&value, out);
    if (out != small)
        PyMem_Free(out);
    if (call.answer == MB_ABSENT)
        answer = absent_value(&call, numbers, (size_t)count, &last);
    return end(&call, answer);
}

PyDoc_STRVAR(find_doc,
"find($self, data, /, *fields, max_bytes=2147483647, max_depth=100)\n--\n\n"
"Returns one scalar of the message that the bytes encode: find(data, \"number\"), find(data, \"invoice\", \"address\"). It checks all bytes, but builds no"
"\nmessage. Each field is a name, a number or a Field. If the last field is not set, the result is None. If its shape is implicit and its message is set, the"
"\nresult is its default value. If a field on the way is a list or map, or the last field is a message, find raises TypeError.");

static PyObject *type_find(PyObject *self, PyObject *args, PyObject *kwargs)
{
    return find(self, args, kwargs, find_path, found_value);
}

PyDoc_STRVAR(find_reported_doc, "_find($self, data, /, *numbers)\n--\n\nAs find, with the kind and the number of the value, or its bytes.");

static PyObject *type_find_reported(PyObject *self, PyObject *args, PyObject *kwargs)
{
    return find(self, args, kwargs, find_numbers, found_reported);
}

static PyObject *type_repr(PyObject *self)
{
    return PyUnicode_FromFormat("<mabristu.MessageType %U>", ((MessageType *)self)->name);
}

static int type_traverse(PyObject *self, visitproc visit, void *arg)
{
    Py_VISIT(Py_TYPE(self));
    Py_VISIT(((MessageType *)self)->pool);
    Py_VISIT(((MessageType *)self)->fields);
    return 0;
}

static int type_clear(PyObject *self)
{
    for (size_t i = 0; i < RECENT; i++)
        Py_CLEAR(((MessageType *)self)->recent[i].name);
    PyMem_Free(((MessageType *)self)->by_number);
    ((MessageType *)self)->by_number = NULL;
    ((MessageType *)self)->count = 0;
    Py_CLEAR(((MessageType *)self)->fields);
    Py_CLEAR(((MessageType *)self)->pool);
    return 0;
}

static void type_dealloc(PyObject *self)
{
    PyTypeObject *type = Py_TYPE(self);

    PyObject_GC_UnTrack(self);
    type_clear(self);
    Py_CLEAR(((MessageType *)self)->name);
    PyObject_GC_Del(self);
    Py_DECREF(type);
}

#define KEYWORDS(function) ((PyCFunction)(void (*)(void))(function))

PyObject *make_message_type_type(void)
{
    static PyMemberDef members[] = {
        {"name", T_OBJECT, offsetof(MessageType, name), READONLY, "The full name."},
        {"pool", T_OBJECT, offsetof(MessageType, pool), READONLY, "The pool of the type."},
        {NULL, 0, 0, 0, NULL},
    };
    static PyGetSetDef getset[] = {
        {"fields", type_get_fields, NULL, "Its fields, in the order of their declarations.", NULL},
        {NULL, NULL, NULL, NULL, NULL},
    };
    static PyMethodDef methods[] = {
        {"check", KEYWORDS(type_check), METH_VARARGS | METH_KEYWORDS, check_doc},
        {"canonical", KEYWORDS(type_canonical), METH_VARARGS | METH_KEYWORDS, canonical_doc},
        {"listing", KEYWORDS(type_listing), METH_VARARGS | METH_KEYWORDS, listing_doc},
        {"decode", KEYWORDS(type_decode), METH_VARARGS | METH_KEYWORDS, decode_doc},
        {"from_json", KEYWORDS(type_from_json), METH_VARARGS | METH_KEYWORDS, from_json_doc},
        {"canonical_from_json", KEYWORDS(type_canonical_from_json), METH_VARARGS | METH_KEYWORDS, canonical_from_json_doc},
        {"decoder", KEYWORDS(type_decoder), METH_VARARGS | METH_KEYWORDS, decoder_doc},
        {"find", KEYWORDS(type_find), METH_VARARGS | METH_KEYWORDS, find_doc},
        {"_find", KEYWORDS(type_find_reported), METH_VARARGS | METH_KEYWORDS, find_reported_doc},
        {"new", type_empty, METH_NOARGS, new_doc},
        {"from_dict", type_from_dict, METH_O, from_dict_doc},
        {"field", type_field, METH_O, field_doc},
        {"place", type_place, METH_O, place_doc},
        {"compat", type_compat, METH_O, compat_doc},
        {"witness", type_witness, METH_VARARGS, witness_doc},
        {"frames", KEYWORDS(type_frames), METH_VARARGS | METH_KEYWORDS, frames_doc},
        {"_frame", type_frame, METH_VARARGS, frame_doc},
        {NULL, NULL, 0, NULL},
    };
    static PyType_Slot slots[] = {
        {Py_tp_doc, "A message type of a pool, as pool[\"shop.Order\"]."},
        {Py_tp_traverse, type_traverse},
        {Py_tp_clear, type_clear},
        {Py_tp_new, no_new},
        {Py_tp_dealloc, type_dealloc},
        {Py_tp_call, type_call},
        {Py_tp_repr, type_repr},
        {Py_tp_members, members},
        {Py_tp_getset, getset},
        {Py_tp_methods, methods},
        {0, NULL},
    };
    static PyType_Spec spec = {"mabristu.MessageType", sizeof(MessageType), 0, Py_TPFLAGS_DEFAULT | Py_TPFLAGS_HAVE_GC, slots};
    return PyType_FromSpec(&spec);
}
