/* Frames, copies, comparisons and merging of whole messages; which member of a oneof is set, and unknown records. */
#include "node.h"

/* Compares two messages of which one is a part, by their canonical bytes. */
static uint32_t compare_parts(Node *one, Node *two, uint32_t *is_equal)
{
    struct span left, right;
    PyObject *held, *other;

    if (!span_of(one, &left, &held))
        return MB_BAD_PLACE;
    if (!span_of(two, &right, &other)) {
        Py_DECREF(held);
        return MB_BAD_PLACE;
    }
    size_t size = (size_t)(left.end - left.at);
    *is_equal = size == (size_t)(right.end - right.at) && memcmp(left.at, right.at, size) == 0;
    Py_DECREF(held);
    Py_DECREF(other);
    return MB_DONE;
}

/* Two messages are equal where they are of one type of one pool, and have the same contents; each may be a part of another message. */
PyObject *message_compare(PyObject *self, PyObject *other, int how)
{
    Node *one = (Node *)self, *two = (Node *)other;
    uint32_t answer = MB_DONE, is_equal = 1;

    if ((how != Py_EQ && how != Py_NE) || Py_TYPE(other) != Py_TYPE(self))
        Py_RETURN_NOTIMPLEMENTED;
    if (handle_of(one) == NULL || handle_of(two) == NULL)
        return NULL;
    if (one->type != two->type)
        return PyBool_FromLong(how == Py_NE);
    /* The library compares two handles, and never one with itself. */
    if (one->root != NULL || two->root != NULL)
        answer = compare_parts(one, two, &is_equal);
    else if (one != two)
        answer = mb_message_equal(&one->handle, &two->handle, &is_equal);
    if (answer != MB_DONE)
        return PyErr_Occurred() ? NULL : refuse(answer, NULL);
    return PyBool_FromLong((is_equal == 1) == (how == Py_EQ));
}

const char frame_doc[] =
"frame($self, /)\n--\n\n"
"Returns the message as a frame of a stream: the number of its canonical bytes as a varint, and then these bytes. type.frames reads such a stream.";

static PyObject *frame_of(struct mb_message *handle)
{
    uint8_t small[SMALL_OUTPUT];
    size_t size = 0;
    uint32_t answer = mb_message_frame(handle, small, sizeof small, &size);

    if (answer != MB_DONE)
        return refuse(answer, NULL);
    PyObject *bytes = PyBytes_FromStringAndSize(size <= sizeof small ? (const char *)small : NULL, (Py_ssize_t)size);
    if (bytes == NULL || size <= sizeof small)
        return bytes;
    answer = mb_message_frame(handle, (uint8_t *)PyBytes_AsString(bytes), size, &size);
    if (answer == MB_DONE)
        return bytes;
    Py_DECREF(bytes);
    return refuse(answer, NULL);
}

PyObject *message_frame(PyObject *self, PyObject *Py_UNUSED(ignored))
{
    Node *node = whole_of(self);
    PyObject *bytes = node == NULL ? NULL : frame_of(&node->handle);

    Py_XDECREF(node);
    return bytes;
}

const char copy_doc[] =
"copy($self, /)\n--\n\n"
"Returns an independent copy. The copy of a part is a whole message. copy.copy(message) and copy.deepcopy(message) are the same.";

PyObject *message_copy(PyObject *self, PyObject *Py_UNUSED(ignored))
{
    Node *node = (Node *)self;

    if (node->root != NULL)
        return (PyObject *)whole_of(self);
    Node *copy = new_message(node->type);
    if (copy == NULL)
        return NULL;
    copy->hint = node->hint;
    uint32_t answer = mb_message_copy(&node->handle, &copy->handle);
    if (answer != MB_DONE) {
        Py_DECREF(copy);
        return refuse(answer, NULL);
    }
    return (PyObject *)copy;
}

PyObject *message_deep_copy(PyObject *self, PyObject *Py_UNUSED(memo))
{
    return message_copy(self, NULL);
}

const char merge_doc[] =
"merge($self, data, /, *, max_bytes=2147483647, max_depth=100)\n--\n\n"
"Merges bytes, or another message of the type, into this message, as if the bytes came after its own canonical bytes. If the bytes are refused, the"
"\nmessage stays as it was.";

/* The bytes of a message of the same type, or the data itself. */
static PyObject *merged(Node *node, PyObject *data)
{
    if (Py_TYPE(data) != Py_TYPE(node)) {
        Py_INCREF(data);
        return data;
    }
    if (((Node *)data)->type == node->type)
        return PyObject_CallMethod(data, "encode", NULL);
    PyErr_SetString(PyExc_TypeError, "a message of another type can't be merged");
    return NULL;
}

/* Merges bytes, and finds the parts that are gone then. */
static PyObject *merge(Node *node, const struct input *in, const struct limits *limits)
{
    struct report report;

    if (!before_merge(node))
        return NULL;
    uint32_t answer = mb_message_merge(&node->handle, in->at, in->len, limits->max_bytes, limits->max_depth, &report.fault, report.path, MB_MAX_STEPS);
    if (answer != MB_DONE)
        return refuse_message(answer, &report, (PyObject *)node->type);
    node->hint += in->len;
    has_changed(node);
    if (!after_merge(node))
        return NULL;
    Py_RETURN_NONE;
}

PyObject *message_merge(PyObject *self, PyObject *args, PyObject *kwargs)
{
    PyObject *data, *bytes;
    struct limits limits;
    struct input in;

    if (((Node *)self)->root != NULL) {
        PyErr_SetString(PyExc_TypeError, "this is a part of a message: only a whole message is merged with");
        return NULL;
    }
    if (!take_data(args, kwargs, &data, &limits) || (bytes = merged((Node *)self, data)) == NULL)
        return NULL;
    bool is_taken = take_input(bytes, &in);
    Py_DECREF(bytes);
    if (!is_taken)
        return NULL;
    PyObject *answer = merge((Node *)self, &in, &limits);
    drop_input(&in);
    return answer;
}

const char which_oneof_doc[] =
"which_oneof($self, name, /)\n--\n\n"
"Returns the name of the field of a oneof that is set, or None. Raises KeyError if the type has no such oneof.";

/* The index of the oneof of a name in a type, or -1 with an exception. */
static Py_ssize_t oneof_index(MessageType *type, PyObject *name)
{
    struct mb_type is;
    PyObject *found = read_message(type->pool, type->number, &is);

    if (found == NULL)
        return -1;
    for (size_t i = 0; i < is.oneofs; i++) {
        Py_DECREF(found);
        found = read_oneof(type->pool, type->number, i);
        int is_same = found == NULL ? -1 : PyObject_RichCompareBool(found, name, Py_EQ);
        if (is_same != 0) {
            Py_XDECREF(found);
            return is_same < 0 ? -1 : (Py_ssize_t)i;
        }
    }
    Py_DECREF(found);
    refuse_name("oneof", (PyObject *)type, name);
    return -1;
}

PyObject *message_which_oneof(PyObject *self, PyObject *name)
{
    Node *node = (Node *)self;
    Py_ssize_t index = oneof_index(node->type, name);
    struct mb_message *handle = index < 0 ? NULL : handle_of(node);
    uint32_t number = 0;

    if (handle == NULL)
        return NULL;
    uint32_t answer = mb_message_oneof(handle, PLACE(node), (uint32_t)index, &number);
    if (answer == MB_ABSENT)
        Py_RETURN_NONE;
    if (answer != MB_DONE)
        return nothing_there(answer);
    Field *field = field_by_number(node->type, number);
    if (field == NULL)
        return NULL;
    Py_INCREF(field->name);
    return field->name;
}

PyObject *message_get_unknown(PyObject *self, void *Py_UNUSED(which))
{
    Node *node = (Node *)self;
    struct mb_message *handle = handle_of(node);
    size_t size = 0;

    if (handle == NULL)
        return NULL;
    uint32_t answer = mb_message_unknown(handle, PLACE(node), NULL, 0, &size);
    /* A part that is not there has none. */
    if (answer == MB_ABSENT && node->root != NULL)
        return PyBytes_FromStringAndSize(NULL, 0);
    if (answer != MB_DONE)
        return nothing_there(answer);
    PyObject *bytes = PyBytes_FromStringAndSize(NULL, (Py_ssize_t)size);
    if (bytes == NULL || size == 0)
        return bytes;
    answer = mb_message_unknown(handle, PLACE(node), (uint8_t *)PyBytes_AsString(bytes), size, &size);
    if (answer != MB_DONE) {
        Py_DECREF(bytes);
        return nothing_there(answer);
    }
    return bytes;
}
