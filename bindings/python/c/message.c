/* Messages that the library holds, and messages in them. */
#include "node.h"

PyObject *message_type;

/* ---- Whole messages, and copies of parts as whole messages ---- */

/* The message that bytes are, which are canonical. */
static Node *message_of(MessageType *type, const struct span *bytes)
{
    Node *made = new_message(type);
    struct report report;

    if (made == NULL)
        return NULL;
    made->hint = (size_t)(bytes->end - bytes->at);
    uint32_t answer = mb_message_decode(&type->pool->handle, type->number, bytes->at, made->hint, MB_MAX_BYTES, MB_MAX_DEPTH, &made->handle, &report.fault,
                                        report.path, MB_MAX_STEPS);
    if (answer == MB_DONE)
        return made;
    Py_DECREF(made);
    refuse(answer, &report);
    return NULL;
}

Node *whole_of(PyObject *self)
{
    Node *node = (Node *)self;
    struct span bytes;
    PyObject *held;

    if (node->root == NULL) {
        Py_INCREF(self);
        return node;
    }
    if (!span_of(node, &bytes, &held))
        return NULL;
    Node *made = message_of(node->type, &bytes);
    Py_DECREF(held);
    return made;
}

/* How a message is written: the form of a text; of JSON the pool whose names it is written by, its form, and the part of a message that has none. */
struct form {
    struct mb_text_form text;
    struct mb_pool *pool;
    bool declared_names, indented;
    uint32_t path[MB_MAX_STEPS];
    size_t steps;
};

/* The exception for a part of a message that has no JSON form. */
static PyObject *refuse_json(uint32_t answer, const struct form *form)
{
    size_t steps = form->steps < MB_MAX_STEPS ? form->steps : MB_MAX_STEPS;
    PyObject *path = PyTuple_New((Py_ssize_t)steps);

    for (size_t i = 0; path != NULL && i < steps; i++) {
        PyObject *number = PyLong_FromUnsignedLong(form->path[i]);
        if (number == NULL)
            Py_CLEAR(path);
        else
            PyTuple_SetItem(path, (Py_ssize_t)i, number);
    }
    return path == NULL ? NULL : refuse_path("json", answer, path);
}

static PyObject *refuse_output(uint32_t answer, const struct form *form)
{
    return form != NULL && answer >= MB_JSON_NO_KIND && answer <= MB_JSON_UNSUPPORTED ? refuse_json(answer, form) : refuse(answer, NULL);
}

static uint32_t write_json(struct mb_message *handle, struct form *form, uint8_t *out, size_t capacity, size_t *size)
{
    return mb_message_json(form->pool, handle, form->declared_names, form->indented, out, capacity, size, form->path, MB_MAX_STEPS, &form->steps);
}

static uint32_t write_listing(struct mb_message *handle, struct form *form, uint8_t *out, size_t capacity, size_t *size)
{
    (void)form;
    return mb_message_show(handle, out, capacity, size);
}

static uint32_t write_decimal(struct mb_message *handle, struct form *form, uint8_t *out, size_t capacity, size_t *size)
{
    (void)form;
    return mb_message_show_decimal(handle, out, capacity, size);
}

static uint32_t write_text(struct mb_message *handle, struct form *form, uint8_t *out, size_t capacity, size_t *size)
{
    return mb_message_text(handle, &form->text, out, capacity, size);
}

/* A text on one line, without the blank after its last field. */
static PyObject *as_line(const uint8_t *text, size_t size)
{
    return as_str(text, size > 0 ? size - 1 : 0);
}

static uint32_t write_bytes(struct mb_message *handle, struct form *form, uint8_t *out, size_t capacity, size_t *size)
{
    (void)form;
    return mb_message_encode(handle, out, capacity, size);
}

/* What is written of a handle: to the stack, and once more where it is longer. */
static PyObject *written_of(struct mb_message *handle, uint32_t (*write)(struct mb_message *, struct form *, uint8_t *, size_t, size_t *), struct form *form,
                            PyObject *(*made)(const uint8_t *, size_t))
{
    uint8_t small[SMALL_OUTPUT], *out;
    size_t size = 0;
    uint32_t answer = write(handle, form, small, sizeof small, &size);
    PyObject *result;

    if (answer != MB_DONE)
        return refuse_output(answer, form);
    if (size <= sizeof small)
        return made(small, size);
    out = PyMem_Malloc(size);
    if (out == NULL)
        return PyErr_NoMemory();
    answer = write(handle, form, out, size, &size);
    result = answer == MB_DONE ? made(out, size) : refuse_output(answer, form);
    PyMem_Free(out);
    return result;
}

/* What is written of a message, which may be a part of another. */
static PyObject *written(PyObject *self, uint32_t (*write)(struct mb_message *, struct form *, uint8_t *, size_t, size_t *), struct form *form,
                         PyObject *(*made)(const uint8_t *, size_t))
{
    Node *node = whole_of(self);
    PyObject *result = node == NULL ? NULL : written_of(&node->handle, write, form, made);

    Py_XDECREF(node);
    return result;
}

/* The canonical bytes of a long message are written to where they stay: their length is asked first. */
static PyObject *encode_long(Node *node)
{
    PyObject *bytes = bytes_of_root(node);

    Py_XINCREF(bytes);
    Py_CLEAR(node->bytes);
    return bytes;
}

PyDoc_STRVAR(encode_doc, "encode($self, /)\n--\n\nReturns the canonical bytes, the same for all equal messages. bytes(message) is the same.");
PyDoc_STRVAR(bytes_doc, "__bytes__($self, /)\n--\n\nReturns the canonical bytes.");

PyObject *message_encode(PyObject *self, PyObject *Py_UNUSED(ignored))
{
    Node *node = (Node *)self;
    struct span bytes;
    PyObject *held;

    if (node->root == NULL && node->bytes == NULL)
        return node->hint > SMALL_OUTPUT ? encode_long(node) : written_of(&node->handle, write_bytes, NULL, as_bytes);
    if (!span_of(node, &bytes, &held))
        return NULL;
    if (node->root == NULL)
        return held;
    PyObject *result = as_bytes(bytes.at, (size_t)(bytes.end - bytes.at));
    Py_DECREF(held);
    return result;
}

PyDoc_STRVAR(encoded_length_doc, "encoded_length($self, /)\n--\n\nReturns the number of the canonical bytes.");

static PyObject *message_encoded_length(PyObject *self, PyObject *Py_UNUSED(ignored))
{
    Node *node = (Node *)self;
    struct span bytes;
    PyObject *held;
    size_t size = 0;

    if (node->root == NULL) {
        uint32_t answer = mb_message_encoded_length(&node->handle, &size);
        return answer == MB_DONE ? PyLong_FromSize_t(size) : refuse(answer, NULL);
    }
    if (!span_of(node, &bytes, &held))
        return NULL;
    Py_DECREF(held);
    return PyLong_FromSize_t((size_t)(bytes.end - bytes.at));
}

PyDoc_STRVAR(listing_doc,
"listing($self, /, *, decimal=False)\n--\n\n"
"Returns the listing that `pbtool show` prints, with floats by their bits. With decimal=True floats have the fewest decimal digits that read back as the"
"\nsame bits, or are nan, inf or -inf. repr(message) is the listing in decimal.");

static PyObject *message_listing(PyObject *self, PyObject *args, PyObject *kwargs)
{
    static char *names[] = {"decimal", NULL};
    int is_decimal = 0;

    if (!PyArg_ParseTupleAndKeywords(args, kwargs, "|$p:listing", names, &is_decimal))
        return NULL;
    return written(self, is_decimal ? write_decimal : write_listing, NULL, as_str);
}

PyDoc_STRVAR(text_doc,
"text($self, /, *, single_line=False, utf8=False, unknown=False)\n--\n\n"
"Returns the message in the text format of protobuf's own tools: a field on each line, or all on one. With utf8=True strings stay as they are; else"
"\neach byte that is not ASCII is escaped. With unknown=True unknown records follow the fields, under their numbers. str(message) is message.text().");

static PyObject *message_text(PyObject *self, PyObject *args, PyObject *kwargs)
{
    static char *names[] = {"single_line", "utf8", "unknown", NULL};
    int single_line = 0, utf8 = 0, unknown = 0;

    if (!PyArg_ParseTupleAndKeywords(args, kwargs, "|$ppp:text", names, &single_line, &utf8, &unknown))
        return NULL;
    struct form form = {.text = {.single_line = single_line, .utf8 = utf8, .omit_unknown = !unknown}};
    return written(self, write_text, &form, single_line ? as_line : as_str);
}

PyDoc_STRVAR(to_json_doc,
"to_json($self, /, *, declared_names=False, indent=False)\n--\n\n"
"Returns the message as JSON (ProtoJSON), on one line, or indented. Names are the json_name of the set, or else in lowerCamelCase. With"
"\ndeclared_names=True they are the declared names. Raises Refused if a value has no JSON form, such as a Timestamp after the year 9999.");

static PyObject *message_to_json(PyObject *self, PyObject *args, PyObject *kwargs)
{
    static char *names[] = {"declared_names", "indent", NULL};
    int declared_names = 0, indent = 0;
    struct form json = {0};

    if (!PyArg_ParseTupleAndKeywords(args, kwargs, "|$pp:to_json", names, &declared_names, &indent))
        return NULL;
    json.pool = &((Node *)self)->type->pool->handle;
    json.declared_names = declared_names;
    json.indented = indent;
    return written(self, write_json, &json, as_str);
}

static PyObject *message_repr(PyObject *self)
{
    return ((Node *)self)->is_gone ? part_repr(self) : written(self, write_decimal, NULL, as_str);
}

static PyObject *message_str(PyObject *self)
{
    struct form form = {.text = {.omit_unknown = true}};

    return ((Node *)self)->is_gone ? part_repr(self) : written(self, write_text, &form, as_str);
}

static PyObject *message_get_type(PyObject *self, void *Py_UNUSED(which))
{
    PyObject *type = (PyObject *)((Node *)self)->type;

    Py_INCREF(type);
    return type;
}

/* ---- What is at a place ---- */

/* The string or the bytes at a place: to the stack, and once more where they are longer. NULL, with an exception, or without one where nothing is there. */
static PyObject *read_bytes(const struct reached *place, struct mb_message *handle, bool is_text)
{
    uint8_t small[256], *out = small;
    size_t size = 0;
    PyObject *result = NULL;
    uint32_t answer = mb_message_read(handle, PLACE(place), small, sizeof small, &size);

    if (answer == MB_DONE && size > sizeof small) {
        if ((out = PyMem_Malloc(size)) == NULL)
            return PyErr_NoMemory();
        answer = mb_message_read(handle, PLACE(place), out, size, &size);
    }
    if (answer == MB_DONE)
        result = is_text ? as_str(out, size) : as_bytes(out, size);
    else if (answer != MB_ABSENT && answer != MB_BAD_PLACE)
        refuse(answer, NULL);
    if (out != small)
        PyMem_Free(out);
    return result;
}

/* A value at a place as Python's. */
PyObject *value_at(const struct reached *place, struct mb_message *handle, const struct mb_value *value)
{
    double number;
    float half;
    uint32_t bits;

    switch (value->kind) {
    case MB_DOUBLE:
        memcpy(&number, &value->number, sizeof number);
        return PyFloat_FromDouble(number);
    case MB_FLOAT:
        bits = (uint32_t)value->number;
        memcpy(&half, &bits, sizeof half);
        return PyFloat_FromDouble(half);
    case MB_BOOL:
        return PyBool_FromLong(value->number != 0);
    case MB_UINT32: case MB_UINT64:
        return as_unsigned(value->number);
    case MB_STRING: case MB_BYTES:
        return read_bytes(place, handle, value->kind == MB_STRING);
    default:
        return as_signed(value->number);
    }
}

PyObject *make_part(Node *node, PyObject *of, struct mb_value step, PyObject *key, Field *field)
{
    Node *part = part_of(node, of, step, key);

    if (part == NULL)
        return NULL;
    if (of == message_type) {
        part->type = type_inside(field);
        Py_XINCREF(part->type);
        if (part->type == NULL)
            Py_CLEAR(part);
    } else {
        Py_INCREF(field);
        part->field = field;
    }
    return (PyObject *)part;
}

/* The value or the part at a place that is one step further in than a node, or NULL: with an exception, or without one where nothing is there. */
static PyObject *got(Node *node, struct mb_message *handle, const struct reached *place, struct mb_value step, PyObject *key, Field *field)
{
    struct mb_value value = {0, 0};
    uint32_t kind = field->is.kind, answer;

    if (kind == MB_STRING || kind == MB_BYTES)
        return read_bytes(place, handle, kind == MB_STRING);
    answer = mb_message_get(handle, PLACE(place), &value);
    if (answer == MB_DONE)
        return is_message_kind(kind) ? make_part(node, message_type, step, key, field) : value_at(place, handle, &value);
    if (answer != MB_ABSENT && answer != MB_BAD_PLACE)
        refuse(answer, NULL);
    return NULL;
}

PyObject *inner(Node *node, struct mb_value step, PyObject *key, Field *field)
{
    struct mb_message *handle = handle_of(node);

    if (handle == NULL)
        return NULL;
    struct reached place = reach(node, &step, key);
    return got(node, handle, &place, step, key, field);
}

const char read_doc[] = "_read($self, kind=0, number=0, key=None, /)\n--\n\nWhat is here, or one step further in, as the library reports it: kind, number, and"
                        " the bytes, the part, or None.";

/* What is read one step further in, beside its kind and its number: bytes, a part, or NULL, without an exception where it is neither. */
static PyObject *read_inside(Node *node, const struct reached *place, struct mb_value step, PyObject *key, const struct mb_value *value)
{
    if (value->kind == MB_STRING || value->kind == MB_BYTES)
        return read_bytes(place, handle_of(node), false);
    if (value->kind != MB_LIST && value->kind != MB_MAP && value->kind != MB_MESSAGE)
        return NULL;
    Field *field = node->type == NULL ? node->field : field_by_number(node->type, (uint32_t)step.number);
    return field == NULL ? NULL : make_part(node, value->kind == MB_LIST ? list_type : value->kind == MB_MAP ? map_type : message_type, step, key, field);
}

PyObject *node_read(PyObject *self, PyObject *args)
{
    Node *node = (Node *)self;
    unsigned kind = 0;
    unsigned long long number = 0;
    PyObject *key = NULL, *found = NULL;
    struct mb_value value = {0, 0};

    if (!PyArg_ParseTuple(args, "|IKS", &kind, &number, &key))
        return NULL;
    bool is_here = kind == 0 && key == NULL;
    struct mb_value step = {key == NULL ? kind : MB_STRING, number};
    struct mb_message *handle = handle_of(node);
    if (handle == NULL)
        return NULL;
    struct reached place = reach(node, is_here ? NULL : &step, key);
    uint32_t answer = mb_message_get(handle, PLACE(&place), &value);
    if (answer == MB_DONE && !is_here)
        found = read_inside(node, &place, step, key, &value);
    if (answer != MB_DONE)
        return nothing_there(answer);
    if (PyErr_Occurred())
        return NULL;
    if (found == NULL)
        Py_INCREF(found = Py_None);
    return Py_BuildValue("IKN", value.kind, (unsigned long long)value.number, found);
}

/* ---- Fields ---- */

/* Whether a field reads as a part: a list, a map or a message, whether or not it is there, since a change in it makes it. */
static bool is_part(const Field *field)
{
    return field->is.shape >= SHAPE_LIST || is_message_kind(field->is.kind);
}

static PyObject *part_of_field(Node *node, Field *field)
{
    PyObject *of = field->is.shape == SHAPE_LIST ? list_type : field->is.shape == SHAPE_MAP ? map_type : message_type;
    struct mb_value step = {MB_FIELD, field->is.number};
    PyObject *part = handle_of(node) == NULL ? NULL : make_part(node, of, step, NULL, field);

    if (part != NULL && node->view != NO_VIEW)
        give_part((Node *)part, node, field);
    return part;
}

static PyObject *message_subscript(PyObject *self, PyObject *name)
{
    Node *node = (Node *)self;
    Field *field = field_of(node->type, name);
    PyObject *found;

    if (field == NULL)
        return NULL;
    if (is_part(field))
        return part_of_field(node, field);
    if (node->view != NO_VIEW && ((found = given_value(node, field)) != NULL || PyErr_Occurred()))
        return found;
    struct mb_value step = {MB_FIELD, field->is.number};
    found = inner(node, step, NULL, field);
    return found != NULL || PyErr_Occurred() ? found : default_of(&field->is);
}

/* Whether a field is set: 1, 0, or -1 with an exception. */
static int is_set(Node *node, Field *field)
{
    struct mb_value step = {MB_FIELD, field->is.number};
    int presence = node->view == NO_VIEW ? -1 : given_presence(node, field);

    if (presence >= 0)
        return presence;
    if (handle_of(node) == NULL)
        return -1;
    struct reached place = reach(node, &step, NULL);
    return is_there(node, &place);
}

static int message_contains(PyObject *self, PyObject *name)
{
    Field *field = field_of(((Node *)self)->type, name);

    return field == NULL ? -1 : is_set((Node *)self, field);
}

/* Whether a message is there: a whole one is. */
static int message_bool(PyObject *self)
{
    Node *node = (Node *)self;

    if (node->root == NULL)
        return 1;
    int presence = given_message(node);
    if (presence >= 0)
        return presence;
    if (handle_of(node) == NULL)
        return -1;
    struct reached place = reach(node, NULL, NULL);
    return is_there(node, &place);
}

PyDoc_STRVAR(numbers_doc, "numbers($self, /)\n--\n\nReturns the numbers of the set fields as a list, in rising order.");

static PyObject *listed_numbers(const uint32_t *numbers, size_t count)
{
    PyObject *list = PyList_New((Py_ssize_t)count);

    for (size_t i = 0; list != NULL && i < count; i++) {
        PyObject *it = PyLong_FromUnsignedLong(numbers[i]);
        if (it == NULL)
            Py_CLEAR(list);
        else
            PyList_SetItem(list, (Py_ssize_t)i, it);
    }
    return list;
}

PyObject *message_numbers(PyObject *self, PyObject *Py_UNUSED(ignored))
{
    Node *node = (Node *)self;
    struct mb_message *handle = handle_of(node);
    uint32_t small[64], *numbers = small;
    size_t count = 0;

    if (handle == NULL)
        return NULL;
    uint32_t answer = mb_message_fields(handle, PLACE(node), numbers, sizeof small / sizeof *small, &count);
    if (answer == MB_DONE && count > sizeof small / sizeof *small) {
        numbers = PyMem_Malloc(count * sizeof *numbers);
        if (numbers == NULL)
            return PyErr_NoMemory();
        answer = mb_message_fields(handle, PLACE(node), numbers, count, &count);
    }
    /* A part that is not there has no fields. */
    if (answer == MB_ABSENT && node->root != NULL)
        answer = MB_DONE;
    PyObject *list = answer == MB_DONE ? listed_numbers(numbers, count) : nothing_there(answer);
    if (numbers != small)
        PyMem_Free(numbers);
    return list;
}

PyDoc_STRVAR(get_doc, "get($self, /, name, default=None)\n--\n\nReturns the value of a field if it is set, else the default.");

/* The value of a field where it is set; else NULL, without an exception unless reading failed. */
static PyObject *set_value(Node *node, Field *field)
{
    struct mb_value step = {MB_FIELD, field->is.number};
    int presence = node->view == NO_VIEW ? -1 : given_presence(node, field);

    if (presence == 0)
        return NULL;
    if (is_part(field))
        return presence == 1 || is_set(node, field) == 1 ? part_of_field(node, field) : NULL;
    PyObject *found = presence == 1 ? given_value(node, field) : NULL;
    return found != NULL || PyErr_Occurred() ? found : inner(node, step, NULL, field);
}

static PyObject *message_get(PyObject *self, PyObject *args, PyObject *kwargs)
{
    static char *names[] = {"name", "default", NULL};
    PyObject *name, *otherwise = Py_None;

    if (!PyArg_ParseTupleAndKeywords(args, kwargs, "O|O:get", names, &name, &otherwise))
        return NULL;
    Field *field = field_of(((Node *)self)->type, name);
    if (field == NULL)
        return NULL;
    PyObject *found = set_value((Node *)self, field);
    if (found == NULL && !PyErr_Occurred()) {
        Py_INCREF(otherwise);
        found = otherwise;
    }
    return found;
}

/* ---- The type ---- */

#define KEYWORDS(function) ((PyCFunction)(void (*)(void))(function))

static PyObject *made_message_type(void)
{
    static PyMethodDef methods[] = {
        {"encode", message_encode, METH_NOARGS, encode_doc},
        {"__bytes__", message_encode, METH_NOARGS, bytes_doc},
        {"encoded_length", message_encoded_length, METH_NOARGS, encoded_length_doc},
        {"listing", KEYWORDS(message_listing), METH_VARARGS | METH_KEYWORDS, listing_doc},
        {"text", KEYWORDS(message_text), METH_VARARGS | METH_KEYWORDS, text_doc},
        {"frame", message_frame, METH_NOARGS, frame_doc},
        {"copy", message_copy, METH_NOARGS, copy_doc},
        {"__copy__", message_copy, METH_NOARGS, "__copy__($self, /)\n--\n\nA copy."},
        {"__deepcopy__", message_deep_copy, METH_O, "__deepcopy__($self, memo, /)\n--\n\nA copy."},
        {"merge", KEYWORDS(message_merge), METH_VARARGS | METH_KEYWORDS, merge_doc},
        {"which_oneof", message_which_oneof, METH_O, which_oneof_doc},
        {"to_json", KEYWORDS(message_to_json), METH_VARARGS | METH_KEYWORDS, to_json_doc},
        {"get", KEYWORDS(message_get), METH_VARARGS | METH_KEYWORDS, get_doc},
        {"numbers", message_numbers, METH_NOARGS, numbers_doc},
        {"to_dict", KEYWORDS(message_to_dict), METH_VARARGS | METH_KEYWORDS, to_dict_doc},
        {"array", message_array, METH_O, array_doc},
        {"drop_unknown", message_drop_unknown, METH_NOARGS, drop_unknown_doc},
        {"_make", message_make, METH_O, make_doc},
        {"_fill", message_fill, METH_O, fill_doc},
        {"_change", message_change, METH_VARARGS, change_doc},
        {"_read", node_read, METH_VARARGS, read_doc},
        {NULL, NULL, 0, NULL},
    };
    static PyGetSetDef getset[] = {
        {"type", message_get_type, NULL, "The type of the message.", NULL},
        {"unknown", message_get_unknown, NULL, "The unknown fields of this message, without those of messages in it, in their shortest encoding.", NULL},
        {NULL, NULL, NULL, NULL, NULL},
    };
    static PyType_Slot slots[] = {
        {Py_tp_doc, "A message that the library holds. order[\"number\"] is the value of a field; \"number\" in order says whether"
                    " it is set. order[\"number\"] = 1 sets it, del order[\"number\"] clears it, and an iteration gives the fields that are set, by rising number."},
        {Py_tp_new, no_new},
        {Py_tp_dealloc, node_dealloc},
        {Py_tp_repr, message_repr},
        {Py_tp_str, message_str},
        {Py_tp_richcompare, message_compare},
        {Py_tp_hash, PyObject_HashNotImplemented},
        {Py_tp_methods, methods},
        {Py_tp_getset, getset},
        {Py_tp_iter, message_iter},
        {Py_nb_bool, message_bool},
        {Py_mp_subscript, message_subscript},
        {Py_mp_ass_subscript, message_assign},
        {Py_sq_contains, message_contains},
        {0, NULL},
    };
    static PyType_Spec spec = {"mabristu.Message", sizeof(Node), 0, Py_TPFLAGS_DEFAULT, slots};
    return PyType_FromSpec(&spec);
}

bool make_message_types(void)
{
    message_type = made_message_type();
    list_type = made_list_type();
    map_type = made_map_type();
    return message_type != NULL && list_type != NULL && map_type != NULL;
}
