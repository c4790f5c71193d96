/* Messages as dicts, and lists of numbers as arrays, read of the canonical bytes in one pass. */
#include "node.h"

/* ---- Dicts ---- */

/* A walk through a message: the place of the message that is read, as far as its unknown records are asked for, and whether enums are named. */
struct walk {
    Node *node;
    bool has_names;
    size_t place_len, keys_len;
    struct mb_value place[2 * MB_MAX_DEPTH + 4];
    struct mb_bytes keys[MB_MAX_DEPTH + 2];
};

static PyObject *dict_of(struct walk *walk, MessageType *type, struct span inside);

/* Goes a step further in. */
static void enter(struct walk *walk, uint32_t kind, uint64_t number)
{
    if (walk->place_len < sizeof walk->place / sizeof *walk->place)
        walk->place[walk->place_len++] = (struct mb_value){kind, number};
}

/* The name of an enum's value, or its number where it has none. */
static PyObject *named(Field *field, PyObject *number)
{
    PyObject *of = number == NULL ? NULL : PyObject_GetAttrString((PyObject *)field, "enum");
    PyObject *names = of == NULL ? NULL : PyObject_GetAttrString(of, "names");
    PyObject *name = names == NULL ? NULL : PyDict_GetItemWithError(names, number);

    if (name == NULL && !PyErr_Occurred())
        name = number;
    Py_XINCREF(name);
    Py_XDECREF(names);
    Py_XDECREF(of);
    Py_XDECREF(number);
    return name;
}

/* A value of a field, at the place of the walk where it is a message. */
static PyObject *value_of(struct walk *walk, Field *field, const struct record *record)
{
    if (!is_message_kind(field->is.kind)) {
        PyObject *value = wire_value(field->is.kind, record);
        return walk->has_names && field->is.kind == MB_ENUM ? named(field, value) : value;
    }
    MessageType *type = type_by_number(field->pool, (uint32_t)field->is.type_of, NULL);
    PyObject *dict = type == NULL ? NULL : dict_of(walk, type, record->inside);
    Py_XDECREF(type);
    return dict;
}

/* Puts the elements of a record at the end of a list. */
static bool add_elements(struct walk *walk, Field *field, struct record *record, PyObject *list)
{
    size_t place_len = walk->place_len;
    bool is_packed = is_packed_of(record, field->is.kind), is_done = true;
    struct record element = {field->is.number, 0, 0, {NULL, NULL}, NULL};

    while (is_done && (!is_packed || next_packed(&record->inside, field->is.kind, &element.bits))) {
        enter(walk, MB_INDEX, (uint64_t)PyList_Size(list));
        PyObject *it = value_of(walk, field, is_packed ? &element : record);
        walk->place_len = place_len;
        is_done = it != NULL && PyList_Append(list, it) == 0;
        Py_XDECREF(it);
        if (!is_packed)
            break;
    }
    return is_done;
}

/* Puts an entry into the dict of a map. */
static bool add_entry(struct walk *walk, Field *field, const struct record *record, PyObject *dict)
{
    struct record key_record, value_record;
    size_t place_len = walk->place_len, keys_len = walk->keys_len;

    if (!entry_of(record->inside, &key_record, &value_record)) {
        nothing_there(MB_BAD_PLACE);
        return false;
    }
    enter(walk, field->is.key, field->is.key == MB_STRING ? keys_len : number_of(field->is.key, key_record.bits));
    if (field->is.key == MB_STRING && keys_len < sizeof walk->keys / sizeof *walk->keys)
        walk->keys[walk->keys_len++] = (struct mb_bytes){key_record.inside.at, (size_t)(key_record.inside.end - key_record.inside.at)};
    PyObject *key = wire_value(field->is.key, &key_record), *value = key == NULL ? NULL : value_of(walk, field, &value_record);
    walk->place_len = place_len;
    walk->keys_len = keys_len;
    bool is_done = value != NULL && PyDict_SetItem(dict, key, value) == 0;
    Py_XDECREF(key);
    Py_XDECREF(value);
    return is_done;
}

/* The list or the dict that a field has in the dict of its message, made where it has none yet. The reference is borrowed. */
static PyObject *collection(PyObject *dict, Field *field)
{
    PyObject *found = PyDict_GetItemWithError(dict, field->name);

    if (found != NULL || PyErr_Occurred())
        return found;
    PyObject *made = field->is.shape == SHAPE_LIST ? PyList_New(0) : PyDict_New();
    if (made == NULL || PyDict_SetItem(dict, field->name, made) < 0) {
        Py_XDECREF(made);
        return NULL;
    }
    Py_DECREF(made);
    return made;
}

/* Puts what a record has into the dict of its message, at the place of its field. A record that does not fit its field is an unknown one. */
static bool add_record(struct walk *walk, Field *field, struct record *record, PyObject *dict)
{
    bool fits = is_of_kind(record, field->is.kind) || (field->is.shape == SHAPE_LIST && is_packed_of(record, field->is.kind));
    PyObject *value;

    if (field->is.shape == SHAPE_MAP ? record->wire != WIRE_BYTES : !fits)
        return true;
    if (field->is.shape >= SHAPE_LIST) {
        value = collection(dict, field);
        return value != NULL && (field->is.shape == SHAPE_LIST ? add_elements(walk, field, record, value) : add_entry(walk, field, record, value));
    }
    value = value_of(walk, field, record);
    bool is_done = value != NULL && PyDict_SetItem(dict, field->name, value) == 0;
    Py_XDECREF(value);
    return is_done;
}

/* Drops the unknown records, which are the last, where some may look like known ones: those of numbers that a closed enum does not declare. */
static bool drop_unknown(struct walk *walk, MessageType *type, struct span *inside)
{
    size_t unknown = 0;

    if (!has_closed_enums(type))
        return !PyErr_Occurred();
    uint32_t answer = mb_message_unknown(&root_of(walk->node)->handle, PLACE(walk), NULL, 0, &unknown);
    if (answer == MB_DONE && unknown <= (size_t)(inside->end - inside->at)) {
        inside->end -= unknown;
        return true;
    }
    nothing_there(answer == MB_DONE ? MB_BAD_PLACE : answer);
    return false;
}

static PyObject *dict_of(struct walk *walk, MessageType *type, struct span inside)
{
    PyObject *dict = inside.at == inside.end || drop_unknown(walk, type, &inside) ? PyDict_New() : NULL;
    struct record record;
    size_t place_len = walk->place_len;

    while (dict != NULL && next_record(&inside, &record)) {
        Field *field = find_field(type, record.number);
        if (field != NULL) {
            enter(walk, MB_FIELD, record.number);
            if (!add_record(walk, field, &record, dict))
                Py_CLEAR(dict);
            walk->place_len = place_len;
        }
        if (PyErr_Occurred())
            Py_CLEAR(dict);
    }
    return dict;
}

const char to_dict_doc[] =
"to_dict($self, /, *, enums='numbers')\n--\n\n"
"Returns the set fields as a dict by name. Messages and maps are dicts, lists are lists. An enum is its number; with enums=\"names\" it is its name if it"
"\nhas a name. Unknown fields are left out.";

/* Whether enums are wanted by their names: 1, 0, or -1 with an exception. */
static int wants_names(const char *enums)
{
    if (strcmp(enums, "names") == 0)
        return 1;
    if (strcmp(enums, "numbers") == 0)
        return 0;
    PyErr_SetString(PyExc_ValueError, "enums is \"numbers\" or \"names\"");
    return -1;
}

PyObject *message_to_dict(PyObject *self, PyObject *args, PyObject *kwargs)
{
    static char *names[] = {"enums", NULL};
    Node *node = (Node *)self;
    const char *enums = "numbers";
    struct walk walk;
    struct span inside;
    PyObject *held;
    int has_names;

    if (!PyArg_ParseTupleAndKeywords(args, kwargs, "|$s:to_dict", names, &enums) || (has_names = wants_names(enums)) < 0 || !span_of(node, &inside, &held))
        return NULL;
    walk.node = node;
    walk.has_names = has_names;
    walk.place_len = walk.keys_len = 0;
    for (size_t i = 0; i < node->place_len; i++)
        enter(&walk, node->place[i].kind, node->place[i].number);
    for (; walk.keys_len < node->keys_len && walk.keys_len < sizeof walk.keys / sizeof *walk.keys; walk.keys_len++)
        walk.keys[walk.keys_len] = node->keys[walk.keys_len];
    PyObject *dict = dict_of(&walk, node->type, inside);
    Py_DECREF(held);
    return dict;
}

/* ---- Arrays ---- */

/* An array under construction: its memory, the kind of its numbers and how many bytes each has. */
struct array {
    uint8_t *at, *end;
    uint32_t kind;
    size_t size;
};

/* The format of the struct module, and the size, of the numbers of a kind; NULL where it has none. */
static const char *format_of(uint32_t kind, size_t *size)
{
    *size = 8;
    switch (kind) {
    case MB_DOUBLE:
        return "d";
    case MB_INT64: case KIND_SINT64: case KIND_SFIXED64:
        return "q";
    case MB_UINT64: case KIND_FIXED64:
        return "Q";
    case MB_STRING: case MB_BYTES: case MB_MESSAGE: case KIND_GROUP:
        return NULL;
    case MB_BOOL:
        *size = 1;
        return "?";
    default:
        *size = 4;
        return kind == MB_FLOAT ? "f" : kind == MB_UINT32 || kind == KIND_FIXED32 ? "I" : "i";
    }
}

/* Puts a number at the end, the least byte first, as this processor has it. */
static void put_number(struct array *array, uint64_t bits)
{
    uint64_t number = number_of(array->kind, bits);

    if ((size_t)(array->end - array->at) >= array->size)
        memcpy(array->at, &number, array->size);
    array->at += (size_t)(array->end - array->at) >= array->size ? array->size : 0;
}

/* Puts the numbers of a packed list at the end: those of a fixed size as they are. */
static void put_packed(struct array *array, struct span inside)
{
    size_t size = (size_t)(inside.end - inside.at);
    struct record fixed = {0, array->size == 8 ? WIRE_64 : WIRE_32, 0, {NULL, NULL}, NULL};
    uint64_t bits;

    if (array->size > 1 && is_of_kind(&fixed, array->kind) && size <= (size_t)(array->end - array->at)) {
        memcpy(array->at, inside.at, size);
        array->at += size;
        return;
    }
    while (next_packed(&inside, array->kind, &bits))
        put_number(array, bits);
}

/* How many numbers a packed list has: of varints as many as bytes that end one. */
static size_t count_packed(struct span inside, uint32_t kind)
{
    uint32_t wire = wire_of(kind);
    size_t count = 0;

    if (wire != WIRE_VARINT)
        return (size_t)(inside.end - inside.at) / (wire == WIRE_64 ? 8 : 4);
    while (inside.at < inside.end)
        count += *inside.at++ < 128;
    return count;
}

/* How many numbers of a field there are in the bytes of a message. */
static size_t count_numbers(struct span inside, const Field *field)
{
    struct record record;
    size_t count = 0;

    while (next_record(&inside, &record)) {
        if (record.number == field->is.number && is_packed_of(&record, field->is.kind))
            count += count_packed(record.inside, field->is.kind);
        else
            count += record.number == field->is.number && is_of_kind(&record, field->is.kind);
    }
    return count;
}

/* Puts the numbers of a field at the end. */
static void put_numbers(struct array *array, struct span inside, const Field *field)
{
    struct record record;

    while (next_record(&inside, &record)) {
        if (record.number == field->is.number && is_of_kind(&record, field->is.kind))
            put_number(array, record.bits);
        else if (record.number == field->is.number && is_packed_of(&record, field->is.kind))
            put_packed(array, record.inside);
    }
}

/* The numbers of a list as bytes of Python's. Unknown records may look like numbers of a closed enum. */
static PyObject *numbers_of(Node *node, Field *field, size_t size)
{
    bool is_closed = field->is.kind == MB_ENUM && field->pool->has_proto2;
    struct span inside;
    PyObject *held;

    if (!(is_closed ? known_span_of : span_of)(node, &inside, &held))
        return NULL;
    size_t count = count_numbers(inside, field);
    PyObject *bytes = PyBytes_FromStringAndSize(NULL, (Py_ssize_t)(size * count));
    if (bytes != NULL) {
        struct array array = {(uint8_t *)PyBytes_AsString(bytes), NULL, field->is.kind, size};
        array.end = array.at + size * count;
        put_numbers(&array, inside, field);
        if (array.at != array.end) {
            Py_CLEAR(bytes);
            nothing_there(MB_BAD_PLACE);
        }
    }
    Py_DECREF(held);
    return bytes;
}

const char array_doc[] =
"array($self, name, /)\n--\n\n"
"Returns a copy of a list of numbers as a read-only memoryview. The format is d, f, i, I, q, Q or ? of the module struct, by the kind of the field;"
"\nan enum is an i. numpy.asarray takes it without another copy.";

PyObject *message_array(PyObject *self, PyObject *name)
{
    Node *node = (Node *)self;
    Field *field = field_of(node->type, name);
    size_t size = 0;
    const char *format = field == NULL ? NULL : format_of(field->is.kind, &size);

    if (field == NULL)
        return NULL;
    if (field->is.shape != SHAPE_LIST || format == NULL) {
        PyObject *full = full_name(field);
        if (full != NULL)
            PyErr_Format(PyExc_TypeError, "%U is no list of numbers", full);
        Py_XDECREF(full);
        return NULL;
    }
    PyObject *bytes = numbers_of(node, field, size);
    PyObject *view = bytes == NULL ? NULL : PyMemoryView_FromObject(bytes);
    PyObject *array = view == NULL ? NULL : PyObject_CallMethod(view, "cast", "s", format);
    Py_XDECREF(bytes);
    Py_XDECREF(view);
    return array;
}
