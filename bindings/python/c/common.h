/* What the files of the extension module share. The module is built against the stable ABI of Python 3.9, so one file serves every later Python too. */
#ifndef COMMON_H
#define COMMON_H

#define PY_SSIZE_T_CLEAN
#define Py_LIMITED_API 0x03090000
#include <Python.h>
#include <stdbool.h>
#include <string.h>

#include "mabristu.h"

/* With fewer bytes than this a call keeps the global lock: to give it up and take it again costs more than the call. */
#define LONG_INPUT 16384
/* Output of up to this many bytes is written to the stack first. */
#define SMALL_OUTPUT 4096

/* A stretch of bytes. */
struct span {
    const uint8_t *at, *end;
};

/* ---- Input, output, refusals (input.c, refused.c) ---- */

/* The bytes of an argument, and what keeps them where they are. Those that are fixed can't be changed by any other thread. */
struct input {
    const uint8_t *at;
    size_t len;
    PyObject *held;
    bool is_fixed;
};

/* The limits of a call. */
struct limits {
    uint32_t max_bytes;
    uint8_t max_depth;
};

/* A fault, and its whole path. */
struct report {
    struct mb_fault fault;
    struct mb_step path[MB_MAX_STEPS];
};

/* Takes anything with the buffer protocol. Returns whether it was taken; else an exception is set. */
bool take_input(PyObject *object, struct input *input);
void drop_input(struct input *input);

/* Reads the arguments (data, *, max_bytes, max_depth) of a method. */
bool take_data(PyObject *args, PyObject *kwargs, PyObject **data, struct limits *limits);
bool set_limits(Py_ssize_t max_bytes, Py_ssize_t max_depth, struct limits *limits);

/* The least causes among the answers: of sets, sources and linking, and of linking alone. */
enum { FIRST_CAUSE = 50, FIRST_OF_LINKING = 71 };

/* Sets the exception for an answer that is not MB_DONE. All return NULL. The path of a part is taken. */
PyObject *refuse(uint32_t answer, const struct report *report);
/* The same of the bytes of a message, whose type is in the exception. */
PyObject *refuse_message(uint32_t answer, const struct report *report, PyObject *type);
PyObject *refuse_path(const char *what, uint32_t answer, PyObject *path);
/* The same of a JSON text, by the byte where what is refused begins. */
PyObject *refuse_text(uint32_t answer, size_t byte);
PyObject *refuse_link(uint32_t answer, const struct report *report, const struct mb_refusal *refusal, const uint8_t *text, PyObject *names);

/* Whether an answer is a cause why a message refuses a change. */
bool is_cause_of_change(uint32_t answer);

/* Where a Refused is set as the exception, a function of _refused.py is called with it and with what was refused: it adds a hint. */
void add_hint(const char *function, PyObject *given);
/* Puts an attribute into the exception that is set. */
void add_attribute(const char *name, PyObject *value);
/* Sets KeyError for a name that a pool or a message type does not declare, of a "type", a "field" or a "oneof", or ValueError for the name of a "value"
 * that the enum of a field does not declare. Returns NULL. */
PyObject *refuse_name(const char *what, PyObject *owner, PyObject *name);

/* What _refused.py, _frames.py, _schema.py and _change.py define. */
extern PyObject *make_fault, *make_link, *frames_class, *schema_class, *difference_class, *enum_class, *change_functions, *refused_functions;

/* A number as an int of Python: by the call that is the fastest for small ones. */
static inline PyObject *as_unsigned(uint64_t number)
{
    return number <= LONG_MAX ? PyLong_FromLong((long)number) : PyLong_FromUnsignedLongLong(number);
}

static inline PyObject *as_signed(uint64_t number)
{
    return PyLong_FromLong((long)(int64_t)number);
}

/* The written bytes as str or bytes. */
PyObject *as_bytes(const uint8_t *at, size_t len);
PyObject *as_str(const uint8_t *at, size_t len);

/* ---- Types (pool.c, schema.c, type.c, field.c, message.c, decoder.c) ---- */

/* Kinds that a field declares and a value is not reported with, by the numbers of descriptor.proto, and the shapes of struct mb_field. */
enum { KIND_FIXED64 = 6, KIND_FIXED32 = 7, KIND_GROUP = 10, KIND_SFIXED32 = 15, KIND_SFIXED64 = 16, KIND_SINT32 = 17, KIND_SINT64 = 18, KIND_LAST = 18 };
enum { SHAPE_IMPLICIT = 0, SHAPE_OPTIONAL = 1, SHAPE_ONEOF = 2, SHAPE_LIST = 3, SHAPE_MAP = 4 };

/* Whether values of a kind are messages. Those of KIND_GROUP are written as groups. */
static inline bool is_message_kind(uint32_t kind)
{
    return kind == MB_MESSAGE || kind == KIND_GROUP;
}

typedef struct {
    PyObject_HEAD
    struct mb_pool handle;
    Py_ssize_t left_out;
    bool has_proto2;    /* whether a file is of proto2: an enum may be closed then */
    PyObject *names;    /* types by their full names */
    PyObject *numbers;  /* types by their numbers */
    PyObject *origin;   /* what it was made of, for pickling: whether of a set, the set or the pairs of names and sources, whether leniently */
    PyObject *weak;
} Pool;

/* Names of fields that a type has found lately: of a name, which is kept, the index by its address. */
enum { RECENT = 16 };

typedef struct {
    PyObject_HEAD
    Pool *pool;
    uint32_t number;
    struct {
        PyObject *name;
        struct field *field;
    } recent[RECENT];
    PyObject *name;    /* the full name */
    PyObject *fields;  /* fields by their names, as they were asked for */
    struct field **by_number; /* all fields, by rising number, once they were asked for, and whether one is an enum */
    size_t count;
    bool has_enums;
} MessageType;

typedef struct field {
    PyObject_HEAD
    Pool *pool;
    uint32_t of;      /* the number of the type that has it */
    PyObject *name;
    struct mb_field is;
    bool has_detail;  /* whether the next is known: mb_pool_field does not report it */
    uint32_t detail;  /* what mb_pool_field_at reports beside */
    size_t index;     /* its index by rising number, once all fields of the type are listed */
    MessageType *inner; /* the type of its messages, once it was asked for */
    PyObject *names;  /* of an enum its Enum, once it was asked for */
} Field;

/* The index of the oneof that a field is in; or whether a list is packed. Returns whether it could be read; else an exception is set. */
bool read_detail(Field *field);
/* The full name of a field, as shop.Order.number; NULL with an exception. */
PyObject *full_name(const Field *field);

/* Steps and keys that a node has memory for. A place that is longer has memory of its own. */
enum { SHORT_PLACE = 4, SHORT_KEYS = 2 };

/* A message, or a part of one: a list, a map, a message inside. Of a part, root is the message that holds it, and place says where. After the place there is
 * memory for a step, and after the keys for two: of that step, and of a value. */
typedef struct node {
    PyObject_HEAD
    struct mb_message handle;
    size_t hint;       /* about how many bytes it has */
    PyObject *bytes;   /* its canonical bytes, where a part was read of them and nothing has changed since */
    PyObject *given;   /* the bytes that it was decoded from, if they are few and nothing has changed since (given.c) */
    uint16_t *values;  /* of a message: where each field begins in its own bytes */
    struct span own;   /* its own bytes among those that were given, or of a list those of the message that it is in */
    struct cursor *cursor; /* of a list: where its next element is */
    uint8_t view;      /* what is known of its own bytes */
    bool is_sorted;    /* whether the numbers of their records rise */
    size_t left;       /* of a message that holds itself: how many of the bytes that were given may still be passed over, in long stretches */
    struct node *root; /* none of a message that holds itself */
    struct node *parts, *next, *previous; /* the first of the parts that a message has, and the others of a part */
    bool is_gone;      /* of a part: what it led to was removed, or something else is in its place */
    bool was_there;    /* of a part, during a merge */
    MessageType *type; /* of a message */
    Field *field;      /* of a list or a map */
    size_t place_len, keys_len;
    struct mb_value *place, short_place[SHORT_PLACE];
    struct mb_bytes *keys, short_keys[SHORT_KEYS];
    PyObject *key_objects; /* a tuple of bytes, which the keys point to */
} Node;

extern PyObject *pool_type, *message_type_type, *field_type, *message_type, *list_type, *map_type, *decoder_type;
PyObject *make_pool_type(void);
PyObject *make_message_type_type(void);
PyObject *make_field_type(void);
bool make_message_types(void);
PyObject *make_decoder_type(void);

/* The type of a number. Without a name, NULL, the library is asked for it. */
MessageType *type_by_number(Pool *pool, uint32_t number, PyObject *name);
/* The type of the messages of a field. The reference is borrowed. */
MessageType *type_inside(Field *field);
/* Whether a file of the pool is of proto2, or it can't be said. */
bool pool_has_proto2(struct mb_pool *pool);
/* The field of a name, of a number, or of an object that is either or a Field; NULL with KeyError, or TypeError. The reference is borrowed. */
Field *field_by_name(MessageType *type, PyObject *name);
Field *field_by_number(MessageType *type, uint32_t number);
Field *field_of(MessageType *type, PyObject *name);
/* The same, but NULL without an exception where the type has none. */
Field *find_field(MessageType *type, uint32_t number);
/* Whether a field of a type, that is no map, is an enum that may be closed; false with an exception where it can't be said. */
bool has_closed_enums(MessageType *type);
/* Lists all fields of a type by rising number; the type keeps them. Returns whether it could. */
bool load_fields(MessageType *type);
/* Methods of a message type (field.c). */
PyObject *type_field(PyObject *self, PyObject *name);
PyObject *type_get_fields(PyObject *self, void *which);
extern const char field_doc[];
/* What an unset field reads as. */
PyObject *default_of(const struct mb_field *field);

/* A message of a type that holds nothing yet. */
Node *new_message(MessageType *type);
/* Keeps the bytes that a message was decoded from, if they are few and nobody can write them (given.c). */
void keep_given(Node *root, const struct input *in);

/* What a part of a pool is, and its name; NULL with an exception where there is none. */
PyObject *read_message(Pool *pool, uint32_t number, struct mb_type *is);
PyObject *read_field_at(Pool *pool, uint32_t number, size_t index, struct mb_field *is, uint32_t *detail);
PyObject *read_oneof(Pool *pool, uint32_t number, size_t index);
PyObject *read_enum(Pool *pool, size_t entry, struct mb_enum *is);

/* Methods of a pool, for _schema.py (schema.c). */
PyObject *pool_counts(PyObject *self, PyObject *ignored);
PyObject *pool_file(PyObject *self, PyObject *args);
PyObject *pool_message(PyObject *self, PyObject *args);
PyObject *pool_type_at(PyObject *self, PyObject *args);
PyObject *pool_enum(PyObject *self, PyObject *args);
PyObject *pool_enum_value(PyObject *self, PyObject *args);

/* Two versions of a message type, for type.c (compat.c). */
PyObject *type_compat(PyObject *self, PyObject *other);
PyObject *type_witness(PyObject *self, PyObject *args);
extern const char compat_doc[], witness_doc[];
/* (place.c) */
PyObject *type_place(PyObject *self, PyObject *path);
extern const char place_doc[];

/* A decoder of messages of a type, for type.c (decoder.c). */
PyObject *type_decoder(PyObject *self, PyObject *args, PyObject *kwargs);
extern const char decoder_doc[];

/* What makes an object of a type that only the library's calls make: TypeError. */
PyObject *no_new(PyTypeObject *type, PyObject *args, PyObject *kwargs);

/* Another handle of the pool, for a call that gives up the global lock. */
bool share(Pool *pool, struct mb_pool *other);

#endif
