/* What reads and changes messages by their places, and by their canonical bytes. */
#ifndef NODE_H
#define NODE_H

#include "common.h"

#define PLACE(node) (node)->place, (node)->place_len, (node)->keys, (node)->keys_len

/* A place one step further in than a node, or the node's own. It is in the memory of the node, so it holds until another place of that node is reached, as
 * code of Python may do: a call reaches its place just before it calls the library. One more string may be put after the keys. */
struct reached {
    struct mb_value *place;
    struct mb_bytes *keys;
    size_t place_len, keys_len;
};

/* ---- Nodes and places (node.c) ---- */

static inline Node *root_of(Node *node)
{
    return node->root == NULL ? node : node->root;
}

static inline struct mb_bytes bytes_in(PyObject *bytes)
{
    return (struct mb_bytes){(const uint8_t *)PyBytes_AsString(bytes), (size_t)PyBytes_Size(bytes)};
}

/* The place one step further in than a node, with a key that is a string where the step has one, or the node's own without a step. */
static inline struct reached reach(Node *node, const struct mb_value *step, PyObject *key)
{
    struct reached reached = {node->place, node->keys, node->place_len, node->keys_len};

    if (step != NULL)
        reached.place[reached.place_len++] = *step;
    if (key != NULL) {
        reached.place[reached.place_len - 1].number = reached.keys_len;
        reached.keys[reached.keys_len++] = bytes_in(key);
    }
    return reached;
}

/* The handle that a node's message is in, or NULL, with LookupError, where the node is gone. */
struct mb_message *handle_of(Node *node);
/* A part one step further in than a node, with the key of that step where it has one. */
Node *part_of(Node *node, PyObject *of, struct mb_value step, PyObject *key);
void node_dealloc(PyObject *self);
/* The exception for an answer where nothing is found. */
PyObject *nothing_there(uint32_t answer);
/* Whether something is at a place: 1, 0, or -1 with an exception. */
int is_there(Node *node, const struct reached *place);

/* Whether a message has parts beside a node that a change there may concern. */
static inline bool has_parts(Node *node)
{
    Node *first = root_of(node)->parts;

    return first != NULL && (first != node || first->next != NULL);
}

/* What follows a change: what is in a place, and a message at it, is gone; the elements of a list have moved up in place of the one that the place ends
 * at; elements from `to` on have moved by `count`, which the last ones took the place of; all parts are gone. */
void lose(Node *root, const struct reached *place);
void lose_element(Node *root, const struct reached *place);
void move_elements(Node *root, const struct reached *list, uint64_t to, uint64_t count, uint64_t length);
void lose_all(Node *root);
/* What a merge takes away: to be called before it, and after it. */
bool before_merge(Node *root);
bool after_merge(Node *root);
/* Forgets the bytes of a message that has changed: its canonical ones, and those that it was decoded from. */
void has_changed(Node *root);

/* ---- Canonical bytes (wire.c) ---- */

/* A record: its number, how it is written, and its number or its bytes. A group's end tag is none of its bytes. Its payload begins after the tag. */
struct record {
    uint32_t number, wire;
    uint64_t bits;
    struct span inside;
    const uint8_t *payload;
};

enum { WIRE_VARINT = 0, WIRE_64 = 1, WIRE_BYTES = 2, WIRE_GROUP = 3, WIRE_32 = 5 };

/* Takes the next record off a stretch. Returns false at its end, or where it has no record. */
bool next_record(struct span *span, struct record *record);
/* Takes the payload of a record, after its tag. */
bool next_payload(struct span *span, struct record *record);
bool next_varint(struct span *span, uint64_t *number);
/* How values of a kind are written, outside a packed list; and whether a record is written so. */
uint32_t wire_of(uint32_t kind);
bool is_of_kind(const struct record *record, uint32_t kind);
/* Whether it is a packed list of a kind. */
bool is_packed_of(const struct record *record, uint32_t kind);
/* Takes the next value of a kind that is no string and no message off a packed list. */
bool next_packed(struct span *span, uint32_t kind, uint64_t *bits);
/* The number of a value, as struct mb_value has it, by its bits in a record. */
uint64_t number_of(uint32_t kind, uint64_t bits);
/* A value of a kind that is no message as Python's. */
PyObject *wire_value(uint32_t kind, const struct record *record);
/* The key and the value of an entry of a map. */
bool entry_of(struct span entry, struct record *key, struct record *value);

/* The stretches that a way leads into, outermost first, and which of them are groups. */
struct trail {
    size_t count;
    struct span spans[2 * MB_MAX_DEPTH + 4];
    bool is_group[2 * MB_MAX_DEPTH + 4];
};

/* Goes along the first steps of a node's place, which lead to a message, from the bytes of the whole to its own; none where it is not there. Returns whether
 * memory was left; else an exception is set. */
bool go_along(Node *node, size_t steps, struct span *span, struct trail *trail);
/* The canonical bytes of the message that holds a node, kept until it changes. The reference is borrowed; NULL with an exception. */
PyObject *bytes_of_root(Node *root);
/* Those of the message that a node is, or that a list or a map is in; none where it is not there. They stay where they are as long as the object `held`, a
 * new reference. Returns whether they could be had. */
bool span_of(Node *node, struct span *span, PyObject **held);
/* The same in the bytes of the whole message, which are what is held. */
bool span_in_root(Node *node, struct span *span, PyObject **held);
/* The canonical bytes of the message of a type that the first steps of a node's place lead to, where it is small beside the whole; else NULL without an
 * exception (part.c). */
PyObject *bytes_of_small(Node *node, MessageType *type, size_t steps);
/* Those of its known fields, without the unknown records that follow them. */
bool known_span_of(Node *node, struct span *span, PyObject **held);

/* ---- The bytes that a message was decoded from (given.c) ---- */

/* A node's view of its own bytes: none, or one that was not looked at yet, or one that knows where each field begins. */
enum { NO_VIEW = 0, UNREAD = 1, READ = 2 };

/* A field of one value of a message, read of the bytes that were given: a scalar, of a field that is not set what it reads as. NULL where an exception is
 * set, or where they don't say it, and the library has to be asked. */
PyObject *given_value(Node *node, Field *field);
/* Whether a field with presence is set, by the bytes that were given: 1, 0, or -1 where they don't say it. */
int given_presence(Node *node, Field *field);
/* Lets a part that is a message or a list know its own bytes, where the message that it is in knows its own. */
void give_part(Node *part, Node *node, Field *field);
/* An element of a list, where the bytes that were given say it: 1, 0 where the list is shorter, or -1 where the library has to be asked. */
int given_element(Node *list, size_t index, struct record *element);
/* Lets a part that is an element of a list know its own bytes. */
void give_element(Node *part, const struct record *element);
/* Whether a part that is a message is there: 1, 0, or -1 where the bytes don't say it. */
int given_message(Node *part);
/* How many elements a list has, or -1. */
Py_ssize_t given_length(Node *list);
void drop_view(Node *node);

/* ---- Values (values.c) ---- */

/* A value as the library takes it; held keeps the bytes of a string or of bytes. */
struct given {
    struct mb_value value;
    PyObject *held;
};

/* What an object is as a value of a field that is no message, or as a key of a map. Returns whether it is one; else an exception is set, which names the
 * field and what it takes. */
bool give(Field *field, PyObject *object, struct given *given);
bool give_key(Field *field, PyObject *object, struct given *given);
/* The exceptions for an object of another type and for one out of range, for what a field takes, or a key of it. All return false. */
bool wrong_type(Field *field, bool is_key, PyObject *object);
bool out_of_range(Field *field, bool is_key, PyObject *object);

/* ---- Whole messages (message.c, whole.c) ---- */

/* The node of a whole message with the contents of a node that is a message: itself, or a copy of a part. A new reference. */
Node *whole_of(PyObject *self);
PyObject *message_encode(PyObject *self, PyObject *ignored);
PyObject *message_compare(PyObject *self, PyObject *other, int how);
PyObject *message_frame(PyObject *self, PyObject *ignored);
PyObject *message_copy(PyObject *self, PyObject *ignored);
PyObject *message_deep_copy(PyObject *self, PyObject *memo);
PyObject *message_merge(PyObject *self, PyObject *args, PyObject *kwargs);
PyObject *message_which_oneof(PyObject *self, PyObject *name);
PyObject *message_get_unknown(PyObject *self, void *which);
extern const char frame_doc[], copy_doc[], merge_doc[], which_oneof_doc[];

/* ---- Parts (message.c, list.c, map.c) ---- */

/* A list, a map or a message one step further in than a node, as a part. */
PyObject *make_part(Node *node, PyObject *of, struct mb_value step, PyObject *key, Field *field);
/* What is one step further in than a node, of a field; NULL, with an exception, or without one where nothing is there. */
PyObject *inner(Node *node, struct mb_value step, PyObject *key, Field *field);
PyObject *value_at(const struct reached *place, struct mb_message *handle, const struct mb_value *value);
PyObject *node_read(PyObject *self, PyObject *args);
extern const char read_doc[];
PyObject *part_repr(PyObject *self);
Py_ssize_t part_length(PyObject *self);
PyObject *part_get_field(PyObject *self, void *which);
PyObject *message_numbers(PyObject *self, PyObject *ignored);
/* The step of a key, and its bytes where it is a string: 1, 0 where no key is such an object, or -1 with an exception. */
int step_of_key(Node *node, PyObject *key, struct mb_value *step, PyObject **bytes);
PyObject *made_list_type(void);
PyObject *made_map_type(void);

/* ---- Changes (change.c) ---- */

int message_assign(PyObject *self, PyObject *name, PyObject *value);
int list_assign(PyObject *self, PyObject *index, PyObject *value);
int map_assign(PyObject *self, PyObject *key, PyObject *value);
PyObject *list_append(PyObject *self, PyObject *value);
PyObject *list_extend(PyObject *self, PyObject *values);
PyObject *part_clear(PyObject *self, PyObject *ignored);
PyObject *message_make(PyObject *self, PyObject *name);
PyObject *list_make(PyObject *self, PyObject *ignored);
PyObject *list_make_at(PyObject *self, PyObject *index);
PyObject *list_move(PyObject *self, PyObject *args);
PyObject *message_fill(PyObject *self, PyObject *bytes);
PyObject *map_make(PyObject *self, PyObject *key);
PyObject *message_drop_unknown(PyObject *self, PyObject *ignored);
PyObject *message_iter(PyObject *self);
PyObject *message_change(PyObject *self, PyObject *args);
PyObject *call_change(const char *name, PyObject *one, PyObject *two, PyObject *three);
extern const char append_doc[], extend_doc[], clear_doc[], make_doc[], make_at_doc[], move_doc[], fill_doc[], drop_unknown_doc[], change_doc[];

/* ---- Dicts and arrays (dict.c) ---- */

PyObject *message_to_dict(PyObject *self, PyObject *args, PyObject *kwargs);
PyObject *message_array(PyObject *self, PyObject *name);
extern const char to_dict_doc[], array_doc[];

#endif
