/* What the extensions for SQLite and PostgreSQL share: sets and their types by name, paths, values, frames, and the lines of refusals. No function here
 * jumps out, prints anything, or keeps a pointer to what it is given; the sets are the one thing that is kept. */
#ifndef MABRISTU_SQL_H
#define MABRISTU_SQL_H

#include <stdbool.h>
#include <stddef.h>
#include <stdint.h>

#include "mabristu.h"

#pragma GCC visibility push(hidden)

/* The shapes of struct mb_field, and kinds that a field declares and a value is not reported with, by the numbers of descriptor.proto. */
enum { SHAPE_IMPLICIT = 0, SHAPE_LIST = 3, SHAPE_MAP = 4 };
enum { KIND_FIXED64 = 6, KIND_FIXED32 = 7, KIND_GROUP = 10, KIND_SFIXED32 = 15, KIND_SFIXED64 = 16, KIND_SINT32 = 17, KIND_SINT64 = 18 };

static inline bool is_message_kind(uint32_t kind)
{
    return kind == MB_MESSAGE || kind == KIND_GROUP;
}

/* ---- Refusals (report.c) ---- */

enum reason { FINE, UNKNOWN_TYPE, BAD_NAME, BAD_SET, BAD_PATH, BAD_BYTES, BAD_JSON, NO_JSON_FORM, RESULT_TOO_LARGE, OUT_OF_MEMORY };

/* Why a call gives no value, as a line like those that pbtool prints: in ASCII, ended by a zero byte. A path has MB_MAX_STEPS steps at most, each of at
 * most 22 bytes with its dot; then comes the path with names, as far as the line holds it. */
struct problem {
    enum reason reason;
    char line[22 * MB_MAX_STEPS + 1600];
};

/* A message type of a set. */
struct type {
    struct mb_pool *pool;
    uint32_t number;
};

/* A fault of bytes, and its whole path. */
struct report {
    struct mb_fault fault;
    struct mb_step path[MB_MAX_STEPS];
};

/* Bytes that are printed in a line: the first ones, each that is not printable ASCII as a question mark. */
struct shown {
    char text[104];
};
struct shown show(const void *at, size_t len);

/* All return false, so that a caller returns what they return. */
bool refuse(struct problem *problem, enum reason reason, const char *format, ...) __attribute__((format(printf, 3, 4)));
/* For an answer of a call that reports no fault, and is not MB_DONE. */
bool refuse_answer(struct problem *problem, uint32_t answer);
/* The same for a call on bytes of a type. The words come first in the line of a fault, and the path with the names of its fields last. */
bool refuse_bytes(struct problem *problem, uint32_t answer, const char *before, const struct report *report, const struct type *type);
/* For the causes of JSON: the byte of a text, or the field numbers of a path. */
bool refuse_text(struct problem *problem, uint32_t answer, size_t byte);
bool refuse_json(struct problem *problem, uint32_t answer, const uint32_t *path, size_t steps);
/* For an answer of a call that links a set. */
bool refuse_link(struct problem *problem, uint32_t answer, const struct report *report, const struct mb_refusal *refusal, const uint8_t *text, size_t text_len);

/* ---- Sets and types (sets.c) ---- */

/* A registered set: what its name and its bytes were, and its types. */
struct set {
    struct set *next;
    struct mb_pool pool;
    bool is_lenient;
    size_t name_len, bytes_len;
    uint8_t *name, *bytes;
};

/* Sets in the order in which they were registered. All zeros are none. */
struct sets {
    struct set *first;
};

/* Links a set and puts it after the others. The same set under the same name changes nothing; another set under this name is refused. Reports how many
 * message types the set has. */
bool add_set(struct sets *sets, struct mb_bytes name, struct mb_bytes bytes, bool is_lenient, size_t *types, struct problem *problem);
void free_sets(struct sets *sets);

/* Finds a type by its full name, in the first set that has it; or by the name of a set, a slash and its full name, in that set. */
bool find_type(struct sets *sets, struct mb_bytes name, struct type *type, struct problem *problem);

/* ---- Paths (path.c) ---- */

/* A message nests 100 levels deep at most: so a path has at most 101 fields, each with an index or a key after it. */
enum { MOST_FIELDS = 101, MOST_STEPS = 2 * MOST_FIELDS };

/* What a path means in a type. */
struct plan {
    struct type type;
    struct mb_value steps[MOST_STEPS];
    size_t len;
    struct mb_bytes keys[MOST_FIELDS];
    size_t keys_len;
    struct mb_field fields[MOST_FIELDS];
    uint32_t numbers[MOST_FIELDS]; /* of the fields */
    size_t fields_len;
    bool is_direct;                /* whether no field is a list or a map */
    bool is_whole;                 /* whether the path ends at a list or a map, and not inside */
    uint32_t owner;                /* the message type that has the last field */
    size_t type_len, path_len;     /* of the words that the plan was made of, after which the keys come */
    uint8_t words[];
};

/* The last field of a path. */
static inline const struct mb_field *last_of(const struct plan *plan)
{
    return &plan->fields[plan->fields_len - 1];
}

/* How many bytes the plan of a type and a path takes. */
size_t plan_size(struct mb_bytes type, struct mb_bytes path);
/* Makes the plan of a path in memory of that size. */
bool make_plan(struct plan *plan, const struct type *type, struct mb_bytes name, struct mb_bytes path, struct problem *problem);
/* Whether a plan was made of these words. */
bool is_plan_of(const struct plan *plan, struct mb_bytes name, struct mb_bytes path);

/* ---- Values (read.c, inside.c) ---- */

/* The memory of results. A result has this many bytes before it, for the database, and no more than `most` bytes. `take` returns NULL if there is none. */
struct memory {
    void *(*take)(size_t size);
    void (*drop)(void *at);
    size_t before;
    size_t most;
};

/* Bytes in a block of that memory; `at` is where the block begins. */
struct result {
    uint8_t *at;
    size_t len;
};

/* What a value is in SQL. The number is as in struct mb_value. */
enum form { FORM_NULL, FORM_SIGNED, FORM_UNSIGNED, FORM_BOOL, FORM_FLOAT, FORM_DOUBLE, FORM_TEXT, FORM_BYTES, FORM_JSON };

struct answer {
    enum form form;
    uint64_t number;
    struct result result; /* of text, bytes and JSON */
};

bool take_result(const struct memory *memory, size_t len, struct result *result, struct problem *problem);

/* The value at a path of a message. */
bool get(const struct plan *plan, struct mb_bytes message, const struct memory *memory, struct answer *answer, struct problem *problem);
/* The message as JSON, and the canonical bytes of a message in JSON. */
bool json_of(const struct type *type, struct mb_bytes message, const struct memory *memory, struct result *json, struct problem *problem);
bool message_of(const struct type *type, struct mb_bytes json, const struct memory *memory, struct result *message, struct problem *problem);
/* Whether the bytes are a message. */
bool check(const struct type *type, struct mb_bytes message, struct problem *problem);

/* The bytes of the message that steps lead to, in the canonical bytes of another. Returns false if nothing is there. */
bool go_inside(const struct plan *plan, size_t steps, struct mb_bytes *bytes);
/* The records of a field in the canonical bytes of a message, which come one after another. */
struct mb_bytes records_of(struct mb_bytes message, uint32_t number);

/* ---- Frames (frames.c) ---- */

/* A frame of a stream, and whether it is the last one that can be read. */
struct row {
    size_t at, begin, end; /* where the frame, and its message, begin and end in the stream */
    bool is_refused;
    bool has_bytes;        /* whether its length could be read */
    size_t next;           /* where the next frame begins, or the length of the stream */
};

/* Reads the frame of an index that begins there, before the end of the stream. Returns false only if memory runs out. */
bool next_row(const struct type *type, struct mb_bytes stream, size_t at, uint64_t index, struct row *row, struct problem *problem);

#pragma GCC visibility pop

#endif
