/* Mabristu for C: checks, decodes, changes, encodes and prints Protocol Buffers messages. It learns their types at run time, and its code is proved.
 *
 * First link a pool of types, from a descriptor set or from sources. Then find the number of a message type by its name, and check, rewrite or print
 * messages of this type. Free the pool at the end. Names and sources are bytes with a length; no zero byte ends them. docs/C.md has examples.
 *
 * Who owns what:
 * - You own each buffer, name and struct that you pass. No call keeps a pointer to them.
 * - The library owns what a handle holds: a pool, a message or a decoder. You keep the handle, 16 bytes that are all zeros at first.
 * - Free each handle when you are done: mb_pool_free, mb_message_free, mb_decoder_free. A second free does nothing.
 * - A call that puts something into a handle frees what the handle held before.
 * - Do not copy a handle that holds something. mb_pool_share and mb_message_copy fill a second handle.
 * - A message and a decoder hold the types that they need, so you may free their pool before them.
 * - One call at a time uses a handle, on any thread.
 * - A buffer that is too small is filled, and the whole length is reported: call again with a buffer of that length.
 * - Each call returns MB_DONE, or a number that says why the call failed. Then it reports what its comment says, and writes nothing else.
 * - Memory comes from malloc. After MB_MEMORY nothing has changed, with two exceptions: a decoder has lost its message, and a handle into which a
 *   pool was linked holds nothing.
 *
 * Rules for the caller, which nothing checks:
 * - A pointer and the length after it describe one block of memory. During the whole call, the block may be read, and if it is not const, written.
 *   If the length is 0, the pointer may be null. No other pointer may be null.
 * - A pointer to a struct, to a number or to a list of steps is aligned as C asks for its type.
 * - A list of struct mb_bytes is aligned too, and each of its pointers and lengths keeps the same rules.
 * - The memory that a call may write overlaps no other memory that the call is given.
 * - The bytes that a call reads do not change during the call. No other thread writes them. If they are a mapped file, nobody writes or shortens
 *   the file.
 * - A handle is all zeros, or as a call left it. Only these calls write it, and nobody copies it while it holds something.
 * - One call at a time uses a handle. If two threads use one handle, a lock, or the start or end of a thread, orders their calls. If two threads use
 *   one pool at once, each has its own handle (mb_pool_share).
 * - malloc, realloc and free come from one allocator, which may be called. So make no call from a signal handler, nor in the child of a fork of a
 *   process with threads. The allocator aligns a block to each power of two up to 16 that divides the size of the block.
 *
 * A call prints nothing, keeps no state outside its handles, and always returns: it never aborts. It needs up to 500 KB of stack, for messages that
 * nest 100 deep (docs/C.md). An output that a call does not report keeps its value from before the call.
 */
#ifndef MABRISTU_H
#define MABRISTU_H

#include <stdbool.h>
#include <stddef.h>
#include <stdint.h>

#ifdef __cplusplus
extern "C" {
#endif

/* The version of the calls in this header. A library whose mb_interface returns another number has other calls. */
#define MB_INTERFACE 10
uint32_t mb_interface(void);

/* The answers of calls. Numbers from 50 on are causes why a set, a source or declarations are refused; docs/ERRORS.md lists them. */
enum {
    MB_DONE = 0,        /* the call did its work */
    MB_BAD_LIMITS = 1,  /* a limit is above MB_MAX_BYTES or MB_MAX_DEPTH */
    MB_NO_TYPE = 2,     /* the pool has no message type of this name or number */
    MB_EMPTY = 3,       /* the handle holds nothing: nothing was put into it, linking was refused, or it was freed */
    MB_BAD_NAME = 4,    /* the name of a source is not UTF-8, or there are not as many names as sources */
    MB_PART = 5,        /* the bytes end before the end of their frame: call again with more bytes */
    MB_ABSENT = 6,      /* the type has no such field; the message has nothing at the place, or nothing that the call needs there */
    MB_BAD_PLACE = 7,   /* a step has a kind that this header does not have, a number that is too large, or a string that is missing or not UTF-8 */
    MB_BAD_VALUE = 8,   /* the value has a kind that this header does not have, a number that is too large, or a string that is missing or not UTF-8 */
    MB_FAULT = 13,      /* the bytes have a fault, which the call reports */
    MB_MEMORY = 14,     /* memory ran out: you may make the same call again, except mb_decoder_feed and mb_decoder_finish */
    MB_TOO_LARGE = 31,  /* the output would have more than MB_MAX_BYTES bytes */
    MB_FINISHED = 43    /* the decoder has given its message or its fault, or memory ran out and it lost its message */
};

/* Why bytes are refused. */
enum {
    MB_TRUNCATED = 1, MB_PAST_END = 2, MB_VARINT_TOO_LONG = 3, MB_TAG_TOO_LARGE = 4, MB_NUMBER_ZERO = 5, MB_BAD_TYPE = 6,
    MB_STRAY_END = 7, MB_WRONG_END = 8, MB_LENGTH_TOO_LARGE = 9, MB_BAD_TEXT = 10, MB_TOO_DEEP = 11, MB_INPUT_TOO_LARGE = 12
};

/* Writes the name of the cause of a number, as docs/ERRORS.md lists it: the cause of a struct mb_fault, or an answer from 21 on. The call writes as
 * much as the buffer holds, and reports the whole length. MB_ABSENT: no cause has this number. */
uint32_t mb_cause_name(uint32_t cause, uint8_t *name, size_t name_len, size_t *size);

/* The greatest limits. Each call on bytes takes two limits: the most bytes of the input, and the most levels of messages and groups. */
#define MB_MAX_BYTES UINT32_C(0x7fffffff)
#define MB_MAX_DEPTH UINT8_C(100)
/* A path has at most this many steps: two for each level, and one into the record that has the fault. A map entry is a step, and the message in the
 * entry, which has the same level, is another step. A buffer of this many steps always holds the path. */
#define MB_MAX_STEPS 201

/* A fault of bytes. */
struct mb_fault {
    uint64_t byte;   /* where, counted from 0 */
    size_t steps;    /* how many steps the path has, also if the buffer holds fewer */
    uint32_t cause;  /* why */
};

/* A step of a path, outermost first: the field number of a record, and the count of whole records of this number before it in its parent. */
struct mb_step {
    uint32_t number;
    uint32_t before;
};

/* ---- Without a schema ---- */

/* Checks that the bytes are records. For MB_FAULT the call reports the fault, and as many steps of its path as the buffer holds. */
uint32_t mb_raw_check(const uint8_t *bytes, size_t bytes_len, uint32_t max_bytes, uint8_t max_depth,
                      struct mb_fault *fault, struct mb_step *path, size_t path_len);

/* Writes the shortest encoding of the records in the bytes. For MB_DONE the call reports the length of this encoding, and writes as much as the buffer
 * holds. If the length is above out_len, call again with a buffer of this length. */
uint32_t mb_raw_short(const uint8_t *bytes, size_t bytes_len, uint32_t max_bytes, uint8_t max_depth,
                      uint8_t *out, size_t out_len, size_t *size,
                      struct mb_fault *fault, struct mb_step *path, size_t path_len);

/* ---- A pool of types ---- */

/* The handle of a pool of types. If it is all zeros, it holds nothing. */
struct mb_pool {
    void *at;
    bool full;
};

/* Where declarations are refused. Fields that do not belong to the answer are 0. */
struct mb_refusal {
    size_t file;      /* the index of the file in the set, or of the source */
    uint64_t byte;    /* for a source: where, counted from 0 */
    size_t file_len;  /* for linking: the length of the file's name, with which the text begins */
    size_t name_len;  /* for linking: the length of the declaration's full name, which follows the file's name in the text */
};

/* Links the types of a descriptor set into a handle, and frees what the handle held before. `protoc --include_imports --descriptor_set_out` and
 * `pbtool compile` write descriptor sets. The pool keeps the names that the set gives to fields in JSON (the option json_name). If the call does not
 * return MB_DONE, the handle holds nothing. For MB_FAULT (the bytes are no set) the call reports the fault. For 52 to 60 (a file of the set) and 71
 * to 89 (linking) it reports the refusal, and writes the names of the file and of the declaration as far as the buffer holds them. */
uint32_t mb_pool_link(const uint8_t *set, size_t set_len, struct mb_pool *pool,
                      struct mb_fault *fault, struct mb_step *path, size_t path_len,
                      struct mb_refusal *refusal, uint8_t *text, size_t text_len);

/* Links a set as mb_pool_link does, but leaves out the parts that mb_pool_link refuses: extensions, ranges of extensions and default values. A
 * required field counts as optional. A map with values of a closed enum becomes a list of its entries. For MB_DONE the call reports how many parts
 * it left out. In a message, the records of a field that was left out are unknown records, and are kept. */
uint32_t mb_pool_link_lenient(const uint8_t *set, size_t set_len, struct mb_pool *pool, size_t *left_out,
                              struct mb_fault *fault, struct mb_step *path, size_t path_len,
                              struct mb_refusal *refusal, uint8_t *text, size_t text_len);

/* Bytes that belong to the caller: a name, a source or a string. */
struct mb_bytes {
    const uint8_t *at;
    size_t len;
};

/* Links the types of sources of proto3. One list has the name of each source, as imports name it. The other list has the source itself at the same
 * index. Each file that a source imports has to be among the sources, also google/protobuf/timestamp.proto. The answers are those of mb_pool_link,
 * with two differences. For 50 and 61 to 69 (a source) the refusal has the source's index and the byte. And the option json_name is left out: if you
 * want these names in JSON, link a compiled set. */
uint32_t mb_pool_compile(const struct mb_bytes *names, size_t names_len, const struct mb_bytes *texts, size_t texts_len, struct mb_pool *pool,
                         struct mb_refusal *refusal, uint8_t *text, size_t text_len);

/* Links sources as mb_pool_compile does, but takes all of proto3, and proto2. The call leaves out custom options, constants in braces, default values,
 * blocks of extend and ranges of extensions. In a file of proto2, a map with values of an enum becomes a list of its entries. */
uint32_t mb_pool_compile_lenient(const struct mb_bytes *names, size_t names_len, const struct mb_bytes *texts, size_t texts_len, struct mb_pool *pool,
                                 struct mb_refusal *refusal, uint8_t *text, size_t text_len);

/* Puts the pool of one handle into another handle too, and frees what the other handle held before. Both handles hold one pool, which is freed with the
 * last of them. Two threads may use the two handles at once. If the call does not return MB_DONE, the other handle does not change. */
uint32_t mb_pool_share(struct mb_pool *pool, struct mb_pool *other);

/* Writes a descriptor set that declares the pool's types, as mb_raw_short writes an encoding. If you link this set, you get the same types. The set
 * has no services and no options, since a pool does not hold them. MB_TOO_LARGE: the set would have more than MB_MAX_BYTES bytes. 27: the set would
 * nest more than 100 levels deep. */
uint32_t mb_pool_set(struct mb_pool *pool, uint8_t *out, size_t out_len, size_t *size);

/* Frees what a handle holds. A handle that holds nothing does not change. */
void mb_pool_free(struct mb_pool *pool);

/* Reports the number of the message type with a full name, such as shop.Order. The type has this number in each handle that shares the pool. In
 * another pool the number may mean another type. */
uint32_t mb_pool_type(struct mb_pool *pool, const uint8_t *name, size_t name_len, uint32_t *type);

/* A field. Its kind is the number of a type in descriptor.proto: 5 for int32, 9 for string, 11 for a message, 14 for an enum. */
struct mb_field {
    uint32_t number;
    uint32_t kind;   /* of its values, 1 to 18 */
    uint32_t shape;  /* 0: one value with implicit presence; 1: one value with explicit presence; 2: a member of a oneof; 3: a list; 4: a map */
    uint32_t key;    /* for a map the kind of its keys, else 0 */
    size_t type_of;  /* the number of the message type or enum of its values, else 0 */
};

/* Reports the field with a simple name, such as number, of the message type. */
uint32_t mb_pool_field(struct mb_pool *pool, uint32_t type, const uint8_t *name, size_t name_len, struct mb_field *field);

/* ---- What a pool declares ----
 *
 * Files, message types and enums have numbers from 0 on, in the order of the set. Fields, oneofs and values have indexes from 0 on, in the order of
 * their declarations. A call writes a name as far as the buffer holds it, and reports its whole length. Entry messages of maps do not count as message
 * types. */

struct mb_counts {
    size_t files;
    size_t messages;
    size_t enums;
};

/* Reports how many files, message types and enums the pool has. */
uint32_t mb_pool_counts(struct mb_pool *pool, struct mb_counts *counts);

/* A message type. */
struct mb_type {
    size_t file;      /* the index of its file */
    uint32_t nested;  /* 1 if it is declared in a message type, else 0 */
    size_t parent;    /* the number of this message type, else 0 */
    size_t fields;    /* how many fields it has */
    size_t oneofs;    /* how many oneofs it has */
};

/* Reports the message type of a number, with its full name. */
uint32_t mb_pool_message(struct mb_pool *pool, uint32_t type, struct mb_type *report, uint8_t *name, size_t name_len, size_t *size);

/* Reports the field at an index of a message type, with its name and a detail of its shape. The detail is the index of the oneof for a member of a
 * oneof, 1 for a packed list, and else 0. MB_ABSENT: the type has fewer fields. */
uint32_t mb_pool_field_at(struct mb_pool *pool, uint32_t type, size_t index, struct mb_field *report, uint32_t *detail,
                          uint8_t *name, size_t name_len, size_t *size);

/* Writes the name of the oneof at an index of a message type. MB_ABSENT: the type has fewer oneofs. */
uint32_t mb_pool_oneof(struct mb_pool *pool, uint32_t type, size_t index, uint8_t *name, size_t name_len, size_t *size);

/* An enum. */
struct mb_enum {
    size_t file;      /* the index of its file */
    uint32_t nested;  /* 1 if it is declared in a message type, else 0 */
    size_t parent;    /* the number of this message type, else 0 */
    size_t values;    /* how many values it has */
};

/* Reports the enum of a number, with its full name. MB_NO_TYPE: the pool has fewer enums. */
uint32_t mb_pool_enum(struct mb_pool *pool, size_t entry, struct mb_enum *report, uint8_t *name, size_t name_len, size_t *size);

/* Reports the number of the value at an index of an enum, with its name. MB_ABSENT: the enum has fewer values. */
uint32_t mb_pool_enum_value(struct mb_pool *pool, size_t entry, size_t index, int32_t *number, uint8_t *name, size_t name_len, size_t *size);

/* A file. */
struct mb_file {
    size_t name_len;     /* the length of its name */
    size_t package_len;  /* the length of its package, which follows the name in the buffer */
    size_t imports;      /* how many files it imports */
    uint32_t proto2;     /* 1 if its syntax is proto2, else 0 */
};

/* Reports the file at an index, with its name and its package. MB_ABSENT: the pool has fewer files. */
uint32_t mb_pool_file(struct mb_pool *pool, size_t index, struct mb_file *report, uint8_t *names, size_t names_len);

/* ---- Two versions of a schema ---- */

/* What a difference between an old and a new message type does to messages of the old type that are read as the new type (docs/COMPAT.md). */
enum {
    MB_BREAKS = 1,    /* some message is refused, or its value is read as another value */
    MB_LOSES = 2,     /* the new type has no such field: the field's records become unknown records, which are kept */
    MB_PRESENCE = 3,  /* the value is kept, but not always whether it was set */
    MB_CONVERTS = 4,  /* the value is kept, in another kind or shape */
    MB_RENAMES = 5    /* the field has another name */
};

/* A difference at a field of an old message type. */
struct mb_difference {
    size_t old_type;    /* the number of the old message type */
    size_t new_type;    /* the number of the new message type */
    uint32_t number;    /* of the field */
    uint32_t severity;  /* MB_BREAKS to MB_RENAMES */
};

/* Reports the differences between a message type of an old pool and a message type of a new pool. Then it does the same for each pair of types to
 * which fields of the same number lead. The differences of a pair come by rising field number. The call writes as many differences as the buffer
 * holds, and reports how many there are. The two handles must differ: share a pool to compare two of its types. */
uint32_t mb_compat(struct mb_pool *old_pool, uint32_t old_type, struct mb_pool *new_pool, uint32_t new_type,
                   struct mb_difference *out, size_t out_len, size_t *count);

struct mb_message;

/* Makes a message that shows a break, and frees what the handle of the message held before (mb_message_new below). The message is of the old type. The
 * new type refuses its canonical bytes, or reads them as a message that does not agree with it. Give the types of the call of mb_compat, and a
 * difference that this call reported; its severity is not read. MB_ABSENT: nothing breaks at this field of these types, the comparison does not
 * reach these types, or it reaches them by more than 99 fields inside each other. If the call does not return MB_DONE, the handle of the message does
 * not change. */
uint32_t mb_compat_witness(struct mb_pool *old_pool, uint32_t old_type, struct mb_pool *new_pool, uint32_t new_type,
                           const struct mb_difference *difference, struct mb_message *message);

/* ---- Values ---- */

/* The kinds of values, by the numbers of types in descriptor.proto. The values of int32, sint32 and sfixed32 are MB_INT32. The values of uint32 and
 * fixed32 are MB_UINT32. The kinds of 64 bits are alike. MB_LIST and MB_MAP hold several values. MB_FIELD and MB_INDEX are steps of a place. */
enum {
    MB_DOUBLE = 1, MB_FLOAT = 2, MB_INT64 = 3, MB_UINT64 = 4, MB_INT32 = 5, MB_BOOL = 8, MB_STRING = 9, MB_MESSAGE = 11, MB_BYTES = 12,
    MB_UINT32 = 13, MB_ENUM = 14, MB_LIST = 19, MB_MAP = 20, MB_FIELD = 21, MB_INDEX = 22
};

/* A value, or a step of a place.
 *
 * The number of a value is: an integer, which (int64_t)number gives with its sign; 0 or 1 for MB_BOOL; the bits for MB_FLOAT and MB_DOUBLE; the count
 * of bytes for MB_STRING and MB_BYTES; the count of values for MB_LIST and MB_MAP; the number of the type for MB_MESSAGE.
 *
 * The number of a step is: the number of a field, after a message (MB_FIELD); an index, counted from 0, after a list (MB_INDEX); a key, after a map. A
 * key has the kind of the map's keys, here or in struct mb_field. A string is in the list of keys beside the steps, and the number is its index
 * there. For example, {MB_FIELD, 3}, {MB_INDEX, 2}, {MB_FIELD, 3} is the price of lines[2]. {MB_FIELD, 4}, {MB_STRING, 0}, with the one key "may",
 * is discounts["may"]. */
struct mb_value {
    uint32_t kind;
    uint64_t number;
};

/* The size of a place that a path names. */
struct mb_steps {
    size_t steps;    /* how many steps it has */
    size_t strings;  /* how many of the steps are strings */
    size_t bytes;    /* how many bytes these strings have */
    size_t byte;     /* where the path is refused, counted from 0; else 0 */
};

/* Turns a path with the names of fields into the steps of a place in messages of the type: lines[2].article into {MB_FIELD, 3}, {MB_INDEX, 2},
 * {MB_FIELD, 1}. A path has the names of fields, with dots between them. After a list there is an index in brackets, as lines[2], or the path ends.
 * After a map there is a key in brackets, or the path ends. A key is a number, true, false, or a string in double quotes, as discounts["may"]. In a
 * string, \", \\ and \x with two digits stand for a byte. The empty path is the message itself.
 *
 * For MB_DONE the call writes the steps, the lengths of the strings among them, and the strings one after another, as far as the buffers hold them.
 * It reports how many there are. The number of a step with a string is the string's index. MB_ABSENT: at the reported byte, no name of a field
 * begins. MB_BAD_PLACE: at the reported byte, the path has a part that cannot be there, as an index after a field of one value. */
uint32_t mb_path(struct mb_pool *pool, uint32_t type, const uint8_t *path, size_t path_len, struct mb_value *place, size_t place_len,
                 size_t *lengths, size_t lengths_len, uint8_t *strings, size_t strings_len, struct mb_steps *report);

/* ---- Messages of a type ---- */

/* Checks that the bytes are a message of the type. For MB_FAULT the call reports the fault as mb_raw_check does. */
uint32_t mb_check(struct mb_pool *pool, uint32_t type, const uint8_t *bytes, size_t bytes_len, uint32_t max_bytes, uint8_t max_depth,
                  struct mb_fault *fault, struct mb_step *path, size_t path_len);

/* Finds the scalar at a path of field numbers, without building the message. Each number but the last is a field of one message; the last is a field of
 * one scalar. For MB_DONE the call reports the value, and writes as much of a string or bytes as the buffer holds. MB_ABSENT: the field or a message
 * on the way is not set, or the path names no field of one scalar. The call checks all bytes as mb_check does. */
uint32_t mb_find(struct mb_pool *pool, uint32_t type, const uint8_t *bytes, size_t bytes_len, uint32_t max_bytes, uint8_t max_depth,
                 const uint32_t *numbers, size_t numbers_len, struct mb_value *value, uint8_t *out, size_t out_len,
                 struct mb_fault *fault, struct mb_step *path, size_t path_len);

/* Writes the canonical bytes of the message, as mb_raw_short writes its encoding. Equal messages have equal canonical bytes. */
uint32_t mb_canon(struct mb_pool *pool, uint32_t type, const uint8_t *bytes, size_t bytes_len, uint32_t max_bytes, uint8_t max_depth,
                  uint8_t *out, size_t out_len, size_t *size,
                  struct mb_fault *fault, struct mb_step *path, size_t path_len);

/* Writes the listing of the message, as `pbtool show` prints it. */
uint32_t mb_show(struct mb_pool *pool, uint32_t type, const uint8_t *bytes, size_t bytes_len, uint32_t max_bytes, uint8_t max_depth,
                 uint8_t *out, size_t out_len, size_t *size,
                 struct mb_fault *fault, struct mb_step *path, size_t path_len);

/* Writes the listing as mb_show does, but with floats in decimal: the fewest digits that read back as the same bits, or nan, inf or -inf. */
uint32_t mb_show_decimal(struct mb_pool *pool, uint32_t type, const uint8_t *bytes, size_t bytes_len, uint32_t max_bytes, uint8_t max_depth,
                         uint8_t *out, size_t out_len, size_t *size,
                         struct mb_fault *fault, struct mb_step *path, size_t path_len);

/* A frame: a message after its length. */
struct mb_frame {
    size_t begin;  /* where the message begins */
    size_t end;    /* where the message ends: how many bytes the frame has */
};

/* Checks the first frame of the bytes: a message of the type after its length. For MB_DONE the call reports where the message is. MB_PART: call again
 * with more bytes. The byte of a fault counts from the first byte of the length.
 *
 * For MB_FAULT and MB_PART the call also reports begin and end by the length, even if the message is refused or not complete. To go on after a refused
 * frame, skip end bytes. If the length cannot be read, begin and end are 0, and the next frame cannot be found. An end above SIZE_MAX is reported as
 * SIZE_MAX. */
uint32_t mb_frames(struct mb_pool *pool, uint32_t type, const uint8_t *bytes, size_t bytes_len, uint32_t max_bytes, uint8_t max_depth,
                   struct mb_frame *frame, struct mb_fault *fault, struct mb_step *path, size_t path_len);

/* ---- A message that stays with the library ---- */

/* The handle of a message, with the pool of its type. If it is all zeros, it holds nothing. */
struct mb_message {
    void *at;
    bool full;
};

/* Makes an empty message of the type, and frees what the handle of the message held before. The message holds the pool too: the pool is freed with
 * the last handle that holds it. If the call does not return MB_DONE, the handle of the message does not change. */
uint32_t mb_message_new(struct mb_pool *pool, uint32_t type, struct mb_message *message);

/* Decodes the bytes as a message of the type, and frees what the handle of the message held before. The answers are those of mb_check. If the bytes
 * are canonical, the handle holds a copy of them. The first call that needs the fields builds the fields, and may answer MB_MEMORY. */
uint32_t mb_message_decode(struct mb_pool *pool, uint32_t type, const uint8_t *bytes, size_t bytes_len, uint32_t max_bytes, uint8_t max_depth,
                           struct mb_message *message, struct mb_fault *fault, struct mb_step *path, size_t path_len);

/* Puts a copy of the message of one handle into another handle, and frees what the other handle held before. If the call does not return MB_DONE, the
 * other handle does not change. MB_TOO_LARGE: the message has more than MB_MAX_BYTES canonical bytes. */
uint32_t mb_message_copy(struct mb_message *message, struct mb_message *other);

/* Reports 1 if two messages are equal, else 0. Equal messages have the same type, of equal pools, the same fields, and the same unknown records in the
 * same order. Floats are compared by their bits. The two handles must differ: if they may be one handle, compare the pointers first. MB_TOO_LARGE: as
 * for mb_message_copy. */
uint32_t mb_message_equal(struct mb_message *message, struct mb_message *other, uint32_t *equal);

/* Merges the bytes into the message. The result is the message that its canonical bytes, followed by these bytes, encode. So a scalar is replaced, a
 * message in a field is merged, a list gets more elements, and an entry of a map replaces the entry of the same key. If the call does not return
 * MB_DONE, the message does not change. MB_TOO_LARGE: as for mb_message_copy. */
uint32_t mb_message_merge(struct mb_message *message, const uint8_t *bytes, size_t bytes_len, uint32_t max_bytes, uint8_t max_depth,
                          struct mb_fault *fault, struct mb_step *path, size_t path_len);

/* Writes the canonical bytes of the message. For MB_DONE the call reports their number, and writes as many as the buffer holds. */
uint32_t mb_message_encode(struct mb_message *message, uint8_t *out, size_t out_len, size_t *size);

/* Writes the message as a frame of a stream: the number of its canonical bytes as a varint, and then these bytes. The call writes and reports as
 * mb_message_encode does. */
uint32_t mb_message_frame(struct mb_message *message, uint8_t *out, size_t out_len, size_t *size);

/* Reports how many canonical bytes the message has. It takes no memory. */
uint32_t mb_message_encoded_length(struct mb_message *message, size_t *size);

/* Writes the listing of the message, as `pbtool show` prints it. The call writes and reports as mb_message_encode does. */
uint32_t mb_message_show(struct mb_message *message, uint8_t *out, size_t out_len, size_t *size);

/* Writes the listing as mb_message_show does, but with floats in decimal, as mb_show_decimal writes them. */
uint32_t mb_message_show_decimal(struct mb_message *message, uint8_t *out, size_t out_len, size_t *size);

/* A form of the text format. With all flags false it is the form of `protoc --decode`. `single_line` puts all fields on one line, with a blank after
 * each. `utf8` writes strings as they are; otherwise each byte that is not ASCII is escaped. `omit_unknown` omits the records that no field of the type
 * has, also in messages inside. docs/TEXT.md has the format. */
struct mb_text_form {
    bool single_line;
    bool utf8;
    bool omit_unknown;
};

/* Writes the message in the text format, in this form. The call writes and reports as mb_message_encode does. */
uint32_t mb_message_text(struct mb_message *message, const struct mb_text_form *form, uint8_t *out, size_t out_len, size_t *size);

/* Why a part of a message has no JSON form. In this order: a google.protobuf.Value holds nothing; a Value holds a NaN or an infinity; a Timestamp or a
 * Duration is out of range; a path of a FieldMask would not be read back; an Any holds no message of a type of its pool. */
enum { MB_JSON_NO_KIND = 91, MB_JSON_NOT_FINITE = 92, MB_JSON_OUT_OF_RANGE = 93, MB_JSON_BAD_PATH = 94, MB_JSON_UNSUPPORTED = 95 };

/* Writes the message as JSON (ProtoJSON), indented or on one line. The call writes and reports as mb_message_encode does. With declared_names, fields
 * have their declared names. Otherwise a field has the name that the pool's set gives it (json_name), and if the set gives none, its name in
 * lowerCamelCase. A message does not hold these names. So give the pool of the message's type, or another pool of the same set. For MB_JSON_NO_KIND
 * and the numbers after it, the call reports the first part without a JSON form: it writes the numbers of the fields that lead there, as many as the
 * buffer holds, and reports how many there are. */
uint32_t mb_message_json(struct mb_pool *pool, struct mb_message *message, bool declared_names, bool indented,
                         uint8_t *out, size_t out_len, size_t *size, uint32_t *path, size_t path_len, size_t *steps);

/* Why a JSON text is not read as a message. In this order: a byte cannot be there in a JSON text; the text ends too early; the text is not UTF-8; the
 * text or the message nests too deep; a member has a name that no field has; a second member names the same field or key; a second member sets a
 * field of the same oneof; a name is no key of the map; a value does not fit the field. */
enum {
    MB_JSON_UNEXPECTED_BYTE = 101, MB_JSON_UNEXPECTED_END = 102, MB_JSON_BAD_UTF8 = 103, MB_JSON_TOO_DEEP = 104, MB_JSON_UNKNOWN_NAME = 105,
    MB_JSON_REPEATED_NAME = 106, MB_JSON_SECOND_MEMBER = 107, MB_JSON_BAD_KEY = 108, MB_JSON_BAD_VALUE = 109
};

/* Reads a message from JSON (ProtoJSON), and frees what the handle of the message held before. The message holds its types, so you may free the pool
 * before the message. A member names the field to which the pool's set gives this name (json_name). If there is no such field, it names the field
 * with this declared name. If there is none either, it names the field without a given name that has this name in lowerCamelCase. `lenient` skips
 * members that no field has, and strings that an enum does not declare. For MB_JSON_UNEXPECTED_BYTE and the numbers after it, the call reports the
 * byte, counted from 0, where the refused part begins. Only MB_DONE changes the message. */
uint32_t mb_message_from_json(struct mb_pool *pool, uint32_t type, const uint8_t *json, size_t json_len, bool lenient, struct mb_message *message,
                              size_t *byte);

/* Reads a message from JSON as mb_message_from_json does, and writes its canonical bytes as mb_message_encode does. No handle holds the message. For
 * MB_JSON_UNEXPECTED_BYTE and the numbers after it, the call reports the byte. */
uint32_t mb_from_json(struct mb_pool *pool, uint32_t type, const uint8_t *json, size_t json_len, bool lenient,
                      uint8_t *out, size_t out_len, size_t *size, size_t *byte);

/* Reports the value at a place: a scalar, or the kind and the size of a string, bytes, list, map or message. A place is a list of steps into the
 * message; no steps are the message itself. MB_ABSENT: a field is not set, a list is shorter, a map has no such key, or a step does not fit. An empty
 * list or map, and a field without presence that has its default value, are not set. MB_BAD_PLACE: a step has a kind that is not listed above, a
 * number that is too large, or a string that is not among the keys or not UTF-8. */
uint32_t mb_message_get(struct mb_message *message, const struct mb_value *place, size_t place_len, const struct mb_bytes *keys, size_t keys_len,
                        struct mb_value *value);

/* Writes the string or the bytes at a place. The call writes and reports as mb_message_encode does. */
uint32_t mb_message_read(struct mb_message *message, const struct mb_value *place, size_t place_len, const struct mb_bytes *keys, size_t keys_len,
                         uint8_t *out, size_t out_len, size_t *size);

/* Writes the numbers of the fields that are set in the message at a place, in rising order, as many as the buffer holds. For MB_DONE the call reports
 * how many fields are set. */
uint32_t mb_message_fields(struct mb_message *message, const struct mb_value *place, size_t place_len, const struct mb_bytes *keys, size_t keys_len,
                           uint32_t *numbers, size_t numbers_len, size_t *count);

/* Reports the key at an index, counted from 0, of the map at a place. The keys are in rising order; strings are ordered by their bytes. The call writes
 * a key that is a string as far as the buffer holds it. */
uint32_t mb_message_key(struct mb_message *message, const struct mb_value *place, size_t place_len, const struct mb_bytes *keys, size_t keys_len,
                        size_t index, struct mb_value *key, uint8_t *out, size_t out_len);

/* How many keys a map has from an index on. */
struct mb_keys {
    size_t keys;   /* how many there are */
    size_t bytes;  /* how many bytes the strings among them have */
};

/* Writes the keys of the map at a place from an index on, in the order of mb_message_key, as many as the buffer for keys holds. The number of a key that
 * is a string is its length. The call writes the strings one after another into the other buffer, as far as it holds them. For MB_DONE the call
 * reports how many keys there are from the index on (0 if the index is past the last key), and how many bytes their strings have. To read all keys in
 * this way takes time in proportion to the map; mb_message_key walks to its index at each call. */
uint32_t mb_message_keys(struct mb_message *message, const struct mb_value *place, size_t place_len, const struct mb_bytes *keys, size_t keys_len,
                         size_t first, struct mb_value *found, size_t found_len, uint8_t *out, size_t out_len, struct mb_keys *counts);

/* Reports the number of the field of a oneof that is set in the message at a place. `oneof` is the index of the oneof in the message's type, as for
 * mb_pool_oneof. MB_ABSENT: no message is there, its type has no such oneof, or no field of the oneof is set. */
uint32_t mb_message_oneof(struct mb_message *message, const struct mb_value *place, size_t place_len, const struct mb_bytes *keys, size_t keys_len,
                          uint32_t oneof, uint32_t *number);

/* Writes the unknown records of the message at a place in their shortest encoding, which has 0 bytes if there are none. The call writes and reports as
 * mb_message_encode does. */
uint32_t mb_message_unknown(struct mb_message *message, const struct mb_value *place, size_t place_len, const struct mb_bytes *keys, size_t keys_len,
                            uint8_t *out, size_t out_len, size_t *size);

/* Changes at a place. A value has the form that mb_message_get reports: the kind of the field's values, here or in struct mb_field, and a number. The
 * number of a string or of bytes is an index in the list of strings, which also has the strings of the place. MB_MESSAGE is an empty message; its
 * number is not read. Set, push or insert it, and then change the fields in it. For example, lines[2].pieces = 9 is the place {MB_FIELD, 3},
 * {MB_INDEX, 2}, {MB_FIELD, 2} with the value {MB_INT32, 9}. And card = "12" is the place {MB_FIELD, 5} with the value {MB_STRING, 0} and the one
 * string "12".
 *
 * MB_ABSENT: the message whose field the call changes is not there, or the place does not end as the call needs. MB_BAD_PLACE: as for mb_message_get.
 * MB_BAD_VALUE: the value has an unknown kind, a number that is too large, or a string that is not among the strings or not UTF-8. The other answers
 * are causes why the message refuses a change. 21: the type has no such field. 22: the value or the key has another kind. 23: the field has another
 * shape, as for a push to a field of one value. 27: the message would nest more than 100 levels deep. 30: a closed enum has no such value. If the
 * call does not return MB_DONE, the message does not change. */

/* Sets the field of one value, or the element of a list, at which the place ends. Another member of the field's oneof is cleared. The default value
 * clears a field without presence. MB_ABSENT also if the list has no element at the index. */
uint32_t mb_message_set(struct mb_message *message, const struct mb_value *place, size_t place_len, const struct mb_bytes *strings, size_t strings_len,
                        const struct mb_value *value);

/* Clears the field at which the place ends, of any shape. A field that is not set stays so. */
uint32_t mb_message_clear(struct mb_message *message, const struct mb_value *place, size_t place_len, const struct mb_bytes *strings, size_t strings_len);

/* Puts a value at the end of the list at which the place ends. The list may be empty. */
uint32_t mb_message_push(struct mb_message *message, const struct mb_value *place, size_t place_len, const struct mb_bytes *strings, size_t strings_len,
                         const struct mb_value *value);

/* Puts a value under a key of a map. The place ends at the map and then the key. The map may be empty. A value under this key is replaced. */
uint32_t mb_message_insert(struct mb_message *message, const struct mb_value *place, size_t place_len, const struct mb_bytes *strings,
                           size_t strings_len, const struct mb_value *value);

/* If the place ends at a key after a map, removes the entry of this key. If there is no such entry, nothing changes. If the place ends at an index
 * after a list, removes the element, and the elements after it move up. MB_ABSENT: the list has no element at the index. */
uint32_t mb_message_remove(struct mb_message *message, const struct mb_value *place, size_t place_len, const struct mb_bytes *strings, size_t strings_len);

/* Drops the unknown records of the message at the place. Messages in it keep their unknown records. */
uint32_t mb_message_drop_unknown(struct mb_message *message, const struct mb_value *place, size_t place_len, const struct mb_bytes *strings,
                                 size_t strings_len);

/* Frees what a handle holds. A handle that holds nothing does not change. */
void mb_message_free(struct mb_message *message);

/* ---- A message that arrives in pieces ---- */

/* The handle of a decoder of a message that arrives in pieces. If it is all zeros, it holds nothing. */
struct mb_decoder {
    void *at;
    bool full;
};

/* Makes a decoder of a message of the type, and frees what its handle held before. The decoder has received no byte. The limits are for the whole
 * message. The decoder holds the pool too: the pool is freed with the last handle that holds it. If the call does not return MB_DONE, the handle of
 * the decoder does not change. */
uint32_t mb_decoder_new(struct mb_pool *pool, uint32_t type, uint32_t max_bytes, uint8_t max_depth, struct mb_decoder *decoder);

/* Gives the decoder the next piece, of any length. The decoder keeps no pointer to the piece. MB_DONE: all bytes received are a message, or the
 * beginning of a message. MB_FAULT: they have a fault that no further bytes can repair. The call reports the fault as mb_check does, and its byte
 * counts from the first piece on. After MB_FAULT and MB_MEMORY the decoder is finished: this call and mb_decoder_finish then answer MB_FINISHED. */
uint32_t mb_decoder_feed(struct mb_decoder *decoder, const uint8_t *piece, size_t piece_len, struct mb_fault *fault, struct mb_step *path,
                         size_t path_len);

/* Puts the message of all bytes received into the handle of the message, as mb_message_decode does, and frees what the handle held before. For
 * MB_FAULT the call reports the fault of these bytes. If the call does not return MB_DONE, the handle of the message does not change. After any
 * answer, the decoder is finished: this call and mb_decoder_feed then answer MB_FINISHED. */
uint32_t mb_decoder_finish(struct mb_decoder *decoder, struct mb_message *message, struct mb_fault *fault, struct mb_step *path, size_t path_len);

/* Reports how many bytes of the pieces the decoder still holds as they came. They are the beginning of a tag, a length or a number (at most ten bytes),
 * or of a string, bytes or an unknown record (at most its length). The decoder has put all other bytes into the message. If it is finished, the call
 * reports 0. */
uint32_t mb_decoder_pending(struct mb_decoder *decoder, size_t *pending);

/* Frees what a handle holds. A handle that holds nothing does not change. */
void mb_decoder_free(struct mb_decoder *decoder);

#ifdef __cplusplus
}
#endif

#endif
