/* The programs in this folder share these: the line of each refusal, as pbtool prints it (report.c); files, and a type of a set (files.c). */
#ifndef COMMON_H
#define COMMON_H

#include "mabristu.h"

#include <stdio.h>

/* A fault, with space for its whole path. */
struct report {
    struct mb_fault fault;
    struct mb_step path[MB_MAX_STEPS];
};

/* Bytes in a buffer that grows. The first bytes of it are read already. All zeros are no bytes. */
struct buffer {
    uint8_t *bytes;
    size_t done, len, capacity;
};

/* Prints the steps of a fault's path, and its cause. */
void print_path(FILE *out, const char *before, const struct report *report, const char *between);

/* Prints on standard error why a call on a message did not return MB_DONE. Returns the exit status: 1 for a refusal, 3 for memory. */
int print_refusal(uint32_t answer, const struct report *report);

/* Prints the part of a message that has no JSON form: the numbers of the fields that lead to it, and the cause. */
void print_json_refusal(uint32_t answer, const uint32_t *path, size_t steps);

/* Prints the byte at which a JSON text is refused, and the cause. */
void print_text_refusal(uint32_t answer, size_t byte);

/* The same for mb_pool_link. The text has the names of the refusal. */
int print_link_refusal(uint32_t answer, const struct report *report, const struct mb_refusal *refusal, const uint8_t *text);

/* The same for mb_pool_compile, for sources with these names. */
int print_compile_refusal(uint32_t answer, const struct mb_refusal *refusal, const uint8_t *text, char *const *names);

/* Gives a buffer this capacity. If memory runs out, the call reports this and exits with status 3. */
void grow(struct buffer *buffer, size_t capacity);

/* Opens and closes a file for reading. If a file cannot be opened or read, the calls report this and exit with status 3. */
FILE *open_file(const char *name);
void close_file(FILE *file, const char *name);

/* Drops the bytes of the buffer that are read already, and reads more bytes after the rest. A full buffer gets twice the capacity. Returns whether bytes
 * were read. */
bool read_more(FILE *file, struct buffer *buffer);

/* The bytes of a file. */
struct buffer read_file(const char *name);

/* Reports, in place of MB_PART, the fault of the frame in which a stream ends. The bytes of its message have a fault, or they are whole records, and end too
 * early. */
void cut_frame(struct mb_pool *pool, uint32_t type, const uint8_t *bytes, size_t len, struct report *report);

/* Removes a flag from the beginning of the words. Returns whether it was there. */
bool take_flag(const char *flag, int *argc, char ***argv);

/* Removes the word --lenient if it is the first word of the command line. Returns whether it was. */
bool take_lenient(int *argc, char ***argv);

/* Links the types of the set in a file into the pool, strictly or leniently. If there is no such set, the call reports why and exits. */
void link_set(const char *set_name, bool is_lenient, struct mb_pool *pool);

/* The same, and finds one of the types. If there is no such type, the call reports this and exits. */
uint32_t find_type(const char *set_name, const char *type_name, bool is_lenient, struct mb_pool *pool);

#endif
