#include "common.h"

#include <stdlib.h>
#include <string.h>

void grow(struct buffer *buffer, size_t capacity)
{
    buffer->capacity = capacity;
    if ((buffer->bytes = realloc(buffer->bytes, capacity)) == NULL) {
        fprintf(stderr, "memory\n");
        exit(3);
    }
}

FILE *open_file(const char *name)
{
    FILE *file = fopen(name, "rb");
    if (file == NULL) {
        fprintf(stderr, "device %s\n", name);
        exit(3);
    }
    return file;
}

void close_file(FILE *file, const char *name)
{
    if (ferror(file)) {
        fprintf(stderr, "device %s\n", name);
        exit(3);
    }
    fclose(file);
}

bool read_more(FILE *file, struct buffer *buffer)
{
    buffer->len -= buffer->done;
    if (buffer->done > 0)
        memmove(buffer->bytes, buffer->bytes + buffer->done, buffer->len);
    buffer->done = 0;
    if (buffer->len == buffer->capacity)
        grow(buffer, buffer->capacity == 0 ? 4096 : 2 * buffer->capacity);
    size_t count = fread(buffer->bytes + buffer->len, 1, buffer->capacity - buffer->len, file);
    buffer->len += count;
    return count > 0;
}

struct buffer read_file(const char *name)
{
    FILE *file = open_file(name);
    struct buffer buffer = {0};
    while (read_more(file, &buffer))
        ;
    close_file(file, name);
    return buffer;
}

void cut_frame(struct mb_pool *pool, uint32_t type, const uint8_t *bytes, size_t len, struct report *report)
{
    size_t begin = 0;

    while (begin < len && bytes[begin++] >= 0x80)
        ;
    report->fault = (struct mb_fault){.byte = len - begin, .cause = MB_TRUNCATED};
    mb_check(pool, type, bytes + begin, len - begin, MB_MAX_BYTES, MB_MAX_DEPTH, &report->fault, report->path, MB_MAX_STEPS);
    report->fault.byte += begin;
}

bool take_flag(const char *flag, int *argc, char ***argv)
{
    if (*argc < 2 || strcmp((*argv)[1], flag) != 0)
        return false;
    --*argc;
    ++*argv;
    return true;
}

bool take_lenient(int *argc, char ***argv)
{
    return take_flag("--lenient", argc, argv);
}

void link_set(const char *set_name, bool is_lenient, struct mb_pool *pool)
{
    struct buffer set = read_file(set_name), text = {0};
    struct mb_refusal refusal = {0};
    struct report report;
    size_t left_out;
    uint32_t answer;

    /* If the names are longer than the buffer, the call reports their lengths: link again with a buffer of this length. */
    do {
        grow(&text, refusal.file_len + refusal.name_len + 256);
        if (is_lenient)
            answer = mb_pool_link_lenient(set.bytes, set.len, pool, &left_out, &report.fault, report.path, MB_MAX_STEPS, &refusal, text.bytes, text.capacity);
        else
            answer = mb_pool_link(set.bytes, set.len, pool, &report.fault, report.path, MB_MAX_STEPS, &refusal, text.bytes, text.capacity);
    } while (answer != MB_DONE && refusal.file_len + refusal.name_len > text.capacity);
    if (answer != MB_DONE)
        exit(print_link_refusal(answer, &report, &refusal, text.bytes));
    free(text.bytes);
    free(set.bytes);
}

uint32_t find_type(const char *set_name, const char *type_name, bool is_lenient, struct mb_pool *pool)
{
    uint32_t type;

    link_set(set_name, is_lenient, pool);
    if (mb_pool_type(pool, (const uint8_t *)type_name, strlen(type_name), &type) != MB_DONE) {
        fprintf(stderr, "type %s unknown\n", type_name);
        mb_pool_free(pool);
        exit(1);
    }
    return type;
}
