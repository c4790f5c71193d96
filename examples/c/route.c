/* route SET TYPE FIELD STREAM: reads a field from the bytes of each message of a stream. Prints where each message begins, and the value of the field. */
#include "common.h"

#include <inttypes.h>
#include <stdlib.h>
#include <string.h>

/* Prints a value, or 0 for a field that is not set. */
static void print_value(uint32_t answer, const struct mb_value *value, const uint8_t *text)
{
    if (answer != MB_DONE)
        printf("0\n");
    else if (value->kind == MB_STRING)
        printf("%.*s\n", (int)value->number, (const char *)text);
    else if (value->kind == MB_UINT32 || value->kind == MB_UINT64)
        printf("%" PRIu64 "\n", value->number);
    else
        printf("%" PRId64 "\n", (int64_t)value->number);
}

int main(int argc, char **argv)
{
    struct mb_pool pool = {0};
    struct mb_field field;
    struct mb_frame frame;
    struct mb_value value;
    struct report report;
    uint8_t text[256];
    uint32_t answer = MB_DONE;

    if (argc != 5 || mb_interface() != MB_INTERFACE) {
        fprintf(stderr, "usage: route SET TYPE FIELD STREAM\n");
        return 2;
    }
    uint32_t type = find_type(argv[1], argv[2], false, &pool);
    if (mb_pool_field(&pool, type, (const uint8_t *)argv[3], strlen(argv[3]), &field) != MB_DONE)
        return 1;
    struct buffer stream = read_file(argv[4]);
    for (size_t at = 0; at < stream.len && (answer == MB_DONE || answer == MB_ABSENT); at += frame.end) {
        const uint8_t *bytes = stream.bytes + at;
        answer = mb_frames(&pool, type, bytes, stream.len - at, MB_MAX_BYTES, MB_MAX_DEPTH, &frame, &report.fault, report.path, MB_MAX_STEPS);
        if (answer != MB_DONE)
            break;
        answer = mb_find(&pool, type, bytes + frame.begin, frame.end - frame.begin, MB_MAX_BYTES, MB_MAX_DEPTH, &field.number, 1, &value, text,
                         sizeof text, &report.fault, report.path, MB_MAX_STEPS);
        printf("%zu ", at);
        print_value(answer, &value, text);
    }
    free(stream.bytes);
    mb_pool_free(&pool);
    return answer == MB_DONE || answer == MB_ABSENT ? 0 : 1;
}
