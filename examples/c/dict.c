/* dict SET TYPE FILE: prints the message in a file as JSON, each member on its own line. It fails if the message that this JSON gives is another message.
 * JSON has no unknown records, so the program drops them first. */
#include "common.h"

#include <stdlib.h>

/* The JSON of a message, with declared names. If the buffer is too small, it is made larger. */
static uint32_t to_json(struct mb_pool *pool, struct mb_message *message, struct buffer *json)
{
    uint32_t path[MB_MAX_STEPS], answer;
    size_t steps;

    do {
        grow(json, json->len + 256);
        answer = mb_message_json(pool, message, true, true, json->bytes, json->capacity, &json->len, path, MB_MAX_STEPS, &steps);
    } while (answer == MB_DONE && json->len > json->capacity);
    if (answer >= MB_JSON_NO_KIND && answer <= MB_JSON_UNSUPPORTED)
        print_json_refusal(answer, path, steps);
    return answer;
}

int main(int argc, char **argv)
{
    struct mb_pool pool = {0};
    struct mb_message message = {0}, again = {0};
    struct buffer json = {0};
    struct report report;
    uint32_t equal = 0;
    size_t byte;

    if (argc != 4 || mb_interface() != MB_INTERFACE)
        return fprintf(stderr, "usage: dict SET TYPE FILE\n"), 2;
    uint32_t type = find_type(argv[1], argv[2], false, &pool);
    struct buffer file = read_file(argv[3]);
    uint32_t answer = mb_message_decode(&pool, type, file.bytes, file.len, MB_MAX_BYTES, MB_MAX_DEPTH, &message, &report.fault, report.path, MB_MAX_STEPS);
    if (answer == MB_DONE)
        answer = mb_message_drop_unknown(&message, NULL, 0, NULL, 0);
    if (answer == MB_DONE && (answer = to_json(&pool, &message, &json)) == MB_DONE) {
        fwrite(json.bytes, 1, json.len, stdout);
        printf("\n");
        answer = mb_message_from_json(&pool, type, json.bytes, json.len, false, &again, &byte);
    }
    if (answer == MB_DONE)
        answer = mb_message_equal(&message, &again, &equal);
    free(json.bytes);
    free(file.bytes);
    mb_message_free(&again);
    mb_message_free(&message);
    mb_pool_free(&pool);
    if (answer == MB_DONE)
        return equal == 1 ? 0 : 1;
    return answer >= MB_JSON_NO_KIND ? 1 : print_refusal(answer, &report);
}
