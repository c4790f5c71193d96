/* edit SET IN OUT: changes fields of a shop.Order and writes it to OUT: its state is 2 (PAID), its first line has one piece more, and it has one more line. */
#include "common.h"

#include <stdlib.h>

enum { LINES = 3, STATE = 7, ARTICLE = 1, PIECES = 2 };

/* Makes the changes. Returns the answer of the first refused call, or MB_DONE. */
static uint32_t edit(struct mb_message *order)
{
    const struct mb_value state[] = {{MB_FIELD, STATE}}, lines[] = {{MB_FIELD, LINES}};
    const struct mb_value pieces[] = {{MB_FIELD, LINES}, {MB_INDEX, 0}, {MB_FIELD, PIECES}};
    const struct mb_value paid = {MB_ENUM, 2}, empty = {MB_MESSAGE, 0}, text = {MB_STRING, 0};
    const struct mb_bytes name = {(const uint8_t *)"washer", 6};
    struct mb_value count;
    uint32_t answer;

    if ((answer = mb_message_set(order, state, 1, NULL, 0, &paid)) != MB_DONE ||
        (answer = mb_message_get(order, pieces, 3, NULL, 0, &count)) != MB_DONE)
        return answer;
    count.number++;
    if ((answer = mb_message_set(order, pieces, 3, NULL, 0, &count)) != MB_DONE ||
        (answer = mb_message_push(order, lines, 1, NULL, 0, &empty)) != MB_DONE ||
        (answer = mb_message_get(order, lines, 1, NULL, 0, &count)) != MB_DONE)
        return answer;
    const struct mb_value article[] = {{MB_FIELD, LINES}, {MB_INDEX, count.number - 1}, {MB_FIELD, ARTICLE}};
    return mb_message_set(order, article, 3, &name, 1, &text);
}

int main(int argc, char **argv)
{
    struct mb_pool pool = {0};
    struct mb_message order = {0};
    struct report report;
    size_t size = 0;

    if (argc != 4 || mb_interface() != MB_INTERFACE) {
        fprintf(stderr, "usage: edit SET IN OUT\n");
        return 2;
    }
    uint32_t type = find_type(argv[1], "shop.Order", false, &pool);
    struct buffer file = read_file(argv[2]);
    uint32_t answer = mb_message_decode(&pool, type, file.bytes, file.len, MB_MAX_BYTES, MB_MAX_DEPTH, &order, &report.fault, report.path, MB_MAX_STEPS);
    if (answer != MB_DONE || (answer = edit(&order)) != MB_DONE || (answer = mb_message_encoded_length(&order, &size)) != MB_DONE)
        return print_refusal(answer, &report);
    grow(&file, size + 1);
    answer = mb_message_encode(&order, file.bytes, file.capacity, &size);
    FILE *out = answer == MB_DONE ? fopen(argv[3], "wb") : NULL;
    bool is_written = out != NULL && fwrite(file.bytes, 1, size, out) == size;
    is_written = out != NULL && fclose(out) == 0 && is_written;
    free(file.bytes);
    mb_message_free(&order);
    mb_pool_free(&pool);
    return is_written ? 0 : 3;
}
