/* change [--lenient] SET TYPE FILE CHANGE..: decodes the message in a file, makes each change and prints its answer, and then prints the bytes of the
 * changed message in hexadecimal digits. A change has the call, the steps of the place and the value, as `set:21,3/22,0/21,2=5,7`. A step is a kind and a
 * number, or `s` and a string as a key. A value is a kind and a number, or `9` or `12`, no number, and a string. */
#include "common.h"

#include <inttypes.h>
#include <stdlib.h>
#include <string.h>

enum { MOST = 256 };

/* A change, taken apart. */
struct change {
    struct mb_value place[MOST], value;
    struct mb_bytes strings[MOST];
    size_t steps, count;
};

/* The kind and the number of a word, as in 5,7 or s,name or 12,,bytes. The call removes the commas of the word. */
static struct mb_value parsed(char *word, struct change *it)
{
    char *number = strchr(word, ',');
    uint32_t kind = *word == 's' ? MB_STRING : (uint32_t)strtoul(word, NULL, 10);

    number = number == NULL ? word + strlen(word) : number + 1;
    if (*word != 's' && *number != ',')
        return (struct mb_value){kind, strtoull(number, NULL, 10)};
    number += *number == ',' && *word != 's';
    it->strings[it->count] = (struct mb_bytes){(const uint8_t *)number, strlen(number)};
    return (struct mb_value){kind, it->count++};
}

static uint32_t made(const char *call, struct mb_message *message, const struct change *it)
{
    if (strcmp(call, "set") == 0)
        return mb_message_set(message, it->place, it->steps, it->strings, it->count, &it->value);
    if (strcmp(call, "clear") == 0)
        return mb_message_clear(message, it->place, it->steps, it->strings, it->count);
    if (strcmp(call, "push") == 0)
        return mb_message_push(message, it->place, it->steps, it->strings, it->count, &it->value);
    if (strcmp(call, "insert") == 0)
        return mb_message_insert(message, it->place, it->steps, it->strings, it->count, &it->value);
    if (strcmp(call, "remove") == 0)
        return mb_message_remove(message, it->place, it->steps, it->strings, it->count);
    return mb_message_drop_unknown(message, it->place, it->steps, it->strings, it->count);
}

/* Makes the change of a word, and prints the answer. */
static void change(struct mb_message *message, char *word)
{
    struct change it = {.steps = 0};
    char *value = strchr(word, '='), *steps = strchr(word, ':');

    if (value != NULL)
        *value++ = 0;
    if (steps != NULL)
        *steps++ = 0;
    for (char *step = steps == NULL ? NULL : strtok(steps, "/"); step != NULL && it.steps < MOST; step = strtok(NULL, "/"))
        it.place[it.steps++] = parsed(step, &it);
    if (value != NULL)
        it.value = parsed(value, &it);
    printf("%s %" PRIu32 "\n", word, made(word, message, &it));
}

int main(int argc, char **argv)
{
    struct mb_pool pool = {0};
    struct mb_message message = {0};
    struct report report;
    size_t size = 0;

    bool is_lenient = take_lenient(&argc, &argv);
    if (argc < 4 || mb_interface() != MB_INTERFACE) {
        fprintf(stderr, "usage: see the head of change.c; it wants a library of interface %d\n", MB_INTERFACE);
        return 2;
    }
    uint32_t type = find_type(argv[1], argv[2], is_lenient, &pool);
    struct buffer file = read_file(argv[3]);
    uint32_t answer = mb_message_decode(&pool, type, file.bytes, file.len, MB_MAX_BYTES, MB_MAX_DEPTH, &message, &report.fault, report.path, MB_MAX_STEPS);
    mb_pool_free(&pool);
    for (int i = 4; answer == MB_DONE && i < argc; i++)
        change(&message, argv[i]);
    if (answer == MB_DONE)
        answer = mb_message_encoded_length(&message, &size);
    grow(&file, size + 1);
    if (answer == MB_DONE)
        answer = mb_message_encode(&message, file.bytes, file.capacity, &size);
    for (size_t i = 0; answer == MB_DONE && i < size; i++)
        printf("%02x", file.bytes[i]);
    if (answer == MB_DONE)
        printf("\n");
    free(file.bytes);
    mb_message_free(&message);
    return answer == MB_DONE ? 0 : print_refusal(answer, &report);
}
