/* read [--lenient] SET TYPE FILE: decodes the message in a file, and prints a line for each place in it: the place, and the kind and the number of the value
 * there, or the bytes of a string or bytes in hexadecimal digits. In a place, .3 is field 3, [0] is the first element of a list, and {13:9} is the value
 * under the key 9 of the kind 13 in a map. */
#include "common.h"

#include <inttypes.h>
#include <stdlib.h>

/* A message nests at most 100 levels deep, and a level is a field and an index or a key. */
#define MAX_PLACE 256

/* A place, and the strings among its keys. */
struct place {
    struct mb_value steps[MAX_PLACE];
    struct mb_bytes keys[MAX_PLACE];
    size_t len, keys_len;
};

static uint32_t print_at(struct mb_message *message, struct place *place);

static void print_hexadecimal(const uint8_t *bytes, size_t len)
{
    for (size_t i = 0; i < len; i++)
        printf("%02x", bytes[i]);
}

static void print_number(const struct mb_value *value)
{
    if (value->kind == MB_INT32 || value->kind == MB_INT64 || value->kind == MB_ENUM)
        printf("%" PRId64, (int64_t)value->number);
    else
        printf("%" PRIu64, value->number);
}

static void print_place(const struct place *place)
{
    for (size_t i = 0; i < place->len; i++) {
        const struct mb_value *step = &place->steps[i];
        if (step->kind == MB_FIELD) {
            printf(".%" PRIu64, step->number);
        } else if (step->kind == MB_INDEX) {
            printf("[%" PRIu64 "]", step->number);
        } else {
            printf("{%" PRIu32 ":", step->kind);
            if (step->kind == MB_STRING)
                print_hexadecimal(place->keys[step->number].at, place->keys[step->number].len);
            else
                print_number(step);
            printf("}");
        }
    }
}

/* Prints the value one step after the place. */
static uint32_t print_after(struct mb_message *message, struct place *place, struct mb_value step)
{
    place->steps[place->len++] = step;
    uint32_t answer = print_at(message, place);
    place->len--;
    return answer;
}

static uint32_t print_fields(struct mb_message *message, struct place *place)
{
    size_t count = 0, capacity;
    uint32_t *numbers = NULL, answer;

    do {
        capacity = count + 16;
        if ((numbers = realloc(numbers, capacity * sizeof *numbers)) == NULL)
            return MB_MEMORY;
        answer = mb_message_fields(message, place->steps, place->len, place->keys, place->keys_len, numbers, capacity, &count);
    } while (answer == MB_DONE && count > capacity);
    for (size_t i = 0; answer == MB_DONE && i < count; i++)
        answer = print_after(message, place, (struct mb_value){MB_FIELD, numbers[i]});
    free(numbers);
    return answer;
}

static uint32_t print_list(struct mb_message *message, struct place *place, uint64_t count)
{
    uint32_t answer = MB_DONE;

    for (uint64_t i = 0; answer == MB_DONE && i < count; i++)
        answer = print_after(message, place, (struct mb_value){MB_INDEX, i});
    return answer;
}

/* Prints the value under a key. If the key is a string, it has these bytes, which stay in memory while a place uses them. */
static uint32_t print_entry(struct mb_message *message, struct place *place, struct mb_value key, const uint8_t *string)
{
    if (key.kind != MB_STRING)
        return print_after(message, place, key);
    place->keys[place->keys_len] = (struct mb_bytes){string, key.number};
    key.number = place->keys_len++;
    uint32_t answer = print_after(message, place, key);
    place->keys_len--;
    return answer;
}

/* Prints the entries of a map. A first call for its keys reports how many there are, and a second call writes them. */
static uint32_t print_map(struct mb_message *message, struct place *place)
{
    struct mb_keys counts;
    uint32_t answer = mb_message_keys(message, place->steps, place->len, place->keys, place->keys_len, 0, NULL, 0, NULL, 0, &counts);

    if (answer != MB_DONE)
        return answer;
    struct mb_value *found = malloc(counts.keys * sizeof *found);
    uint8_t *strings = malloc(counts.bytes + 1), *string = strings;
    if (found == NULL || strings == NULL)
        answer = MB_MEMORY;
    else
        answer = mb_message_keys(message, place->steps, place->len, place->keys, place->keys_len, 0, found, counts.keys, strings, counts.bytes, &counts);
    for (size_t i = 0; answer == MB_DONE && i < counts.keys; i++) {
        answer = print_entry(message, place, found[i], string);
        string += found[i].kind == MB_STRING ? found[i].number : 0;
    }
    free(strings);
    free(found);
    return answer;
}

static uint32_t print_bytes(struct mb_message *message, struct place *place, size_t size)
{
    struct buffer bytes = {0};

    grow(&bytes, size + 1);
    uint32_t answer = mb_message_read(message, place->steps, place->len, place->keys, place->keys_len, bytes.bytes, bytes.capacity, &bytes.len);
    if (answer == MB_DONE)
        print_hexadecimal(bytes.bytes, bytes.len);
    printf("\n");
    free(bytes.bytes);
    return answer;
}

/* Prints the value at a place, and then the values inside it. */
static uint32_t print_at(struct mb_message *message, struct place *place)
{
    struct mb_value value;
    uint32_t answer = mb_message_get(message, place->steps, place->len, place->keys, place->keys_len, &value);

    if (answer != MB_DONE)
        return answer;
    print_place(place);
    printf(" %" PRIu32 " ", value.kind);
    if (value.kind == MB_STRING || value.kind == MB_BYTES)
        return print_bytes(message, place, value.number);
    print_number(&value);
    printf("\n");
    switch (value.kind) {
    case MB_MESSAGE:
        return print_fields(message, place);
    case MB_LIST:
        return print_list(message, place, value.number);
    case MB_MAP:
        return print_map(message, place);
    default:
        return MB_DONE;
    }
}

int main(int argc, char **argv)
{
    static struct place place;
    struct mb_pool pool = {0};
    struct mb_message message = {0};
    struct report report;

    bool is_lenient = take_lenient(&argc, &argv);
    if (argc != 4 || mb_interface() != MB_INTERFACE) {
        fprintf(stderr, "usage: read [--lenient] SET TYPE FILE, with a library of interface %d\n", MB_INTERFACE);
        return 2;
    }
    uint32_t type = find_type(argv[1], argv[2], is_lenient, &pool);
    struct buffer file = read_file(argv[3]);
    uint32_t answer = mb_message_decode(&pool, type, file.bytes, file.len, MB_MAX_BYTES, MB_MAX_DEPTH, &message, &report.fault, report.path, MB_MAX_STEPS);
    free(file.bytes);
    mb_pool_free(&pool);
    if (answer == MB_DONE)
        answer = print_at(&message, &place);
    mb_message_free(&message);
    return answer == MB_DONE ? 0 : print_refusal(answer, &report);
}
