/* find [--lenient] SET TYPE FILE PATH: prints the scalar at a path of field numbers, such as 3.1, of the message in a file. It reads the scalar from the
 * bytes, and builds no message. It prints the kind and the number, or the bytes of a string or bytes in hexadecimal digits. */
#include "common.h"

#include <inttypes.h>
#include <stdlib.h>

#define MAX_NUMBERS 100

/* The numbers of a path. Returns how many there are. */
static size_t read_path(const char *word, uint32_t *numbers)
{
    size_t count = 0;
    char *end;

    while (*word != '\0' && count < MAX_NUMBERS) {
        numbers[count++] = (uint32_t)strtoul(word, &end, 10);
        word = *end == '.' ? end + 1 : end;
        if (*end != '.' && *end != '\0')
            break;
    }
    return count;
}

static void print_value(const struct mb_value *value, const uint8_t *bytes)
{
    printf("%" PRIu32 " ", value->kind);
    if (value->kind == MB_STRING || value->kind == MB_BYTES)
        for (size_t i = 0; i < value->number; i++)
            printf("%02x", bytes[i]);
    else if (value->kind == MB_INT32 || value->kind == MB_INT64 || value->kind == MB_ENUM)
        printf("%" PRId64, (int64_t)value->number);
    else
        printf("%" PRIu64, value->number);
    printf("\n");
}

int main(int argc, char **argv)
{
    uint32_t numbers[MAX_NUMBERS], answer;
    struct mb_pool pool = {0};
    struct mb_value value;
    struct report report;

    bool is_lenient = take_lenient(&argc, &argv);
    if (argc != 5 || mb_interface() != MB_INTERFACE) {
        fprintf(stderr, "usage: find [--lenient] SET TYPE FILE PATH, with a library of interface %d\n", MB_INTERFACE);
        return 2;
    }
    uint32_t type = find_type(argv[1], argv[2], is_lenient, &pool);
    struct buffer file = read_file(argv[3]), bytes = {0};
    size_t count = read_path(argv[4], numbers);
    /* No string in the input is longer than the input. */
    grow(&bytes, file.len + 1);
    answer = mb_find(&pool, type, file.bytes, file.len, MB_MAX_BYTES, MB_MAX_DEPTH, numbers, count, &value, bytes.bytes, bytes.capacity,
                     &report.fault, report.path, MB_MAX_STEPS);
    if (answer == MB_DONE)
        print_value(&value, bytes.bytes);
    else if (answer == MB_ABSENT)
        printf("absent\n");
    free(bytes.bytes);
    free(file.bytes);
    mb_pool_free(&pool);
    return answer == MB_DONE || answer == MB_ABSENT ? 0 : print_refusal(answer, &report);
}
