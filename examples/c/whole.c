/* whole SET TYPE FILE MORE: decodes the message in FILE, copies it, and decodes the bytes of MORE onto the copy. Prints whether the copy equals the message
 * before and after this; the canonical bytes, the frame and the unknown records of the copy in hexadecimal digits; and the set member of each oneof. */
#include "common.h"

#include <inttypes.h>
#include <stdlib.h>

static struct mb_pool pool;
static struct mb_message first, copy;
static struct report report;

static uint32_t print_equal(void)
{
    uint32_t is_equal, answer = mb_message_equal(&first, &copy, &is_equal);

    if (answer == MB_DONE)
        printf("equal %" PRIu32 "\n", is_equal);
    return answer;
}

static uint32_t unknown(uint8_t *out, size_t capacity, size_t *size)
{
    return mb_message_unknown(&copy, NULL, 0, NULL, 0, out, capacity, size);
}

static uint32_t encode(uint8_t *out, size_t capacity, size_t *size)
{
    return mb_message_encode(&copy, out, capacity, size);
}

static uint32_t frame(uint8_t *out, size_t capacity, size_t *size)
{
    return mb_message_frame(&copy, out, capacity, size);
}

/* Prints the output of a call. If the buffer is too small, it is made larger. */
static uint32_t print_written(const char *what, uint32_t (*write)(uint8_t *, size_t, size_t *))
{
    struct buffer out = {0};
    uint32_t answer;

    do {
        grow(&out, out.len + 256);
        answer = write(out.bytes, out.capacity, &out.len);
    } while (answer == MB_DONE && out.len > out.capacity);
    if (answer == MB_DONE)
        printf("%s ", what);
    for (size_t i = 0; answer == MB_DONE && i < out.len; i++)
        printf("%02x", out.bytes[i]);
    if (answer == MB_DONE)
        printf("\n");
    free(out.bytes);
    return answer;
}

static uint32_t print_oneofs(uint32_t type)
{
    struct mb_type is;
    size_t size;
    uint32_t answer = mb_pool_message(&pool, type, &is, NULL, 0, &size);

    for (uint32_t i = 0; answer == MB_DONE && i < is.oneofs; i++) {
        uint32_t number = 0;
        answer = mb_message_oneof(&copy, NULL, 0, NULL, 0, i, &number);
        if (answer == MB_ABSENT)
            answer = MB_DONE;
        if (answer == MB_DONE)
            printf("oneof %" PRIu32 "\n", number);
    }
    return answer;
}

static uint32_t run(uint32_t type, const char *file_name, const char *more_name)
{
    struct buffer file = read_file(file_name), more = read_file(more_name);
    uint32_t answer = mb_message_decode(&pool, type, file.bytes, file.len, MB_MAX_BYTES, MB_MAX_DEPTH, &first, &report.fault, report.path, MB_MAX_STEPS);

    if (answer == MB_DONE)
        answer = mb_message_copy(&first, &copy);
    if (answer == MB_DONE)
        answer = print_equal();
    if (answer == MB_DONE)
        answer = mb_message_merge(&copy, more.bytes, more.len, MB_MAX_BYTES, MB_MAX_DEPTH, &report.fault, report.path, MB_MAX_STEPS);
    free(file.bytes);
    free(more.bytes);
    if (answer == MB_DONE)
        answer = print_equal();
    if (answer == MB_DONE)
        answer = print_written("bytes", encode);
    if (answer == MB_DONE)
        answer = print_written("frame", frame);
    if (answer == MB_DONE)
        answer = print_written("unknown", unknown);
    return answer == MB_DONE ? print_oneofs(type) : answer;
}

int main(int argc, char **argv)
{
    if (argc != 5 || mb_interface() != MB_INTERFACE) {
        fprintf(stderr, "usage: whole SET TYPE FILE MORE, with a library of interface %d\n", MB_INTERFACE);
        return 2;
    }
    uint32_t answer = run(find_type(argv[1], argv[2], false, &pool), argv[3], argv[4]);
    mb_message_free(&copy);
    mb_message_free(&first);
    mb_pool_free(&pool);
    return answer == MB_DONE ? 0 : print_refusal(answer, &report);
}
