/* message encode|list|decimal|text|json|empty [--lenient] SET TYPE FILE: decodes the message in a file. `encode` prints its canonical bytes in hexadecimal
 * digits, as `pbtool canon` does; `list` and `decimal` print its listing, as `pbtool show` and `pbtool show --decimal` do; `text` prints its text, as
 * `pbtool text` does; `json` prints its JSON, as `pbtool json` does; `empty` prints the bytes of an empty message. A handle holds the message, and the
 * pool is freed before the message is printed.
 * message relink [--lenient] SET TYPE FILE: as encode, with the types of the set that the library writes for the pool.
 * message from-json [--lenient] SET TYPE FILE: reads a message from the JSON in a file, and writes its canonical bytes, as `pbtool from-json` does.
 * message json-bytes [--lenient] SET TYPE FILE: the same, with the call that keeps no message.
 * message field SET TYPE NAME: prints the field of this name, by the numbers of struct mb_field. */
#include "common.h"

#include <inttypes.h>
#include <stdlib.h>
#include <string.h>

static int print_field(struct mb_pool *pool, uint32_t type, const char *name)
{
    struct mb_field field;
    uint32_t answer = mb_pool_field(pool, type, (const uint8_t *)name, strlen(name), &field);

    if (answer == MB_DONE)
        printf("%" PRIu32 " %" PRIu32 " %" PRIu32 " %" PRIu32 " %zu\n", field.number, field.kind, field.shape, field.key, field.type_of);
    else
        fprintf(stderr, "field %s unknown\n", name);
    return answer == MB_DONE ? 0 : 1;
}

/* Writes the set of the pool, and links this set into the handle of the pool. */
static uint32_t relink(struct mb_pool *pool, const char *name, uint32_t *type)
{
    struct buffer set = {0};
    struct mb_refusal refusal;
    struct report report;
    uint32_t answer;

    do {
        grow(&set, set.len + 256);
        answer = mb_pool_set(pool, set.bytes, set.capacity, &set.len);
    } while (answer == MB_DONE && set.len > set.capacity);
    if (answer == MB_DONE)
        answer = mb_pool_link(set.bytes, set.len, pool, &report.fault, report.path, MB_MAX_STEPS, &refusal, NULL, 0);
    if (answer == MB_DONE)
        answer = mb_pool_type(pool, (const uint8_t *)name, strlen(name), type);
    free(set.bytes);
    return answer;
}

/* Decodes a file, or makes an empty message for the word `empty`. */
static uint32_t make_message(const char *word, const char *name, struct mb_pool *pool, uint32_t type, struct mb_message *message, struct report *report)
{
    struct buffer file = read_file(name);
    uint32_t answer;

    if (strcmp(word, "empty") == 0)
        answer = mb_message_new(pool, type, message);
    else
        answer = mb_message_decode(pool, type, file.bytes, file.len, MB_MAX_BYTES, MB_MAX_DEPTH, message, &report->fault, report->path, MB_MAX_STEPS);
    free(file.bytes);
    return answer;
}

/* Prints the listing. If the buffer is too small, it is made larger. */
static uint32_t list(struct mb_message *message, struct buffer *out, bool is_decimal)
{
    uint32_t answer;

    do {
        grow(out, out->len + 256);
        answer = (is_decimal ? mb_message_show_decimal : mb_message_show)(message, out->bytes, out->capacity, &out->len);
    } while (answer == MB_DONE && out->len > out->capacity);
    if (answer == MB_DONE)
        fwrite(out->bytes, 1, out->len, stdout);
    return answer;
}

/* Prints the message in the text format. */
static uint32_t print_text(struct mb_message *message, struct buffer *out)
{
    struct mb_text_form form = {0};
    uint32_t answer;

    do {
        grow(out, out->len + 256);
        answer = mb_message_text(message, &form, out->bytes, out->capacity, &out->len);
    } while (answer == MB_DONE && out->len > out->capacity);
    if (answer == MB_DONE)
        fwrite(out->bytes, 1, out->len, stdout);
    return answer;
}

/* Prints the JSON on one line, or reports on standard error the part of the message that has no JSON form. */
static uint32_t print_json(struct mb_pool *pool, struct mb_message *message, struct buffer *out)
{
    uint32_t path[MB_MAX_STEPS], answer;
    size_t steps;

    do {
        grow(out, out->len + 256);
        answer = mb_message_json(pool, message, false, false, out->bytes, out->capacity, &out->len, path, MB_MAX_STEPS, &steps);
    } while (answer == MB_DONE && out->len > out->capacity);
    if (answer == MB_DONE) {
        fwrite(out->bytes, 1, out->len, stdout);
        printf("\n");
    } else if (answer != MB_MEMORY) {
        print_json_refusal(answer, path, steps);
    }
    return answer;
}

/* Prints the canonical bytes, with a buffer of exactly their length. */
static uint32_t encode(struct mb_message *message, struct buffer *out)
{
    uint32_t answer = mb_message_encoded_length(message, &out->len);

    if (answer != MB_DONE)
        return answer;
    grow(out, out->len + 1);
    answer = mb_message_encode(message, out->bytes, out->capacity, &out->len);
    for (size_t i = 0; answer == MB_DONE && i < out->len; i++)
        printf("%02x", out->bytes[i]);
    if (answer == MB_DONE)
        printf("\n");
    return answer;
}

/* Reads a message from the JSON in a file. If the JSON is refused, reports the byte and the cause on standard error. */
static uint32_t from_json(const char *name, struct mb_pool *pool, uint32_t type, bool is_lenient, struct mb_message *message)
{
    struct buffer file = read_file(name);
    size_t byte;
    uint32_t answer = mb_message_from_json(pool, type, file.bytes, file.len, is_lenient, message, &byte);

    free(file.bytes);
    if (answer >= MB_JSON_UNEXPECTED_BYTE && answer <= MB_JSON_BAD_VALUE)
        print_text_refusal(answer, byte);
    return answer;
}

/* Writes the canonical bytes. */
static uint32_t write_bytes(struct mb_message *message, struct buffer *out)
{
    uint32_t answer = mb_message_encoded_length(message, &out->len);

    if (answer != MB_DONE)
        return answer;
    grow(out, out->len);
    answer = mb_message_encode(message, out->bytes, out->capacity, &out->len);
    if (answer == MB_DONE)
        fwrite(out->bytes, 1, out->len, stdout);
    return answer;
}

/* Writes the canonical bytes of the message in a JSON file. If the buffer is too small, it is made larger. */
static uint32_t write_json_bytes(const char *name, struct mb_pool *pool, uint32_t type, bool is_lenient, struct buffer *out)
{
    struct buffer file = read_file(name);
    size_t byte;
    uint32_t answer;

    do {
        grow(out, out->len + 256);
        answer = mb_from_json(pool, type, file.bytes, file.len, is_lenient, out->bytes, out->capacity, &out->len, &byte);
    } while (answer == MB_DONE && out->len > out->capacity);
    free(file.bytes);
    if (answer == MB_DONE)
        fwrite(out->bytes, 1, out->len, stdout);
    else if (answer >= MB_JSON_UNEXPECTED_BYTE && answer <= MB_JSON_BAD_VALUE)
        print_text_refusal(answer, byte);
    return answer;
}

static uint32_t print_message(const char *word, struct mb_pool *pool, struct mb_message *message, struct buffer *out)
{
    if (strcmp(word, "json") == 0)
        return print_json(pool, message, out);
    if (strcmp(word, "from-json") == 0)
        return write_bytes(message, out);
    if (strcmp(word, "text") == 0)
        return print_text(message, out);
    if (strcmp(word, "list") == 0 || strcmp(word, "decimal") == 0)
        return list(message, out, word[0] == 'd');
    return encode(message, out);
}

int main(int argc, char **argv)
{
    struct mb_pool pool = {0};
    struct mb_message message = {0};
    struct buffer out = {0};
    struct report report;

    const char *word = argc > 1 ? argv[1] : "";
    argc--, argv++;
    bool is_lenient = take_lenient(&argc, &argv);
    if (argc != 4 || mb_interface() != MB_INTERFACE) {
        fprintf(stderr, "usage: see the head of message.c; it wants a library of interface %d\n", MB_INTERFACE);
        return 2;
    }
    uint32_t type = find_type(argv[1], argv[2], is_lenient, &pool);
    if (strcmp(word, "field") == 0) {
        int status = print_field(&pool, type, argv[3]);
        mb_pool_free(&pool);
        return status;
    }
    uint32_t answer = strcmp(word, "relink") == 0 ? relink(&pool, argv[2], &type) : MB_DONE;
    bool is_written = strcmp(word, "json-bytes") == 0;
    if (is_written)
        answer = write_json_bytes(argv[3], &pool, type, is_lenient, &out);
    else if (answer == MB_DONE && strcmp(word, "from-json") == 0)
        answer = from_json(argv[3], &pool, type, is_lenient, &message);
    else if (answer == MB_DONE)
        answer = make_message(word, argv[3], &pool, type, &message, &report);
    /* A message keeps its types, but not the JSON names of their fields. */
    if (strcmp(word, "json") != 0)
        mb_pool_free(&pool);
    if (answer == MB_DONE && !is_written)
        answer = print_message(word, &pool, &message, &out);
    mb_pool_free(&pool);
    free(out.bytes);
    mb_message_free(&message);
    if (answer >= MB_JSON_NO_KIND && answer <= MB_JSON_BAD_VALUE)
        return 1;
    return answer == MB_DONE ? 0 : print_refusal(answer, &report);
}
