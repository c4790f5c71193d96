/* pieces [--pending] SIZE [--lenient] SET TYPE FILE: decodes the message in a file in pieces of SIZE bytes, at most 65536, and prints its canonical bytes in
 * hexadecimal digits, as `pbtool canon` does. It refuses the bytes at the first piece after which no further bytes can repair their fault. With --pending
 * it also prints how many bytes the decoder holds after each piece. The pool is freed before the first piece. */
#include "common.h"

#include <stdlib.h>

static struct report report;

/* Gives the decoder a file, piece by piece. */
static uint32_t receive(const char *name, size_t size, bool is_pending, struct mb_decoder *decoder)
{
    static uint8_t piece[65536];
    FILE *file = open_file(name);
    size_t count, pending;
    uint32_t answer = MB_DONE;

    while (answer == MB_DONE && (count = fread(piece, 1, size, file)) > 0) {
        answer = mb_decoder_feed(decoder, piece, count, &report.fault, report.path, MB_MAX_STEPS);
        if (answer == MB_DONE && is_pending && (answer = mb_decoder_pending(decoder, &pending)) == MB_DONE)
            printf("%zu\n", pending);
    }
    close_file(file, name);
    return answer;
}

static uint32_t print_bytes(struct mb_message *message)
{
    struct buffer out = {0};
    uint32_t answer = mb_message_encoded_length(message, &out.len);

    if (answer != MB_DONE)
        return answer;
    grow(&out, out.len + 1);
    answer = mb_message_encode(message, out.bytes, out.capacity, &out.len);
    for (size_t i = 0; answer == MB_DONE && i < out.len; i++)
        printf("%02x", out.bytes[i]);
    if (answer == MB_DONE)
        printf("\n");
    free(out.bytes);
    return answer;
}

int main(int argc, char **argv)
{
    struct mb_pool pool = {0};
    struct mb_decoder decoder = {0};
    struct mb_message message = {0};

    bool is_pending = take_flag("--pending", &argc, &argv);
    size_t size = argc > 1 ? strtoul(argv[1], NULL, 10) : 0;
    argc--, argv++;
    bool is_lenient = take_lenient(&argc, &argv);
    if (argc != 4 || size == 0 || size > 65536 || mb_interface() != MB_INTERFACE) {
        fprintf(stderr, "usage: pieces [--pending] SIZE [--lenient] SET TYPE FILE, with a library of interface %d\n", MB_INTERFACE);
        return 2;
    }
    uint32_t type = find_type(argv[1], argv[2], is_lenient, &pool);
    uint32_t answer = mb_decoder_new(&pool, type, MB_MAX_BYTES, MB_MAX_DEPTH, &decoder);
    mb_pool_free(&pool);
    if (answer == MB_DONE)
        answer = receive(argv[3], size, is_pending, &decoder);
    if (answer == MB_DONE)
        answer = mb_decoder_finish(&decoder, &message, &report.fault, report.path, MB_MAX_STEPS);
    mb_decoder_free(&decoder);
    if (answer == MB_DONE)
        answer = print_bytes(&message);
    mb_message_free(&message);
    return answer == MB_DONE ? 0 : print_refusal(answer, &report);
}
