/* What protobuf's conformance suite tests of the library for C: in_c SET, in place of crates/conformance (README.md beside this). Each message is decoded
 * and encoded by a handle of the library. To build it, in this folder:
 *
 *   cc -I../../include -I../../examples/c -o in_c in_c.c ../../examples/c/report.c ../../examples/c/files.c ../../dist/libmabristu.a */
#include "common.h"

#include <stdlib.h>
#include <string.h>

enum { PAYLOAD = 1, FORMAT = 3, TYPE = 4, PROTOBUF = 1, PARSE_ERROR = 1, WRITTEN = 3, SKIPPED = 5 };

/* A request that the suite wrote. */
struct request {
    const uint8_t *payload, *type;
    size_t payload_len, type_len;
    uint64_t format;
};

static uint64_t varint(const uint8_t **at)
{
    uint64_t number = 0;
    int shift = 0;

    do {
        number |= (uint64_t)(**at & 0x7f) << shift;
        shift += 7;
    } while (*(*at)++ >= 0x80);
    return number;
}

static struct request request_of(const uint8_t *at, size_t len)
{
    struct request found = {0};
    const uint8_t *end = at + len;

    while (at < end) {
        uint64_t tag = varint(&at), number = varint(&at);
        if (tag == (PAYLOAD << 3 | 2))
            found.payload = at, found.payload_len = number;
        else if (tag == (TYPE << 3 | 2))
            found.type = at, found.type_len = number;
        else if (tag == FORMAT << 3)
            found.format = number;
        at += (tag & 7) == 2 ? number : 0;
    }
    return found;
}

static void respond(uint8_t number, const uint8_t *bytes, size_t len)
{
    uint8_t head[11] = {(uint8_t)(number << 3 | 2)};
    size_t count = 1, left = len;

    for (; left > 127; left >>= 7)
        head[count++] = (uint8_t)(left & 0x7f) | 0x80;
    head[count++] = (uint8_t)left;
    uint32_t whole = (uint32_t)(count + len);
    fwrite(&whole, sizeof whole, 1, stdout);
    fwrite(head, 1, count, stdout);
    fwrite(bytes, 1, len, stdout);
    fflush(stdout);
}

static void answer(struct mb_pool *pool, const uint8_t *bytes, size_t len)
{
    struct request asked = request_of(bytes, len);
    struct mb_message message = {0};
    struct buffer out = {0};
    struct report report;
    uint32_t type;

    if (asked.payload == NULL || asked.format != PROTOBUF || mb_pool_type(pool, asked.type, asked.type_len, &type) != MB_DONE) {
        respond(SKIPPED, (const uint8_t *)"other", 5);
        return;
    }
    uint32_t decoded = mb_message_decode(pool, type, asked.payload, asked.payload_len, MB_MAX_BYTES, MB_MAX_DEPTH, &message, &report.fault, report.path,
                                         MB_MAX_STEPS);
    if (decoded == MB_DONE && mb_message_encoded_length(&message, &out.len) == MB_DONE) {
        grow(&out, out.len + 1);
        mb_message_encode(&message, out.bytes, out.capacity, &out.len);
        respond(WRITTEN, out.bytes, out.len);
    } else {
        respond(PARSE_ERROR, (const uint8_t *)"refused", 7);
    }
    free(out.bytes);
    mb_message_free(&message);
}

int main(int argc, char **argv)
{
    struct mb_pool pool = {0};
    struct buffer bytes = {0};
    uint32_t len;

    if (argc != 2)
        return 2;
    find_type(argv[1], "conformance.FailureSet", true, &pool);
    while (fread(&len, sizeof len, 1, stdin) == 1) {
        grow(&bytes, len + 1);
        if (fread(bytes.bytes, 1, len, stdin) != len)
            return 4;
        answer(&pool, bytes.bytes, len);
    }
    free(bytes.bytes);
    mb_pool_free(&pool);
    return 0;
}
