/* Whether memory is given back: freed SET TYPE FILE [leak KIND]. Pools, messages and decoders are made, put into handles that hold one already, and freed,
 * again and again, where the process may have no more than a few megabytes. Prints nothing and ends with status 0 where memory lasts, and with status 1
 * where it runs out. With `leak` what a KIND holds is forgotten before it is replaced or freed, so that memory has to run out: free_pool, share, link,
 * compile, free_message, new, decode, copy, json, finish, witness, free_decoder or decoder. */
#include "mabristu.h"

#include <stdio.h>
#include <stdlib.h>
#include <string.h>
#include <sys/resource.h>

enum { TIMES = 8000, LIMIT = 24 << 20, BIG = 1 << 13 };

#define LIMITS MB_MAX_BYTES, MB_MAX_DEPTH
#define FAULT &fault, path, MB_MAX_STEPS

static uint8_t set[1 << 16], bytes[1 << 16], out[1 << 16];
/* A field 2 that is a string. */
static uint8_t big[BIG + 3] = {0x12, (BIG & 127) | 128, BIG >> 7};
static char source[1 << 12] = "syntax = \"proto3\"; message T { ";
static size_t set_len, len, size, byte;
static uint32_t type;
static const char *leaked = "";
static const char *type_name;
static struct mb_fault fault;
static struct mb_step path[MB_MAX_STEPS];
static struct mb_refusal refusal;
static struct mb_pool pool, numbers, strings, other;
static struct mb_message message, copy;
static struct mb_decoder decoder;

static size_t read_into(uint8_t *to, size_t capacity, const char *name)
{
    FILE *file = fopen(name, "rb");
    if (file == NULL)
        exit(2);
    size_t count = fread(to, 1, capacity, file);
    fclose(file);
    return count;
}

static void must(uint32_t answer)
{
    if (answer != MB_DONE)
        exit(answer == MB_MEMORY ? 1 : 2);
}

/* Whether a kind is to leak. Then the caller forgets what its handle holds. */
static bool leaks(const char *kind)
{
    return strcmp(leaked, kind) == 0;
}

static void compile(const char *source, struct mb_pool *into)
{
    const struct mb_bytes name = {(const uint8_t *)"a.proto", 7}, text = {(const uint8_t *)source, strlen(source)};
    must(mb_pool_compile(&name, 1, &text, 1, into, &refusal, NULL, 0));
}

/* Puts pools into a handle that holds one. */
static void fill_pools(void)
{
    if (leaks("link"))
        memset(&other, 0, sizeof other);
    must(mb_pool_link(set, set_len, &other, FAULT, &refusal, NULL, 0));
    if (leaks("compile"))
        memset(&other, 0, sizeof other);
    compile(source, &other);
    if (leaks("share"))
        memset(&other, 0, sizeof other);
    must(mb_pool_share(&pool, &other));
    must(mb_canon(&other, type, bytes, len, LIMITS, out, sizeof out, &size, FAULT));
    must(mb_pool_link(set, set_len, &other, FAULT, &refusal, NULL, 0));
}

/* Has a handle hold a message with a long string. If the kind leaks, it is forgotten. */
static void hold(struct mb_message *into, const char *kind)
{
    must(mb_message_decode(&other, type, big, BIG + 3, LIMITS, into, FAULT));
    if (leaks(kind))
        memset(into, 0, sizeof *into);
}

/* Puts messages and decoders into handles that hold one. */
static void fill_messages(void)
{
    const struct mb_difference difference = {0, 0, 1, 0};
    hold(&message, "new");
    must(mb_message_new(&pool, type, &message));
    hold(&message, "decode");
    must(mb_message_decode(&pool, type, bytes, len, LIMITS, &message, FAULT));
    hold(&copy, "copy");
    must(mb_message_copy(&message, &copy));
    hold(&copy, "json");
    must(mb_message_from_json(&pool, type, (const uint8_t *)"{}", 2, false, &copy, &byte));
    hold(&copy, "witness");
    must(mb_compat_witness(&numbers, 0, &strings, 0, &difference, &copy));
    must(mb_decoder_new(&pool, type, LIMITS, &decoder));
    must(mb_decoder_feed(&decoder, big, BIG, FAULT));
    if (leaks("decoder"))
        memset(&decoder, 0, sizeof decoder);
    must(mb_decoder_new(&pool, type, LIMITS, &decoder));
    must(mb_decoder_feed(&decoder, bytes, len, FAULT));
    hold(&message, "finish");
    must(mb_decoder_finish(&decoder, &message, FAULT));
}

/* Frees a pool that another handle shares, a message, and a decoder that has received some of one. */
static void fill_and_free(void)
{
    struct mb_pool own = {0};
    struct mb_message made = {0};
    struct mb_decoder begun = {0};
    must(mb_pool_link(set, set_len, &own, FAULT, &refusal, NULL, 0));
    must(mb_message_decode(&own, type, bytes, len, LIMITS, &made, FAULT));
    must(mb_decoder_new(&own, type, LIMITS, &begun));
    must(mb_decoder_feed(&begun, bytes, len / 2, FAULT));
    if (!leaks("free_message"))
        mb_message_free(&made);
    if (!leaks("free_decoder"))
        mb_decoder_free(&begun);
    if (!leaks("free_pool"))
        mb_pool_free(&own);
}

int main(int argc, char **argv)
{
    struct rlimit limit = {LIMIT, LIMIT};

    if (argc < 4 || setrlimit(RLIMIT_AS, &limit) != 0)
        return 2;
    set_len = read_into(set, sizeof set, argv[1]), len = read_into(bytes, sizeof bytes, argv[3]);
    type_name = argv[2];
    if (argc == 6 && strcmp(argv[4], "leak") == 0)
        leaked = argv[5];
    must(mb_pool_link(set, set_len, &pool, FAULT, &refusal, NULL, 0));
    must(mb_pool_type(&pool, (const uint8_t *)type_name, strlen(type_name), &type));
    memset(big + 3, 'a', BIG);
    for (int i = 1; i <= 100; i++)
        sprintf(source + strlen(source), "int32 field_%d = %d; ", i, i);
    strcat(source, "}");
    compile("syntax = \"proto3\"; message T { int32 a = 1; }", &numbers);
    compile("syntax = \"proto3\"; message T { string a = 1; }", &strings);
    for (int i = 0; i < TIMES; i++) {
        fill_pools();
        fill_messages();
        fill_and_free();
    }
    mb_pool_free(&pool), mb_pool_free(&numbers), mb_pool_free(&strings), mb_pool_free(&other);
    mb_message_free(&message), mb_message_free(&copy), mb_decoder_free(&decoder);
    return 0;
}
