/* How many instructions calls take on inputs of a size: growth ROW N, under callgrind, which counts those of `measured` alone (bench/c/run growth). A row
 * is what is made before, and the calls that are counted. */
#include "mabristu.h"

#include <stdio.h>
#include <stdlib.h>
#include <string.h>

enum { SIZE = 1 << 24, MOST = 1 << 16 };

#define LIMITS MB_MAX_BYTES, MB_MAX_DEPTH

static struct mb_pool pool;
static struct mb_message message;
static struct mb_refusal refusal;
static struct mb_fault fault;
static struct mb_step path[MB_MAX_STEPS];
static uint32_t type;
static size_t count, size, byte;
static char text[SIZE];
static uint8_t bytes[SIZE], out[SIZE], names[1 << 12];
static size_t bytes_len;
static struct mb_bytes file_names[MOST], files[MOST];

#define FAULT &fault, path, MB_MAX_STEPS
#define REFUSAL &refusal, names, sizeof names

static void must(uint32_t answer, const char *what)
{
    if (answer != MB_DONE) {
        fprintf(stderr, "growth: %s answers %u\n", what, (unsigned)answer);
        exit(2);
    }
}

static size_t varint(uint8_t *at, uint64_t number)
{
    size_t len = 0;
    for (; number > 127; number >>= 7)
        at[len++] = (uint8_t)(number | 128);
    at[len++] = (uint8_t)number;
    return len;
}

/* Puts a record of a varint at the end of the bytes. */
static void put(uint32_t field, uint64_t number)
{
    bytes_len += varint(bytes + bytes_len, (uint64_t)field << 3);
    bytes_len += varint(bytes + bytes_len, number);
}

/* Puts a record with a payload of a length before what the payload will be. */
static void put_length(uint32_t field, size_t len)
{
    bytes_len += varint(bytes + bytes_len, (uint64_t)field << 3 | 2);
    bytes_len += varint(bytes + bytes_len, len);
}

static void put_bytes(uint32_t field, const void *payload, size_t len)
{
    put_length(field, len);
    memcpy(bytes + bytes_len, payload, len);
    bytes_len += len;
}

/* Links the text as one source, and finds its type T. */
static void compile(void)
{
    const struct mb_bytes name = {(const uint8_t *)"a.proto", 7}, source = {(const uint8_t *)text, strlen(text)};
    must(mb_pool_compile(&name, 1, &source, 1, &pool, REFUSAL), "mb_pool_compile");
    must(mb_pool_type(&pool, (const uint8_t *)"T", 1, &type), "mb_pool_type");
}

static void decode(void)
{
    must(mb_message_decode(&pool, type, bytes, bytes_len, LIMITS, &message, FAULT), "mb_message_decode");
}

/* A message of a map with n keys that are strings. */
static void make_map(size_t n)
{
    sprintf(text, "syntax = \"proto3\"; message T { map<string, int32> m = 1; }");
    compile();
    for (size_t i = 0; i < n; i++) {
        char key[32];
        int len = sprintf(key, "key-%08zu", i);
        put_length(1, (size_t)len + 4);
        put_bytes(1, key, (size_t)len);
        put(2, 1);
    }
    decode();
}

static void read_keys(size_t n)
{
    static struct mb_value keys[MOST];
    const struct mb_value place[] = {{MB_FIELD, 1}};
    struct mb_keys counts;
    must(mb_message_keys(&message, place, 1, NULL, 0, 0, keys, MOST, out, sizeof out, &counts), "mb_message_keys");
    if (counts.keys != n || counts.bytes != 12 * n || keys[n - 1].kind != MB_STRING || keys[n - 1].number != 12 || memcmp(out, "key-00000000", 12) != 0) {
        fprintf(stderr, "growth: mb_message_keys writes other keys\n");
        exit(2);
    }
}

/* A type of n fields of numbers, named like f_1_x. */
static void make_fields(size_t n)
{
    char *at = text;
    at += sprintf(at, "syntax = \"proto3\"; message T { ");
    for (size_t i = 1; i <= n; i++)
        at += sprintf(at, "int32 f_%zu_x = %zu; ", i, i < 19000 ? i : i + 1000);
    sprintf(at, "}");
    compile();
}

static void make_scalars(size_t n)
{
    make_fields(n);
    for (size_t i = 1; i <= n; i++)
        put((uint32_t)(i < 19000 ? i : i + 1000), 1);
    decode();
}

static void get_scalars(size_t n)
{
    for (size_t i = 1; i <= n; i++) {
        const struct mb_value place[] = {{MB_FIELD, i < 19000 ? i : i + 1000}};
        struct mb_value value;
        must(mb_message_get(&message, place, 1, NULL, 0, &value), "mb_message_get");
    }
}

/* JSON with a member for each field, by names that a format makes. */
static void make_members(size_t n, const char *member)
{
    char *at = text;
    make_fields(n);
    at += sprintf(at, "{");
    for (size_t i = 1; i <= n; i++) {
        at += sprintf(at, i > 1 ? "," : "");
        at += sprintf(at, member, i);
    }
    sprintf(at, "}");
}
static void make_camel(size_t n) { make_members(n, "\"f%zuX\":1"); }
static void make_declared(size_t n) { make_members(n, "\"f_%zu_x\":1"); }

static void read_json(size_t n)
{
    (void)n;
    must(mb_from_json(&pool, type, (const uint8_t *)text, strlen(text), false, out, sizeof out, &size, &byte), "mb_from_json");
}

/* A set of a type with n fields, each with a json_name. */
static void make_given(size_t n)
{
    static uint8_t type_bytes[SIZE];
    char *at = text;
    size_t len;
    put_bytes(1, "T", 1);
    for (size_t i = 1; i <= n; i++) {
        char name[24], given[24];
        uint8_t number[8];
        size_t number_len = varint(number, i < 19000 ? i : i + 1000);
        int name_len = sprintf(name, "f_%zu_x", i), given_len = sprintf(given, "given%zu", i);
        put_length(2, 2 + (size_t)name_len + 1 + number_len + 4 + 2 + (size_t)given_len);
        put_bytes(1, name, (size_t)name_len);
        bytes[bytes_len++] = 0x18;
        memcpy(bytes + bytes_len, number, number_len);
        bytes_len += number_len;
        put(4, 1);
        put(5, 5);
        put_bytes(10, given, (size_t)given_len);
    }
    memcpy(type_bytes, bytes, len = bytes_len);
    bytes_len = 0;
    put_bytes(1, "a.proto", 7);
    put_bytes(4, type_bytes, len);
    put_bytes(12, "proto3", 6);
    memcpy(type_bytes, bytes, len = bytes_len);
    bytes_len = 0;
    put_bytes(1, type_bytes, len);
    must(mb_pool_link(bytes, bytes_len, &pool, FAULT, REFUSAL), "mb_pool_link");
    must(mb_pool_type(&pool, (const uint8_t *)"T", 1, &type), "mb_pool_type");
    at += sprintf(at, "{");
    for (size_t i = 1; i <= n; i++)
        at += sprintf(at, "%s\"given%zu\":1", i > 1 ? "," : "", i);
    sprintf(at, "}");
}

/* A type with a list of an enum of n values. */
static void make_enum(size_t n)
{
    char *at = text;
    at += sprintf(at, "syntax = \"proto3\"; message T { repeated E e = 1; } enum E { ");
    for (size_t i = 0; i < n; i++)
        at += sprintf(at, "V%zu = %zu; ", i, i);
    sprintf(at, "}");
    compile();
}

static void make_enum_names(size_t n)
{
    char *at = text;
    make_enum(n);
    at += sprintf(at, "{\"e\":[");
    for (size_t i = 0; i < n; i++)
        at += sprintf(at, "%s\"V%zu\"", i > 0 ? "," : "", i);
    sprintf(at, "]}");
}

static void make_enum_values(size_t n)
{
    make_enum(n);
    for (size_t i = 0; i < n; i++)
        put(1, i);
}

static void show(size_t n)
{
    (void)n;
    must(mb_show(&pool, type, bytes, bytes_len, LIMITS, out, sizeof out, &size, FAULT), "mb_show");
}

/* One source with a package of n words. */
static void make_package(size_t n)
{
    char *at = text;
    at += sprintf(at, "syntax = \"proto3\"; package a");
    for (size_t i = 1; i < n; i++)
        at += sprintf(at, ".a");
    sprintf(at, "; message T { T t = 1; }");
    file_names[0] = (struct mb_bytes){(const uint8_t *)"a.proto", 7};
    files[0] = (struct mb_bytes){(const uint8_t *)text, strlen(text)};
}

static void link_one(size_t n)
{
    (void)n;
    must(mb_pool_compile(file_names, 1, files, 1, &pool, REFUSAL), "mb_pool_compile");
}

/* n sources, each of which imports the one before it publicly and names the type of the first. */
static void make_chain(size_t n)
{
    char *at = text;
    for (size_t i = 0; i < n; i++) {
        file_names[i].at = (const uint8_t *)at;
        file_names[i].len = (size_t)sprintf(at, "f%zu.proto", i);
        at += file_names[i].len;
        files[i].at = (const uint8_t *)at;
        at += i == 0 ? sprintf(at, "syntax = \"proto3\"; message A { }")
                     : sprintf(at, "syntax = \"proto3\"; import public \"f%zu.proto\"; message T%zu { A a = 1; }", i - 1, i);
        files[i].len = (size_t)((const uint8_t *)at - files[i].at);
    }
}

static void link_all(size_t n)
{
    must(mb_pool_compile(file_names, n, files, n, &pool, REFUSAL), "mb_pool_compile");
}

/* An empty message, to be filled. */
static void make_empty(size_t n)
{
    (void)n;
    sprintf(text, "syntax = \"proto3\"; message T { repeated int32 l = 1; map<int32, int32> m = 2; }");
    compile();
    must(mb_message_new(&pool, type, &message), "mb_message_new");
}

static void push(size_t n)
{
    const struct mb_value place[] = {{MB_FIELD, 1}}, value = {MB_INT32, 1};
    for (size_t i = 0; i < n; i++)
        must(mb_message_push(&message, place, 1, NULL, 0, &value), "mb_message_push");
}

static void insert(size_t n)
{
    for (size_t i = 0; i < n; i++) {
        const struct mb_value place[] = {{MB_FIELD, 2}, {MB_INT32, i}}, value = {MB_INT32, 1};
        must(mb_message_insert(&message, place, 2, NULL, 0, &value), "mb_message_insert");
    }
}

static const struct {
    const char *name;
    void (*make)(size_t n);
    void (*call)(size_t n);
} rows[] = {
    {"keys", make_map, read_keys},
    {"scalars", make_scalars, get_scalars}, {"push", make_empty, push}, {"insert", make_empty, insert}, {"declared", make_declared, read_json},
    {"camel", make_camel, read_json}, {"given", make_given, read_json}, {"enum_names", make_enum_names, read_json},
    {"enum_values", make_enum_values, show}, {"package", make_package, link_one}, {"public_imports", make_chain, link_all},
};

/* What is counted. */
__attribute__((noinline)) void measured(void (*call)(size_t n), size_t n)
{
    call(n);
}

/* The names of the rows, or one row. */
int main(int argc, char **argv)
{
    for (count = 0; count < sizeof rows / sizeof *rows; count++) {
        if (argc == 1)
            puts(rows[count].name);
        if (argc == 3 && strcmp(argv[1], rows[count].name) == 0) {
            size_t n = strtoul(argv[2], NULL, 10);
            if (n == 0 || n > MOST)
                return 2;
            rows[count].make(n);
            measured(rows[count].call, n);
            mb_message_free(&message);
            mb_pool_free(&pool);
            return 0;
        }
    }
    return argc == 1 ? 0 : 2;
}
