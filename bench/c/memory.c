/* How much memory calls take at most for each byte of their input, of the worst shapes that a search finds: memory, linked with --wrap for malloc,
 * realloc and free. A line for each call: how many bytes it asks of malloc and holds at one time, for each byte of input, and of which shape. */
#include "mabristu.h"

#include <stddef.h>
#include <stdio.h>
#include <stdlib.h>
#include <string.h>

void *__real_malloc(size_t);
void *__real_realloc(void *, size_t);
void __real_free(void *);

/* Before each block its size, in as many bytes as keep the alignment. */
enum { BEFORE = 16, UNITS = 1 << 15, SIZE = 1 << 23, DEPTHS = 97 };

static size_t held, most;

static void *counted(uint8_t *block, size_t size)
{
    if (!block)
        return NULL;
    memcpy(block, &size, sizeof size);
    held += size;
    if (held > most)
        most = held;
    return block + BEFORE;
}

void *__wrap_malloc(size_t size) { return counted(__real_malloc(size + BEFORE), size); }

void __wrap_free(void *block)
{
    size_t size;
    if (!block)
        return;
    memcpy(&size, (uint8_t *)block - BEFORE, sizeof size);
    held -= size;
    __real_free((uint8_t *)block - BEFORE);
}

/* What is held while a block moves is counted once more, as realloc may need both. */
void *__wrap_realloc(void *block, size_t size)
{
    void *made = __wrap_malloc(size);
    size_t before;
    if (made && block) {
        memcpy(&before, (uint8_t *)block - BEFORE, sizeof before);
        memcpy(made, block, before < size ? before : size);
        __wrap_free(block);
    }
    return made;
}

#define SCHEMA \
    "syntax = \"proto2\"; import \"google/protobuf/struct.proto\";" \
    "message T { optional T one = 1; repeated T list = 2; map<int32, T> map = 3; oneof o { T member = 4; } optional group G = 5 { optional T in = 1; }" \
    "repeated group H = 6 { optional T in = 1; } repeated int32 numbers = 7; repeated string words = 8; optional int32 number = 9;" \
    "map<int32, int32> counts = 10; optional google.protobuf.Value value = 11; repeated double reals = 12 [packed = true]; }"
#define STRUCT \
    "syntax = \"proto3\"; package google.protobuf; message Struct { map<string, Value> fields = 1; } enum NullValue { NULL_VALUE = 0; }" \
    "message ListValue { repeated Value values = 1; } message Value { oneof kind { NullValue null_value = 1; double number_value = 2;" \
    "string string_value = 3; bool bool_value = 4; Struct struct_value = 5; ListValue list_value = 6; } }"

static struct mb_pool pool;
static uint32_t type;
static struct mb_refusal refusal;
static struct mb_fault fault;
static struct mb_step path[MB_MAX_STEPS];
static struct mb_message message;
static uint8_t names[1 << 12], bytes[SIZE], out[1 << 27];
static size_t bytes_len, size, byte;

#define INPUT bytes, bytes_len, MB_MAX_BYTES, MB_MAX_DEPTH
#define FAULT &fault, path, MB_MAX_STEPS

static uint32_t check(void) { return mb_check(&pool, type, INPUT, FAULT); }
static uint32_t canon(void) { return mb_canon(&pool, type, INPUT, out, sizeof out, &size, FAULT); }
static uint32_t show(void) { return mb_show(&pool, type, INPUT, out, sizeof out, &size, FAULT); }
static uint32_t decode(void) { return mb_message_decode(&pool, type, INPUT, &message, FAULT); }
static uint32_t from_json(void) { return mb_from_json(&pool, type, bytes, bytes_len, false, out, sizeof out, &size, &byte); }

static uint32_t link_set(void)
{
    static struct mb_pool made;
    uint32_t answer = mb_pool_link(bytes, bytes_len, &made, FAULT, &refusal, names, sizeof names);
    mb_pool_free(&made);
    return answer;
}

static uint32_t compile(void)
{
    static struct mb_pool made;
    const struct mb_bytes name = {(const uint8_t *)"a.proto", 7}, source = {bytes, bytes_len};
    uint32_t answer = mb_pool_compile(&name, 1, &source, 1, &made, &refusal, names, sizeof names);
    mb_pool_free(&made);
    return answer;
}

struct worst {
    const char *call;
    uint32_t (*run)(void);
    double ratio;
    char shape[128];
};

/* Runs a call on the bytes that are there, and keeps the shape where it takes more than all before. */
static void measure(struct worst *it, const char *shape)
{
    size_t before = held;
    most = held;
    uint32_t answer = it->run();
    double ratio = (double)(most - before) / (double)bytes_len;
    if (answer != MB_DONE) {
        fprintf(stderr, "memory: %s answers %u on %s\n", it->call, (unsigned)answer, shape);
        exit(2);
    }
    mb_message_free(&message);
    if (ratio > it->ratio) {
        it->ratio = ratio;
        snprintf(it->shape, sizeof it->shape, "%s", shape);
    }
}

static size_t varint(uint8_t *at, uint64_t number)
{
    size_t len = 0;
    for (; number > 127; number >>= 7)
        at[len++] = (uint8_t)(number | 128);
    at[len++] = (uint8_t)number;
    return len;
}

/* Ways to hold a message in a message. */
static const char *const WAYS[] = {"fields", "lists", "maps", "members of a oneof", "groups", "lists of groups"};
enum { ONE, LIST, MAP, MEMBER, GROUP, GROUPS, WAY_COUNT };

/* Puts a message of a length that ends at the end of a buffer into one more, by a way, before it. Returns the length. */
static size_t wrap(uint8_t *end, size_t len, int way)
{
    uint8_t head[32];
    size_t head_len = 0, after = 0;
    switch (way) {
    case GROUP:
    case GROUPS:
        /* The field `in` of the group holds it: the group is a level too. */
        head[head_len++] = way == GROUP ? 0x2b : 0x33;
        if (len) {
            head[head_len++] = 0x0a;
            head_len += varint(head + head_len, len);
        }
        after = 1;
        break;
    case MAP:
        head[head_len++] = 0x1a;
        head_len += varint(head + head_len, len + 1 + varint(names, len));
        head[head_len++] = 0x12;
        head_len += varint(head + head_len, len);
        break;
    default:
        head[head_len++] = way == ONE ? 0x0a : way == LIST ? 0x12 : 0x22;
        head_len += varint(head + head_len, len);
    }
    if (after) {
        memmove(end - len - 1, end - len, len);
        end[-1] = way == GROUP ? 0x2c : 0x34;
    }
    memcpy(end - len - after - head_len, head, head_len);
    return len + after + head_len;
}

/* Fills the bytes with a list of chains of messages, held by two ways in turn. */
static void chains(int first, int second, int depth, bool has_leaf)
{
    static uint8_t chain[1 << 12];
    uint8_t *end = chain + sizeof chain;
    size_t len = 0;
    if (has_leaf) {
        end[-2] = 0x48;
        end[-1] = 1;
        len = 2;
    }
    for (int level = 0; level < depth; level++)
        len = wrap(end, len, level % 2 ? second : first);
    len = wrap(end, len, LIST);
    /* A number before the list is out of order, so the bytes are not canonical, and the library builds the message. */
    bytes[0] = 0x48;
    bytes[1] = 1;
    for (bytes_len = 2; bytes_len + len < UNITS; bytes_len += len)
        memcpy(bytes + bytes_len, end - len, len);
}

static int levels(int way) { return way == MAP || way == GROUP || way == GROUPS ? 2 : 1; }

static void messages(struct worst *calls, size_t count)
{
    char shape[128];
    for (int first = 0; first < WAY_COUNT; first++)
        for (int second = 0; second < WAY_COUNT; second++)
            for (int depth = 0; (depth + 1) / 2 * levels(first) + depth / 2 * levels(second) < DEPTHS; depth += depth < 8 || (depth > 28 && depth < 34) || (depth > 56 && depth < 66) ? 1 : 8)
                for (int has_leaf = 0; has_leaf < 2; has_leaf++) {
                    chains(first, second, depth, has_leaf);
                    if (first == second)
                        snprintf(shape, sizeof shape, "%s nested %d deep%s", WAYS[first], depth + 1, has_leaf ? ", a number in the last" : "");
                    else
                        snprintf(shape, sizeof shape, "%s and %s in turn, nested %d deep%s", WAYS[first], WAYS[second], depth + 1, has_leaf ? ", a number in the last" : "");
                    for (size_t i = 0; i < count; i++)
                        measure(&calls[i], shape);
                }
}

/* Fills the bytes with a unit again and again, between two ends. */
static void fill(const char *begin, const char *unit, size_t unit_len, const char *end)
{
    bytes_len = strlen(begin);
    memcpy(bytes, begin, bytes_len);
    for (; bytes_len + unit_len < UNITS; bytes_len += unit_len)
        memcpy(bytes + bytes_len, unit, unit_len);
    memcpy(bytes + bytes_len, end, strlen(end));
    bytes_len += strlen(end);
}

struct shape {
    const char *name, *begin, *unit, *end;
};

static void shapes(struct worst *call, const struct shape *given, size_t count)
{
    for (size_t i = 0; i < count; i++) {
        fill(given[i].begin, given[i].unit, strlen(given[i].unit), given[i].end);
        measure(call, given[i].name);
    }
}

/* The last value of a list has no comma after it, so it stands at the end. */
static const struct shape JSON[] = {
    {"a list of empty messages", "{\"list\":[", "{},", "{}]}"},
    {"a list of messages that hold one", "{\"list\":[", "{\"one\":{}},", "{}]}"},
    {"a list of numbers", "{\"numbers\":[", "1,", "1]}"},
    {"a list of empty strings", "{\"words\":[", "\"\",", "\"\"]}"},
    {"a Value of empty lists", "{\"value\":[", "[],", "[]]}"},
    {"a Value of empty objects", "{\"value\":[", "{},", "{}]}"},
    {"a Value of numbers", "{\"value\":[", "1,", "1]}"},
    {"a Value of lists in lists", "{\"value\":[", "[[[[]]]],", "[]]}"},
};

static const struct shape SOURCES[] = {
    {"empty statements", "syntax=\"proto3\";", ";", ""},
    {"blanks", "syntax=\"proto3\";", " ", ""},
    {"comments", "syntax=\"proto3\";", "/**/", ""},
};

/* The words of a source of n declarations, each with a name of its own. */
static void named(const char *begin, const char *declaration, const char *end)
{
    char *at = (char *)bytes;
    at += sprintf(at, "%s", begin);
    for (int i = 1; i < 6000; i++)
        at += sprintf(at, declaration, i, i);
    at += sprintf(at, "%s", end);
    bytes_len = (size_t)(at - (char *)bytes);
}

/* A set of the source that is there: what mb_pool_set writes of its pool. */
static void make_set(void)
{
    static struct mb_pool made;
    const struct mb_bytes name = {(const uint8_t *)"a.proto", 7}, source = {bytes, bytes_len};
    if (mb_pool_compile(&name, 1, &source, 1, &made, &refusal, names, sizeof names) != MB_DONE || mb_pool_set(&made, out, sizeof out, &size) != MB_DONE)
        exit(2);
    memcpy(bytes, out, size);
    bytes_len = size;
    mb_pool_free(&made);
}

static void schemas(struct worst *link, struct worst *source)
{
    static const struct {
        const char *name, *begin, *declaration, *end;
    } GIVEN[] = {
        {"empty messages", "syntax=\"proto3\";", "message m%d{}", ""},
        {"fields", "syntax=\"proto3\";message M{", "bool f%d=%d;", "}"},
        {"messages of a field", "syntax=\"proto3\";", "message m%d{bool a=1;}", ""},
        {"enum values", "syntax=\"proto3\";enum E{a=0;", "v%d=%d;", "}"},
        {"maps", "syntax=\"proto3\";message M{", "map<bool,bool>f%d=%d;", "}"},
        {"empty services", "syntax=\"proto3\";", "service s%d{}", ""},
    };
    for (size_t i = 0; i < sizeof GIVEN / sizeof *GIVEN; i++) {
        named(GIVEN[i].begin, GIVEN[i].declaration, GIVEN[i].end);
        measure(source, GIVEN[i].name);
        make_set();
        measure(link, GIVEN[i].name);
    }
}

int main(void)
{
    const struct mb_bytes file_names[] = {{(const uint8_t *)"a.proto", 7}, {(const uint8_t *)"google/protobuf/struct.proto", 28}};
    const struct mb_bytes sources[] = {{(const uint8_t *)SCHEMA, strlen(SCHEMA)}, {(const uint8_t *)STRUCT, strlen(STRUCT)}};
    struct worst calls[] = {{"mb_check", check, 0, ""}, {"mb_message_decode", decode, 0, ""}, {"mb_canon", canon, 0, ""}, {"mb_show", show, 0, ""},
                            {"mb_from_json", from_json, 0, ""}, {"mb_pool_link", link_set, 0, ""}, {"mb_pool_compile", compile, 0, ""}};
    if (mb_pool_compile_lenient(file_names, 2, sources, 2, &pool, &refusal, names, sizeof names) != MB_DONE ||
        mb_pool_type(&pool, (const uint8_t *)"T", 1, &type) != MB_DONE) {
        fprintf(stderr, "memory: the schema is refused at byte %zu\n", (size_t)refusal.byte);
        return 2;
    }
    messages(calls, 4);
    shapes(&calls[4], JSON, sizeof JSON / sizeof *JSON);
    shapes(&calls[6], SOURCES, sizeof SOURCES / sizeof *SOURCES);
    schemas(&calls[5], &calls[6]);
    for (size_t i = 0; i < sizeof calls / sizeof *calls; i++)
        printf("%s: at most %.0f bytes for each byte of input%s%s\n", calls[i].call, calls[i].ratio, *calls[i].shape ? ": " : "", calls[i].shape);
    mb_pool_free(&pool);
    return 0;
}
