/* types [--lenient] SET: prints the declarations of a set, a line each, as `pbtool types` does, without the parts that lenient reading left out. */
#include "common.h"

#include <inttypes.h>
#include <stdlib.h>
#include <string.h>

/* The kinds by their numbers. Messages, groups and enums have names of their own. */
static const char *const kinds[19] = {
    [1] = "double", "float", "int64", "uint64", "int32", "fixed64", "fixed32", "bool", "string",
    [12] = "bytes", "uint32", [15] = "sfixed32", "sfixed64", "sint32", "sint64",
};

/* A name, in a buffer that holds the longest name so far. */
static struct buffer name;

/* Whether the buffer was too small for the whole name. Then it is made large enough, and the caller has to call again. */
static bool is_cut(void)
{
    if (name.len <= name.capacity)
        return false;
    grow(&name, name.len);
    return true;
}

static void print_name(void)
{
    fwrite(name.bytes, 1, name.len, stdout);
}

static struct mb_type message_at(struct mb_pool *pool, uint32_t type)
{
    struct mb_type report = {0};

    do
        mb_pool_message(pool, type, &report, name.bytes, name.capacity, &name.len);
    while (is_cut());
    return report;
}

static struct mb_enum enum_at(struct mb_pool *pool, size_t entry)
{
    struct mb_enum report = {0};

    do
        mb_pool_enum(pool, entry, &report, name.bytes, name.capacity, &name.len);
    while (is_cut());
    return report;
}

/* Reports a file, with its name alone in the buffer. */
static struct mb_file file_at(struct mb_pool *pool, size_t index)
{
    struct mb_file report = {0};

    do {
        mb_pool_file(pool, index, &report, name.bytes, name.capacity);
        name.len = report.name_len + report.package_len;
    } while (is_cut());
    name.len = report.name_len;
    return report;
}

static struct mb_field field_at(struct mb_pool *pool, uint32_t type, size_t index, uint32_t *detail)
{
    struct mb_field report = {0};

    do
        mb_pool_field_at(pool, type, index, &report, detail, name.bytes, name.capacity, &name.len);
    while (is_cut());
    return report;
}

/* Prints the kind of the values of a field. */
static void print_kind(struct mb_pool *pool, const struct mb_field *field)
{
    if (field->kind == 10 || field->kind == 11) {
        message_at(pool, (uint32_t)field->type_of);
        printf(field->kind == 10 ? "group " : "");
        print_name();
    } else if (field->kind == 14) {
        enum_at(pool, field->type_of);
        print_name();
    } else {
        printf("%s", kinds[field->kind]);
    }
}

static void print_field(struct mb_pool *pool, uint32_t type, size_t index)
{
    uint32_t detail = 0;

    printf("field ");
    message_at(pool, type);
    print_name();
    printf(".");
    struct mb_field field = field_at(pool, type, index, &detail);
    print_name();
    printf(" %" PRIu32 " ", field.number);
    if (field.shape == 2) {
        do
            mb_pool_oneof(pool, type, detail, name.bytes, name.capacity, &name.len);
        while (is_cut());
        printf("oneof:");
        print_name();
        printf(" ");
    } else {
        printf(field.shape == 0 ? "implicit " : field.shape == 1 ? "optional " : "repeated ");
    }
    if (field.shape == 4)
        printf("map<%s, ", kinds[field.key]);
    print_kind(pool, &field);
    printf(field.shape == 4 ? ">\n" : field.shape == 3 && detail == 1 ? " packed\n" : "\n");
}

static void print_message(struct mb_pool *pool, uint32_t type)
{
    struct mb_type report = message_at(pool, type);

    printf("message ");
    print_name();
    printf(" ");
    file_at(pool, report.file);
    print_name();
    printf("\n");
    for (size_t index = 0; index < report.fields; index++)
        print_field(pool, type, index);
}

static void print_enum(struct mb_pool *pool, size_t entry)
{
    struct mb_enum report = enum_at(pool, entry);
    int32_t number = 0;

    printf("enum ");
    print_name();
    printf(" ");
    file_at(pool, report.file);
    print_name();
    printf("\n");
    for (size_t index = 0; index < report.values; index++) {
        printf("value ");
        enum_at(pool, entry);
        print_name();
        printf(" ");
        do
            mb_pool_enum_value(pool, entry, index, &number, name.bytes, name.capacity, &name.len);
        while (is_cut());
        print_name();
        printf(" %" PRId32 "\n", number);
    }
}

int main(int argc, char **argv)
{
    struct mb_pool pool = {0};
    struct mb_counts counts = {0};

    bool is_lenient = take_lenient(&argc, &argv);
    if (argc != 2 || mb_interface() != MB_INTERFACE) {
        fprintf(stderr, "usage: types [--lenient] SET, with a library of interface %d\n", MB_INTERFACE);
        return 2;
    }
    link_set(argv[1], is_lenient, &pool);
    mb_pool_counts(&pool, &counts);
    for (size_t index = 0; index < counts.files; index++) {
        struct mb_file report = file_at(&pool, index);
        printf("file ");
        print_name();
        printf(report.proto2 ? " proto2\n" : " proto3\n");
    }
    for (size_t type = 0; type < counts.messages; type++)
        print_message(&pool, (uint32_t)type);
    for (size_t entry = 0; entry < counts.enums; entry++)
        print_enum(&pool, entry);
    free(name.bytes);
    mb_pool_free(&pool);
    return 0;
}
