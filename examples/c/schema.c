/* schema SET TYPE NAME..: prints fields of a message type, or of the messages in its fields. A NAME is as lines or lines.price. */
#include "common.h"

#include <inttypes.h>
#include <string.h>

static const char *const kinds[] = {"", "double", "float", "int64", "uint64", "int32", "fixed64", "fixed32", "bool", "string", "group",
                                    "message", "bytes", "uint32", "enum", "sfixed32", "sfixed64", "sint32", "sint64"};
static const char *const shapes[] = {"implicit", "optional", "oneof", "list", "map"};

/* Finds a field by its name, from the type on, through the messages on the way. */
static bool find_field(struct mb_pool *pool, uint32_t type, const char *name, struct mb_field *field)
{
    for (;;) {
        size_t len = strcspn(name, ".");
        if (mb_pool_field(pool, type, (const uint8_t *)name, len, field) != MB_DONE)
            return false;
        if (name[len] == '\0')
            return true;
        if (field->kind != 10 && field->kind != 11)
            return false;
        type = (uint32_t)field->type_of;
        name += len + 1;
    }
}

int main(int argc, char **argv)
{
    struct mb_pool pool = {0};
    struct mb_field field;
    int status = 0;

    if (argc < 3 || mb_interface() != MB_INTERFACE) {
        fprintf(stderr, "usage: schema SET TYPE NAME..\n");
        return 2;
    }
    uint32_t type = find_type(argv[1], argv[2], false, &pool);
    for (int i = 3; i < argc && status == 0; i++) {
        if (find_field(&pool, type, argv[i], &field))
            printf("%s %" PRIu32 " %s %s\n", argv[i], field.number, kinds[field.kind], shapes[field.shape]);
        else
            status = 1;
    }
    mb_pool_free(&pool);
    return status;
}
