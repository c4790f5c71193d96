/* upb, by types made at run time, as speed.cc times it. Each message is made in an arena of its own, which is freed with it. */
#include "upb.h"

#include "php-upb.h"

/* As deep as the inputs nest: by itself upb takes 64 levels. */
enum { DEPTH = 100 };

static const upb_MiniTable *table;
static const upb_MessageDef *declared;

bool upb_link_set(const char *set, size_t set_len, const char *type_name)
{
    upb_Arena *arena = upb_Arena_New();
    upb_DefPool *pool = upb_DefPool_New();
    google_protobuf_FileDescriptorSet *read = google_protobuf_FileDescriptorSet_parse(set, set_len, arena);
    size_t count = 0;
    upb_Status status;
    const google_protobuf_FileDescriptorProto *const *files = read == NULL ? NULL : google_protobuf_FileDescriptorSet_file(read, &count);

    upb_Status_Clear(&status);
    for (size_t i = 0; i < count; i++)
        if (upb_DefPool_AddFile(pool, files[i], &status) == NULL)
            return false;
    upb_Arena_Free(arena);
    const upb_MessageDef *type = upb_DefPool_FindMessageByName(pool, type_name);
    if (type != NULL)
        table = upb_MessageDef_MiniTable(type);
    declared = type;
    return type != NULL;
}

/* The message that an input encodes, or null. */
static upb_Message *decoded(const char *input, size_t len, upb_Arena *arena)
{
    upb_Message *message = _upb_Message_New(table, arena);
    return upb_Decode(input, len, message, table, NULL, UPB_DECODE_MAXDEPTH(DEPTH), arena) == kUpb_DecodeStatus_Ok ? message : NULL;
}

bool upb_read(const char *input, size_t len)
{
    upb_Arena *arena = upb_Arena_New();
    bool is_read = decoded(input, len, arena) != NULL;
    upb_Arena_Free(arena);
    return is_read;
}

bool upb_rewrite(const char *input, size_t len, size_t *size)
{
    upb_Arena *arena = upb_Arena_New();
    upb_Message *message = decoded(input, len, arena);
    bool is_written = message != NULL && upb_Encode(message, table, kUpb_Encode_Deterministic | UPB_ENCODE_MAXDEPTH(DEPTH), arena, size) != NULL;
    upb_Arena_Free(arena);
    return is_written;
}

bool upb_route(const char *input, size_t len, uint32_t field, uint64_t *value, size_t *size)
{
    upb_Arena *arena = upb_Arena_New();
    upb_Message *message = decoded(input, len, arena);
    bool is_written = message != NULL;

    if (is_written) {
        *value = upb_Message_Get(message, upb_MessageDef_FindFieldByNumber(declared, field)).uint64_val;
        is_written = upb_Encode(message, table, kUpb_Encode_Deterministic | UPB_ENCODE_MAXDEPTH(DEPTH), arena, size) != NULL;
    }
    upb_Arena_Free(arena);
    return is_written;
}
