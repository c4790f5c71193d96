/* sources [--lenient] ROOT FILE..: checks that sources of proto3 link, as `pbtool compile` does, by the strict grammar or leniently. FILE is a name as in an
 * import, below ROOT. The files that a source imports have to be among the FILEs. */
#include "common.h"

#include <stdlib.h>
#include <string.h>

/* The source with a name. */
static struct buffer read_source(const char *root, const char *name)
{
    struct buffer path = {0};

    grow(&path, strlen(root) + strlen(name) + 2);
    sprintf((char *)path.bytes, "%s/%s", root, name);
    struct buffer source = read_file((const char *)path.bytes);
    free(path.bytes);
    return source;
}

int main(int argc, char **argv)
{
    struct mb_pool pool = {0};
    struct mb_refusal refusal = {0};
    struct buffer text = {0};
    uint32_t answer;

    bool is_lenient = take_lenient(&argc, &argv);
    if (argc < 3 || mb_interface() != MB_INTERFACE) {
        fprintf(stderr, "usage: sources [--lenient] ROOT FILE.., with a library of interface %d\n", MB_INTERFACE);
        return 2;
    }
    size_t count = (size_t)argc - 2;
    struct mb_bytes *names = calloc(2 * count, sizeof *names);
    if (names == NULL)
        return print_refusal(MB_MEMORY, NULL);
    struct mb_bytes *texts = names + count;
    for (size_t i = 0; i < count; i++) {
        struct buffer source = read_source(argv[1], argv[i + 2]);
        names[i] = (struct mb_bytes){(const uint8_t *)argv[i + 2], strlen(argv[i + 2])};
        texts[i] = (struct mb_bytes){source.bytes, source.len};
    }
    /* If the names are longer than the buffer, the call reports their lengths: call again with a buffer of this length. */
    do {
        grow(&text, refusal.file_len + refusal.name_len + 256);
        answer = (is_lenient ? mb_pool_compile_lenient : mb_pool_compile)(names, count, texts, count, &pool, &refusal, text.bytes, text.capacity);
    } while (answer != MB_DONE && refusal.file_len + refusal.name_len > text.capacity);
    int status = answer == MB_DONE ? 0 : print_compile_refusal(answer, &refusal, text.bytes, argv + 2);
    for (size_t i = 0; i < count; i++)
        free((void *)texts[i].at);
    free(names);
    free(text.bytes);
    mb_pool_free(&pool);
    return status;
}
