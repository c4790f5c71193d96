/* compat OLD_SET OLD_TYPE NEW_SET NEW_TYPE: prints what happens to messages of an old type that are read as a new type. A line for each difference has the
 * full name of the old type, the field's number, the severity, and the full name of the new type. After a difference that breaks reading, the program
 * prints the bytes of a message that shows the break. */
#include "common.h"

#include <inttypes.h>
#include <stdlib.h>

/* Prints the full name of a type. */
static void print_type(struct mb_pool *pool, size_t number)
{
    struct mb_type report;
    uint8_t name[256];
    size_t size = 0;

    if (mb_pool_message(pool, (uint32_t)number, &report, name, sizeof name, &size) == MB_DONE)
        fwrite(name, 1, size < sizeof name ? size : sizeof name, stdout);
}

static void print(struct mb_pool *old, struct mb_pool *new_pool, const struct mb_difference *it)
{
    static const char *const words[] = {NULL, "breaks", "loses", "presence", "converts", "renames"};

    print_type(old, it->old_type);
    printf(" %" PRIu32 " %s ", it->number, words[it->severity]);
    print_type(new_pool, it->new_type);
    printf("\n");
}

/* Prints the canonical bytes of a message that shows the break, if the difference breaks reading. */
static uint32_t print_witness(struct mb_pool *pools, const uint32_t *types, const struct mb_difference *it)
{
    struct mb_message message = {0};
    uint32_t answer = mb_compat_witness(&pools[0], types[0], &pools[1], types[1], it, &message);
    uint8_t bytes[4096];
    size_t size = 0;

    if (answer == MB_DONE)
        answer = mb_message_encode(&message, bytes, sizeof bytes, &size);
    mb_message_free(&message);
    if (answer == MB_DONE) {
        printf("  shown by ");
        for (size_t i = 0; i < size && i < sizeof bytes; i++)
            printf("%02x", bytes[i]);
        printf("\n");
    }
    return answer == MB_ABSENT ? MB_DONE : answer;
}

int main(int argc, char **argv)
{
    struct mb_pool pools[2] = {{0}, {0}};
    struct mb_difference *found = NULL;
    size_t count = 0, len;
    uint32_t types[2], answer;

    if (argc != 5 || mb_interface() != MB_INTERFACE) {
        fprintf(stderr, "usage: compat OLD_SET OLD_TYPE NEW_SET NEW_TYPE, with a library of interface %d\n", MB_INTERFACE);
        return 2;
    }
    for (int i = 0; i < 2; i++)
        types[i] = find_type(argv[2 * i + 1], argv[2 * i + 2], false, &pools[i]);
    /* If there are more differences than the list holds, the call reports how many there are. */
    do {
        len = count + 1;
        if ((found = realloc(found, len * sizeof *found)) == NULL)
            return print_refusal(MB_MEMORY, NULL);
        answer = mb_compat(&pools[0], types[0], &pools[1], types[1], found, len, &count);
    } while (answer == MB_DONE && count > len);
    for (size_t i = 0; answer == MB_DONE && i < count; i++) {
        print(&pools[0], &pools[1], &found[i]);
        answer = print_witness(pools, types, &found[i]);
    }
    free(found);
    mb_pool_free(&pools[0]);
    mb_pool_free(&pools[1]);
    return answer == MB_DONE ? 0 : print_refusal(answer, NULL);
}
