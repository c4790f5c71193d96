/* check [--lenient] SET TYPE FILE: checks that a file is a message of a type in a descriptor set, as `pbtool check` does. */
#include "common.h"

#include <stdlib.h>

int main(int argc, char **argv)
{
    struct mb_pool pool = {0};
    struct report report;

    bool is_lenient = take_lenient(&argc, &argv);
    if (argc != 4 || mb_interface() != MB_INTERFACE) {
        fprintf(stderr, "usage: check [--lenient] SET TYPE FILE, with a library of interface %d\n", MB_INTERFACE);
        return 2;
    }
    uint32_t type = find_type(argv[1], argv[2], is_lenient, &pool);
    struct buffer file = read_file(argv[3]);
    uint32_t answer = mb_check(&pool, type, file.bytes, file.len, MB_MAX_BYTES, MB_MAX_DEPTH, &report.fault, report.path, MB_MAX_STEPS);
    free(file.bytes);
    mb_pool_free(&pool);
    if (answer != MB_DONE)
        return print_refusal(answer, &report);
    printf("ok\n");
    return 0;
}
