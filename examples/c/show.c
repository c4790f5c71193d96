/* show [--decimal] [--lenient] SET TYPE FILE: prints the message in a file, as `pbtool show` does, with `--decimal` as `pbtool show --decimal`. */
#include "common.h"

#include <stdlib.h>

int main(int argc, char **argv)
{
    struct mb_pool pool = {0};
    struct buffer listing = {0};
    struct report report;
    uint32_t answer;

    bool is_decimal = take_flag("--decimal", &argc, &argv), is_lenient = take_lenient(&argc, &argv);
    if (argc != 4 || mb_interface() != MB_INTERFACE) {
        fprintf(stderr, "usage: show [--decimal] [--lenient] SET TYPE FILE, with a library of interface %d\n", MB_INTERFACE);
        return 2;
    }
    uint32_t type = find_type(argv[1], argv[2], is_lenient, &pool);
    struct buffer file = read_file(argv[3]);
    /* If the listing is longer than the buffer, the call reports its length: call again with a buffer of this length. */
    do {
        grow(&listing, listing.len + 256);
        answer = (is_decimal ? mb_show_decimal : mb_show)(&pool, type, file.bytes, file.len, MB_MAX_BYTES, MB_MAX_DEPTH, listing.bytes, listing.capacity,
                                                          &listing.len, &report.fault, report.path, MB_MAX_STEPS);
    } while (answer == MB_DONE && listing.len > listing.capacity);
    if (answer == MB_DONE)
        fwrite(listing.bytes, 1, listing.len, stdout);
    free(listing.bytes);
    free(file.bytes);
    mb_pool_free(&pool);
    return answer == MB_DONE ? 0 : print_refusal(answer, &report);
}
