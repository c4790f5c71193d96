/* corrupt_byte SET TYPE STREAM: finds the first corrupt byte of a stream of messages, each after its length. */
#include "common.h"

#include <inttypes.h>
#include <stdlib.h>

int main(int argc, char **argv)
{
    struct mb_pool pool = {0};
    struct mb_frame frame;
    struct report report;
    size_t at = 0, count = 0;
    uint32_t answer = MB_DONE;

    if (argc != 4 || mb_interface() != MB_INTERFACE) {
        fprintf(stderr, "usage: corrupt_byte SET TYPE STREAM\n");
        return 2;
    }
    uint32_t type = find_type(argv[1], argv[2], false, &pool);
    struct buffer stream = read_file(argv[3]);
    for (; at < stream.len; at += frame.end, count++) {
        answer = mb_frames(&pool, type, stream.bytes + at, stream.len - at, MB_MAX_BYTES, MB_MAX_DEPTH, &frame, &report.fault, report.path, MB_MAX_STEPS);
        if (answer == MB_PART)
            cut_frame(&pool, type, stream.bytes + at, stream.len - at, &report);
        if (answer != MB_DONE)
            break;
    }
    if (answer == MB_DONE) {
        printf("%zu frames without a fault\n", count);
    } else if (answer == MB_FAULT || answer == MB_PART) {
        printf("byte %" PRIu64 " of the stream, in frame %zu", at + report.fault.byte, count);
        print_path(stdout, ", path ", &report, ", cause ");
    }
    free(stream.bytes);
    mb_pool_free(&pool);
    return answer == MB_DONE ? 0 : answer == MB_MEMORY ? print_refusal(answer, &report) : 1;
}
