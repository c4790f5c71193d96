/* skip_bad SET TYPE STREAM OUT: copies the good frames of a stream of messages, and reports the bad ones. */
#include "common.h"

#include <inttypes.h>
#include <stdlib.h>

int main(int argc, char **argv)
{
    struct mb_pool pool = {0};
    struct mb_frame frame;
    struct report report;
    size_t kept = 0, skipped = 0;

    if (argc != 5 || mb_interface() != MB_INTERFACE) {
        fprintf(stderr, "usage: skip_bad SET TYPE STREAM OUT\n");
        return 2;
    }
    uint32_t type = find_type(argv[1], argv[2], false, &pool);
    struct buffer stream = read_file(argv[3]);
    FILE *out = fopen(argv[4], "wb");
    for (size_t at = 0; out != NULL && at < stream.len;) {
        const uint8_t *bytes = stream.bytes + at;
        size_t left = stream.len - at;
        uint32_t answer = mb_frames(&pool, type, bytes, left, MB_MAX_BYTES, MB_MAX_DEPTH, &frame, &report.fault, report.path, MB_MAX_STEPS);
        if (answer == MB_DONE) {
            fwrite(bytes, 1, frame.end, out);
            at += frame.end;
            kept++;
            continue;
        }
        if (answer == MB_PART)
            cut_frame(&pool, type, bytes, left, &report);
        else if (answer != MB_FAULT)
            return print_refusal(answer, &report);
        printf("frame %zu byte %" PRIu64, kept + skipped++, report.fault.byte);
        print_path(stdout, " path ", &report, " cause ");
        /* Go on after the frame, if its length can be read and the stream does not end in it. */
        at += frame.end == 0 || frame.end > left ? left : frame.end;
    }
    free(stream.bytes);
    mb_pool_free(&pool);
    if (out == NULL || fclose(out) != 0)
        return 3;
    printf("%zu kept, %zu skipped\n", kept, skipped);
    return 0;
}
