/* walk [--lenient] SET TYPE FILE: prints a stream of messages, each after its length, as `pbtool frames` does. The program reads FILE piece by piece. So FILE
 * may be a pipe, and the program holds not much more than one frame of it. */
#include "common.h"

#include <stdlib.h>

/* Prints a message, indented by one level. Returns the answer of mb_show. */
static uint32_t list(struct mb_pool *pool, uint32_t type, const uint8_t *bytes, size_t len, struct buffer *listing, struct report *report)
{
    uint32_t answer;

    do {
        grow(listing, listing->len + 256);
        answer = mb_show(pool, type, bytes, len, MB_MAX_BYTES, MB_MAX_DEPTH, listing->bytes, listing->capacity, &listing->len, &report->fault,
                         report->path, MB_MAX_STEPS);
    } while (answer == MB_DONE && listing->len > listing->capacity);
    for (size_t at = 0; answer == MB_DONE && at < listing->len; at++) {
        if (at == 0 || listing->bytes[at - 1] == '\n')
            printf("  ");
        putchar(listing->bytes[at]);
    }
    return answer;
}

/* Reports why the bytes begin with no frame, and returns the exit status. For MB_PART the file ends inside the frame. */
static int print_frame_refusal(uint32_t answer, struct mb_pool *pool, uint32_t type, const uint8_t *bytes, size_t len, size_t number, struct report *report)
{
    if (answer == MB_PART) {
        cut_frame(pool, type, bytes, len, report);
        answer = MB_FAULT;
    }
    if (answer == MB_FAULT)
        fprintf(stderr, "frame %zu ", number);
    return print_refusal(answer, report);
}

int main(int argc, char **argv)
{
    struct mb_pool pool = {0};
    struct buffer held = {0}, listing = {0};
    struct mb_frame frame;
    struct report report;
    size_t number = 0, at = 0;
    uint32_t answer = MB_PART;

    bool is_lenient = take_lenient(&argc, &argv);
    if (argc != 4 || mb_interface() != MB_INTERFACE) {
        fprintf(stderr, "usage: walk [--lenient] SET TYPE FILE, with a library of interface %d\n", MB_INTERFACE);
        return 2;
    }
    uint32_t type = find_type(argv[1], argv[2], is_lenient, &pool);
    FILE *file = open_file(argv[3]);
    while (answer == MB_DONE || (answer == MB_PART && read_more(file, &held))) {
        answer = mb_frames(&pool, type, held.bytes + held.done, held.len - held.done, MB_MAX_BYTES, MB_MAX_DEPTH, &frame, &report.fault, report.path,
                           MB_MAX_STEPS);
        if (answer == MB_DONE) {
            printf("frame %zu at %zu size %zu\n", number++, at, frame.end);
            answer = list(&pool, type, held.bytes + held.done + frame.begin, frame.end - frame.begin, &listing, &report);
            held.done += frame.end;
            at += frame.end;
        }
    }
    close_file(file, argv[3]);
    int status = 0;
    if (answer != MB_PART || held.done < held.len)
        status = print_frame_refusal(answer, &pool, type, held.bytes + held.done, held.len - held.done, number, &report);
    free(listing.bytes);
    free(held.bytes);
    mb_pool_free(&pool);
    return status;
}
