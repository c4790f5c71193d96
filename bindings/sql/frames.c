/* The frames of a stream: each message after its length. */
#include "sql.h"

#include <inttypes.h>
#include <stdio.h>

/* The fault of the frame that a stream ends in. What there is of its message has one, or it is whole records, and ends too early. */
static void find_cut(const struct type *type, struct mb_bytes frame, size_t begin, struct report *report)
{
    struct mb_bytes message = {frame.at + begin, frame.len - begin};

    report->fault = (struct mb_fault){.byte = message.len, .cause = MB_TRUNCATED};
    mb_check(type->pool, type->number, message.at, message.len, MB_MAX_BYTES, MB_MAX_DEPTH, &report->fault, report->path, MB_MAX_STEPS);
    report->fault.byte += begin;
}

bool next_row(const struct type *type, struct mb_bytes stream, size_t at, uint64_t index, struct row *row, struct problem *problem)
{
    struct mb_bytes rest = {stream.at + at, stream.len - at};
    struct mb_frame frame = {0, 0};
    struct report report;
    char before[32];
    uint32_t answer = mb_frames(type->pool, type->number, rest.at, rest.len, MB_MAX_BYTES, MB_MAX_DEPTH, &frame, &report.fault, report.path, MB_MAX_STEPS);

    if (answer != MB_DONE && answer != MB_FAULT && answer != MB_PART)
        return refuse_answer(problem, answer);
    if (answer == MB_PART)
        find_cut(type, rest, frame.end == 0 ? rest.len : frame.begin, &report);
    /* A frame that the stream ends in, or whose length cannot be read, is the last. */
    bool is_last = answer == MB_PART || frame.end == 0 || frame.end > rest.len;
    *row = (struct row){at, at + frame.begin, is_last ? stream.len : at + frame.end, answer != MB_DONE, frame.end != 0, is_last ? stream.len : at + frame.end};
    if (row->is_refused) {
        snprintf(before, sizeof before, "frame %" PRIu64 " ", index);
        refuse_bytes(problem, MB_FAULT, before, &report, type);
    }
    return true;
}
