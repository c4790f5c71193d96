#include "common.h"

#include <inttypes.h>
#include <stdio.h>

/* Writes the name that the library gives for the number of a cause. */
static void print_cause(FILE *out, uint32_t cause)
{
    uint8_t name[64];
    size_t size = 0;

    if (mb_cause_name(cause, name, sizeof name, &size) == MB_DONE)
        fwrite(name, 1, size < sizeof name ? size : sizeof name, out);
    fputc('\n', out);
}

void print_path(FILE *out, const char *before, const struct report *report, const char *between)
{
    fprintf(out, "%s%s", before, report->fault.steps == 0 ? "-" : "");
    for (size_t i = 0; i < report->fault.steps && i < MB_MAX_STEPS; i++)
        fprintf(out, "%s%" PRIu32 "[%" PRIu32 "]", i == 0 ? "" : ".", report->path[i].number, report->path[i].before);
    fputs(between, out);
    print_cause(out, report->fault.cause);
}

void print_json_refusal(uint32_t answer, const uint32_t *path, size_t steps)
{
    fprintf(stderr, "json path %s", steps == 0 ? "-" : "");
    for (size_t i = 0; i < steps && i < MB_MAX_STEPS; i++)
        fprintf(stderr, "%s%" PRIu32, i == 0 ? "" : ".", path[i]);
    fputs(" cause ", stderr);
    print_cause(stderr, answer);
}

void print_text_refusal(uint32_t answer, size_t byte)
{
    fprintf(stderr, "json byte %zu cause ", byte);
    print_cause(stderr, answer);
}

int print_refusal(uint32_t answer, const struct report *report)
{
    if (answer != MB_FAULT) {
        fprintf(stderr, answer == MB_TOO_LARGE ? "output cause TooLarge\n" : "memory\n");
        return answer == MB_TOO_LARGE ? 1 : 3;
    }
    fprintf(stderr, "byte %" PRIu64, report->fault.byte);
    print_path(stderr, " path ", report, " cause ");
    return 1;
}

/* A name, or - if it is empty. */
static void print_name(const uint8_t *name, size_t len)
{
    fwrite(len == 0 ? (const uint8_t *)"-" : name, 1, len == 0 ? 1 : len, stderr);
}

/* The file and the declaration that do not link. */
static void print_names(const struct mb_refusal *refusal, const uint8_t *text)
{
    fprintf(stderr, "link ");
    print_name(text, refusal->file_len);
    fprintf(stderr, " at ");
    print_name(text + refusal->file_len, refusal->name_len);
}

int print_link_refusal(uint32_t answer, const struct report *report, const struct mb_refusal *refusal, const uint8_t *text)
{
    if (answer == MB_MEMORY || answer == MB_FAULT) {
        fprintf(stderr, answer == MB_FAULT ? "set " : "");
        return print_refusal(answer, report);
    }
    if (answer < 71)
        fprintf(stderr, "set file %zu", refusal->file);
    else
        print_names(refusal, text);
    fprintf(stderr, " cause ");
    print_cause(stderr, answer);
    return 1;
}

int print_compile_refusal(uint32_t answer, const struct mb_refusal *refusal, const uint8_t *text, char *const *names)
{
    if (answer == MB_MEMORY)
        return print_refusal(answer, NULL);
    if (answer == MB_BAD_NAME) {
        fprintf(stderr, "a name is not UTF-8\n");
        return 1;
    }
    if (answer < 71)
        fprintf(stderr, "source %s byte %" PRIu64, names[refusal->file], refusal->byte);
    else
        print_names(refusal, text);
    fprintf(stderr, " cause ");
    print_cause(stderr, answer);
    return 1;
}
