/* From what a call answers to the line that pbtool prints. */
#include "sql.h"

#include <inttypes.h>
#include <stdarg.h>
#include <stdio.h>
#include <string.h>

struct shown show(const void *at, size_t len)
{
    struct shown shown = {""};
    const unsigned char *bytes = at;
    size_t most = sizeof shown.text - 4;

    for (size_t i = 0; i < len && i < most; i++)
        shown.text[i] = bytes[i] >= 32 && bytes[i] < 127 ? (char)bytes[i] : '?';
    if (len > most)
        memcpy(shown.text + most, "..", 3);
    return shown;
}

bool refuse(struct problem *problem, enum reason reason, const char *format, ...)
{
    va_list more;

    problem->reason = reason;
    va_start(more, format);
    vsnprintf(problem->line, sizeof problem->line, format, more);
    va_end(more);
    return false;
}

/* Puts words after those in the line, as far as it holds them. */
__attribute__((format(printf, 2, 3))) static void put(struct problem *problem, const char *format, ...)
{
    size_t len = strlen(problem->line);
    va_list more;

    va_start(more, format);
    vsnprintf(problem->line + len, sizeof problem->line - len, format, more);
    va_end(more);
}

static void put_cause(struct problem *problem, uint32_t cause)
{
    uint8_t name[64] = {0};
    size_t size = 0;

    if (mb_cause_name(cause, name, sizeof name - 1, &size) != MB_DONE)
        snprintf((char *)name, sizeof name, "%" PRIu32, cause);
    put(problem, " cause %s", (const char *)name);
}

static void put_fault(struct problem *problem, const struct report *report)
{
    put(problem, "byte %" PRIu64 " path %s", report->fault.byte, report->fault.steps == 0 ? "-" : "");
    for (size_t i = 0; i < report->fault.steps && i < MB_MAX_STEPS; i++)
        put(problem, "%s%" PRIu32 "[%" PRIu32 "]", i == 0 ? "" : ".", report->path[i].number, report->path[i].before);
    put_cause(problem, report->fault.cause);
}

/* Finds the field of a number in a type. Returns false if it has none. */
static bool find_field(const struct type *type, uint32_t number, struct mb_field *field, struct shown *shown)
{
    uint8_t name[sizeof shown->text];
    uint32_t detail;
    size_t size = 0;

    for (size_t i = 0; mb_pool_field_at(type->pool, type->number, i, field, &detail, name, sizeof name, &size) == MB_DONE; i++)
        if (field->number == number) {
            *shown = show(name, size < sizeof name ? size : sizeof name);
            return true;
        }
    return false;
}

/* Puts the path with names: in an entry of a map `key` and `value`, and an index where there may be several records. It ends at the first record that is of
 * no field: a scalar has nothing inside. */
static void put_names(struct problem *problem, const struct report *report, struct type type)
{
    struct mb_field field = {0};
    struct shown name;
    bool is_entry = false, goes_on = report->fault.steps > 0;

    put(problem, "%s", goes_on ? " (" : "");
    for (size_t i = 0; goes_on && i < report->fault.steps && i < MB_MAX_STEPS; i++) {
        const struct mb_step *step = &report->path[i];
        put(problem, "%s", i == 0 ? "" : ".");
        if (is_entry) {
            put(problem, "%s", step->number == 1 ? "key" : step->number == 2 ? "value" : "?");
            is_entry = false;
            goes_on = step->number == 2 && is_message_kind(field.kind);
        } else if (find_field(&type, step->number, &field, &name) && (i + 1 == report->fault.steps || field.shape == SHAPE_MAP || is_message_kind(field.kind))) {
            is_entry = field.shape == SHAPE_MAP;
            put(problem, step->before > 0 || field.shape >= SHAPE_LIST ? "%s[%" PRIu32 "]" : "%s", name.text, step->before);
        } else {
            put(problem, "%" PRIu32, step->number);
            goes_on = false;
        }
        type.number = (uint32_t)field.type_of;
    }
    put(problem, "%s", report->fault.steps > 0 ? ")" : "");
}

bool refuse_answer(struct problem *problem, uint32_t answer)
{
    switch (answer) {
    case MB_TOO_LARGE:
        return refuse(problem, RESULT_TOO_LARGE, "output cause TooLarge");
    case MB_MEMORY:
        return refuse(problem, OUT_OF_MEMORY, "memory");
    default:
        return refuse(problem, BAD_BYTES, "mabristu answers %" PRIu32, answer);
    }
}

bool refuse_bytes(struct problem *problem, uint32_t answer, const char *before, const struct report *report, const struct type *type)
{
    if (answer != MB_FAULT)
        return refuse_answer(problem, answer);
    refuse(problem, BAD_BYTES, "%s", before);
    put_fault(problem, report);
    put_names(problem, report, *type);
    return false;
}

bool refuse_text(struct problem *problem, uint32_t answer, size_t byte)
{
    if (answer < MB_JSON_UNEXPECTED_BYTE || answer > MB_JSON_BAD_VALUE)
        return refuse_answer(problem, answer);
    refuse(problem, BAD_JSON, "json byte %zu", byte);
    put_cause(problem, answer);
    return false;
}

bool refuse_json(struct problem *problem, uint32_t answer, const uint32_t *path, size_t steps)
{
    if (answer < MB_JSON_NO_KIND || answer > MB_JSON_UNSUPPORTED)
        return refuse_answer(problem, answer);
    refuse(problem, NO_JSON_FORM, "json path %s", steps == 0 ? "-" : "");
    for (size_t i = 0; i < steps && i < MB_MAX_STEPS; i++)
        put(problem, "%s%" PRIu32, i == 0 ? "" : ".", path[i]);
    put_cause(problem, answer);
    return false;
}

bool refuse_link(struct problem *problem, uint32_t answer, const struct report *report, const struct mb_refusal *refusal, const uint8_t *text, size_t text_len)
{
    enum { FIRST_OF_SETS = 52, FIRST_OF_LINKING = 71 };

    if (answer == MB_FAULT) {
        refuse(problem, BAD_SET, "set ");
        put_fault(problem, report);
        return false;
    }
    if (answer < FIRST_OF_SETS)
        return refuse_answer(problem, answer);
    if (answer < FIRST_OF_LINKING) {
        refuse(problem, BAD_SET, "set file %zu", refusal->file);
    } else {
        size_t file_len = refusal->file_len < text_len ? refusal->file_len : text_len;
        size_t name_len = refusal->name_len < text_len - file_len ? refusal->name_len : text_len - file_len;
        struct shown file = show(text, file_len), name = show(text + file_len, name_len);
        refuse(problem, BAD_SET, "link %s at %s", file_len == 0 ? "-" : file.text, name_len == 0 ? "-" : name.text);
    }
    put_cause(problem, answer);
    return false;
}
