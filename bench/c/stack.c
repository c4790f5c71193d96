/* How much stack a call takes, for bench/c/stack, which loads this and searches for what takes most. Each measured call is made in a thread of its
 * own, whose stack was painted before; what a call needs before it is done on the stack of the caller. */
#define _GNU_SOURCE
#include "mabristu.h"

#include <pthread.h>
#include <stdlib.h>
#include <string.h>
#include <sys/mman.h>

enum { STACK = 8 << 20, OUT = 1 << 22, PAINT = 0xab };

#define LIMITS MB_MAX_BYTES, MB_MAX_DEPTH
#define FAULT &fault, path, MB_MAX_STEPS
#define REPORT &refusal, text, sizeof text

/* What a call is given. */
struct job {
    struct mb_pool *pool, *other;
    uint32_t type, other_type;
    const uint8_t *bytes;
    size_t len;
    size_t piece;
    const struct mb_value *place;
    size_t place_len;
    const struct mb_bytes *keys;
    size_t keys_len;
    const uint32_t *numbers;
    size_t numbers_len;
    struct mb_difference difference;
    struct mb_pool made;
    struct mb_message message, second;
    struct mb_decoder decoder;
};

/* What calls write is not on their stack. */
static uint8_t out[OUT], text[1 << 16];
static struct mb_fault fault;
static struct mb_step path[MB_MAX_STEPS];
static struct mb_refusal refusal;
static struct mb_frame frame;
static struct mb_value value, found[4];
static struct mb_keys keys;
static struct mb_difference differences[4];
static struct mb_field field;
static uint32_t numbers[256], mark;
static size_t size, count, steps, byte;

static const struct mb_value empty = {MB_MESSAGE, 0};

#define BYTES job->bytes, job->len
#define PLACE job->place, job->place_len, job->keys, job->keys_len
#define WRITTEN out, OUT, &size

static uint32_t raw_check(struct job *job) { return mb_raw_check(BYTES, LIMITS, FAULT); }
static uint32_t raw_short(struct job *job) { return mb_raw_short(BYTES, LIMITS, WRITTEN, FAULT); }
static uint32_t check(struct job *job) { return mb_check(job->pool, job->type, BYTES, LIMITS, FAULT); }
static uint32_t show(struct job *job) { return mb_show(job->pool, job->type, BYTES, LIMITS, WRITTEN, FAULT); }
static uint32_t show_decimal(struct job *job) { return mb_show_decimal(job->pool, job->type, BYTES, LIMITS, WRITTEN, FAULT); }
static uint32_t canon(struct job *job) { return mb_canon(job->pool, job->type, BYTES, LIMITS, WRITTEN, FAULT); }
static uint32_t frames(struct job *job) { return mb_frames(job->pool, job->type, BYTES, LIMITS, &frame, FAULT); }
static uint32_t find(struct job *job) { return mb_find(job->pool, job->type, BYTES, LIMITS, job->numbers, job->numbers_len, &value, out, OUT, FAULT); }
static uint32_t from_json(struct job *job) { return mb_from_json(job->pool, job->type, BYTES, false, WRITTEN, &byte); }
static uint32_t message_from_json(struct job *job) { return mb_message_from_json(job->pool, job->type, BYTES, false, &job->message, &byte); }
static uint32_t from_json_ignoring(struct job *job) { return mb_from_json(job->pool, job->type, BYTES, true, WRITTEN, &byte); }
static uint32_t decode(struct job *job) { return mb_message_decode(job->pool, job->type, BYTES, LIMITS, &job->message, FAULT); }
static uint32_t encode(struct job *job) { return mb_message_encode(&job->message, WRITTEN); }
static uint32_t message_frame(struct job *job) { return mb_message_frame(&job->message, WRITTEN); }
static uint32_t encoded_length(struct job *job) { return mb_message_encoded_length(&job->message, &size); }
static uint32_t message_show(struct job *job) { return mb_message_show(&job->message, WRITTEN); }
static uint32_t message_show_decimal(struct job *job) { return mb_message_show_decimal(&job->message, WRITTEN); }
static const struct mb_text_form form;
static uint32_t message_text(struct job *job) { return mb_message_text(&job->message, &form, WRITTEN); }
static uint32_t message_json(struct job *job) { return mb_message_json(job->pool, &job->message, false, true, WRITTEN, numbers, 256, &steps); }
static uint32_t message_copy(struct job *job) { return mb_message_copy(&job->message, &job->second); }
static uint32_t message_equal(struct job *job) { return mb_message_equal(&job->message, &job->second, &mark); }
static uint32_t message_merge(struct job *job) { return mb_message_merge(&job->message, BYTES, LIMITS, FAULT); }
static uint32_t message_get(struct job *job) { return mb_message_get(&job->message, PLACE, &value); }
static uint32_t message_read(struct job *job) { return mb_message_read(&job->message, PLACE, WRITTEN); }
static uint32_t message_fields(struct job *job) { return mb_message_fields(&job->message, PLACE, numbers, 256, &count); }
static uint32_t message_key(struct job *job) { return mb_message_key(&job->message, PLACE, 0, found, out, OUT); }
static uint32_t message_keys(struct job *job) { return mb_message_keys(&job->message, PLACE, 0, found, 4, out, OUT, &keys); }
static uint32_t message_oneof(struct job *job) { return mb_message_oneof(&job->message, PLACE, 0, &mark); }
static uint32_t message_unknown(struct job *job) { return mb_message_unknown(&job->message, PLACE, WRITTEN); }
static uint32_t message_set(struct job *job) { return mb_message_set(&job->message, PLACE, &empty); }
static uint32_t message_push(struct job *job) { return mb_message_push(&job->message, PLACE, &empty); }
static uint32_t message_insert(struct job *job) { return mb_message_insert(&job->message, PLACE, &empty); }
static uint32_t message_remove(struct job *job) { return mb_message_remove(&job->message, PLACE); }
static uint32_t message_clear(struct job *job) { return mb_message_clear(&job->message, PLACE); }
static uint32_t drop_unknown(struct job *job) { return mb_message_drop_unknown(&job->message, PLACE); }
static uint32_t message_new(struct job *job) { return mb_message_new(job->pool, job->type, &job->message); }
static uint32_t message_free(struct job *job) { mb_message_free(&job->message); return MB_DONE; }
static uint32_t decoder_new(struct job *job) { return mb_decoder_new(job->pool, job->type, LIMITS, &job->decoder); }
/* In pieces, each at most as long as the job says. */
static uint32_t feed(struct job *job)
{
    uint32_t answer = MB_DONE;
    for (size_t at = 0; answer == MB_DONE && at < job->len; at += job->piece)
        answer = mb_decoder_feed(&job->decoder, job->bytes + at, job->len - at < job->piece ? job->len - at : job->piece, FAULT);
    return answer;
}
static uint32_t finish(struct job *job) { return mb_decoder_finish(&job->decoder, &job->message, FAULT); }
static uint32_t pending(struct job *job) { return mb_decoder_pending(&job->decoder, &size); }
static uint32_t decoder_free(struct job *job) { mb_decoder_free(&job->decoder); return MB_DONE; }
static uint32_t pool_link(struct job *job) { return mb_pool_link(BYTES, &job->made, FAULT, REPORT); }
static uint32_t link_lenient(struct job *job) { return mb_pool_link_lenient(BYTES, &job->made, &count, FAULT, REPORT); }
static uint32_t compiled(struct job *job, bool is_lenient)
{
    const struct mb_bytes name = {(const uint8_t *)"a.proto", 7}, source = {job->bytes, job->len};
    return (is_lenient ? mb_pool_compile_lenient : mb_pool_compile)(&name, 1, &source, 1, &job->made, REPORT);
}
static uint32_t compile(struct job *job) { return compiled(job, false); }
static uint32_t compile_lenient(struct job *job) { return compiled(job, true); }
static uint32_t pool_set(struct job *job) { return mb_pool_set(&job->made, WRITTEN); }
static uint32_t pool_free(struct job *job) { mb_pool_free(&job->made); return MB_DONE; }
static uint32_t pool_share(struct job *job) { return mb_pool_share(job->pool, &job->made); }
static uint32_t pool_type(struct job *job) { return mb_pool_type(job->pool, BYTES, &mark); }
static uint32_t pool_field(struct job *job) { return mb_pool_field(job->pool, job->type, BYTES, &field); }
static uint32_t pool_counts(struct job *job) { static struct mb_counts report; return mb_pool_counts(job->pool, &report); }
static uint32_t pool_message(struct job *job) { static struct mb_type report; return mb_pool_message(job->pool, job->type, &report, WRITTEN); }
static uint32_t path_steps(struct job *job) { static struct mb_steps steps; return mb_path(job->pool, job->type, BYTES, found, 4, NULL, 0, out, OUT, &steps); }
static uint32_t pool_field_at(struct job *job) { return mb_pool_field_at(job->pool, job->type, 0, &field, &mark, WRITTEN); }
static uint32_t pool_oneof(struct job *job) { return mb_pool_oneof(job->pool, job->type, 0, WRITTEN); }
static uint32_t pool_enum(struct job *job) { static struct mb_enum report; return mb_pool_enum(job->pool, 0, &report, WRITTEN); }
static uint32_t pool_enum_value(struct job *job) { static int32_t number; return mb_pool_enum_value(job->pool, 0, 0, &number, WRITTEN); }
static uint32_t pool_file(struct job *job) { static struct mb_file report; return mb_pool_file(job->pool, 0, &report, out, OUT); }
static uint32_t compat(struct job *job) { return mb_compat(job->pool, job->type, job->other, job->other_type, differences, 4, &count); }
static uint32_t witness(struct job *job)
{
    return mb_compat_witness(job->pool, job->type, job->other, job->other_type, &job->difference, &job->message);
}
static uint32_t cause_name(struct job *job) { return mb_cause_name((uint32_t)job->len, WRITTEN); }
static uint32_t interface_of(struct job *job) { (void)job; return mb_interface() == MB_INTERFACE ? MB_DONE : MB_EMPTY; }

typedef uint32_t called(struct job *job);

static const struct {
    const char *name;
    called *call;
} calls[] = {
    {"mb_raw_check", raw_check}, {"mb_raw_short", raw_short}, {"mb_check", check}, {"mb_show", show}, {"mb_show_decimal", show_decimal},
    {"mb_canon", canon}, {"mb_frames", frames}, {"mb_find", find}, {"mb_from_json", from_json}, {"mb_from_json ignoring", from_json_ignoring},
    {"mb_message_from_json", message_from_json}, {"mb_message_decode", decode}, {"mb_message_encode", encode}, {"mb_message_frame", message_frame},
    {"mb_message_encoded_length", encoded_length}, {"mb_message_show", message_show}, {"mb_message_show_decimal", message_show_decimal},
    {"mb_message_text", message_text}, {"mb_message_json", message_json}, {"mb_message_copy", message_copy}, {"mb_message_equal", message_equal}, {"mb_message_merge", message_merge},
    {"mb_message_get", message_get}, {"mb_message_read", message_read}, {"mb_message_fields", message_fields}, {"mb_message_key", message_key},
    {"mb_message_keys", message_keys},
    {"mb_message_oneof", message_oneof}, {"mb_message_unknown", message_unknown}, {"mb_message_set", message_set}, {"mb_message_push", message_push},
    {"mb_message_insert", message_insert}, {"mb_message_remove", message_remove}, {"mb_message_clear", message_clear},
    {"mb_message_drop_unknown", drop_unknown}, {"mb_message_new", message_new}, {"mb_message_free", message_free}, {"mb_decoder_new", decoder_new},
    {"mb_decoder_feed", feed}, {"mb_decoder_finish", finish}, {"mb_decoder_pending", pending}, {"mb_decoder_free", decoder_free},
    {"mb_pool_link", pool_link}, {"mb_pool_link_lenient", link_lenient}, {"mb_pool_compile", compile}, {"mb_pool_compile_lenient", compile_lenient},
    {"mb_pool_set", pool_set}, {"mb_pool_free", pool_free}, {"mb_pool_share", pool_share}, {"mb_pool_type", pool_type},
    {"mb_pool_field", pool_field}, {"mb_path", path_steps}, {"mb_pool_counts", pool_counts}, {"mb_pool_message", pool_message}, {"mb_pool_field_at", pool_field_at},
    {"mb_pool_oneof", pool_oneof}, {"mb_pool_enum", pool_enum}, {"mb_pool_enum_value", pool_enum_value}, {"mb_pool_file", pool_file},
    {"mb_compat", compat}, {"mb_compat_witness", witness}, {"mb_cause_name", cause_name}, {"mb_interface", interface_of},
};

/* The call of a name. */
static called *named(const char *name)
{
    for (size_t i = 0; i < sizeof calls / sizeof *calls; i++)
        if (strcmp(calls[i].name, name) == 0)
            return calls[i].call;
    return NULL;
}

/* The name of the call at an index, or null. */
const char *call_name(size_t index)
{
    return index < sizeof calls / sizeof *calls ? calls[index].name : NULL;
}

struct job *job_new(void)
{
    return calloc(1, sizeof(struct job));
}

/* Frees what a job holds, but not what it was given. */
void job_free(struct job *job)
{
    mb_message_free(&job->message);
    mb_message_free(&job->second);
    mb_decoder_free(&job->decoder);
    mb_pool_free(&job->made);
    free(job);
}

void job_give(struct job *job, struct mb_pool *pool, uint32_t type, const uint8_t *bytes, size_t len, size_t piece)
{
    job->pool = pool;
    job->type = type;
    job->bytes = bytes;
    job->len = len;
    job->piece = piece;
}

void job_place(struct job *job, const struct mb_value *place, size_t place_len, const struct mb_bytes *keys, size_t keys_len, const uint32_t *path,
               size_t path_len)
{
    job->place = place;
    job->place_len = place_len;
    job->keys = keys;
    job->keys_len = keys_len;
    job->numbers = path;
    job->numbers_len = path_len;
}

void job_compare(struct job *job, struct mb_pool *other, uint32_t type, size_t old_type, size_t new_type, uint32_t number)
{
    job->other = other;
    job->other_type = type;
    job->difference = (struct mb_difference){old_type, new_type, number, 0};
}

/* Makes a call on the stack of the caller. */
uint32_t run(struct job *job, const char *name)
{
    called *call = named(name);
    return call == NULL ? UINT32_MAX : call(job);
}

struct work {
    struct job *job;
    called *call;
    uint32_t answer;
};

static void *work(void *given)
{
    struct work *it = given;
    it->answer = it->call(it->job);
    return NULL;
}

/* Makes a call in a thread, and reports how many bytes of the stack it touched. */
uint32_t measure(struct job *job, const char *name, size_t *touched)
{
    static uint8_t *stack;
    static size_t painted = STACK;
    struct work it = {job, named(name), UINT32_MAX};
    pthread_attr_t how;
    pthread_t thread;
    size_t untouched = 0;

    if (it.call == NULL)
        return it.answer;
    if (stack == NULL)
        stack = mmap(NULL, STACK, PROT_READ | PROT_WRITE, MAP_PRIVATE | MAP_ANONYMOUS, -1, 0);
    /* Only what the call before touched was changed. */
    memset(stack + STACK - painted, PAINT, painted);
    pthread_attr_init(&how);
    pthread_attr_setstack(&how, stack, STACK);
    pthread_create(&thread, &how, work, &it);
    pthread_join(thread, NULL);
    while (untouched < STACK && stack[untouched] == PAINT)
        untouched++;
    painted = *touched = STACK - untouched;
    return it.answer;
}
