/* Refuses each allocation of memory of each call in turn: allocations SET TYPE MESSAGE SOURCE LENIENT, of which the last is a set of proto2. The allocator is
 * this program's own, over the archive of the crate alone. A call must answer MB_MEMORY, have written nothing and hold nothing more than before, up to
 * the first number of allocations with which it answers as with ample memory. */
#include "mabristu.h"

#include <stdbool.h>
#include <stdio.h>
#include <stdlib.h>
#include <string.h>

/* What the kit's compiled code asks of an allocator. */
struct tried {
    uint64_t is_given;
    void *at;
};

static long granted, live, asked;
static uint64_t nothing[2];

struct tried rattle_alloc(size_t size, size_t align)
{
    asked++;
    if (granted-- <= 0)
        return (struct tried){0, nothing};
    live++;
    return (struct tried){1, malloc(size == 0 ? align : size)};
}

struct tried rattle_realloc(void *at, size_t kept, size_t size, size_t align)
{
    (void)kept;
    asked++;
    if (granted-- <= 0)
        return (struct tried){0, nothing};
    return (struct tried){1, realloc(at, size == 0 ? align : size)};
}

void rattle_dealloc(void *at)
{
    live--;
    free(at);
}

/* All that a call may write but handles. */
struct outputs {
    struct mb_fault fault;
    struct mb_step path[MB_MAX_STEPS];
    struct mb_refusal refusal;
    struct mb_frame frame;
    struct mb_field field;
    struct mb_value value, found[4];
    struct mb_keys keys;
    struct mb_steps steps;
    struct mb_counts counts;
    struct mb_type type_report;
    struct mb_enum enum_report;
    struct mb_file file_report;
    uint8_t text[256], out[4096];
    size_t size, count;
    uint32_t type, detail, numbers[16];
    struct mb_difference differences[16];
    int32_t number;
};

static struct mb_pool pool, other, old_pool;
static struct mb_message held, made, second;
static struct mb_decoder decoder;
static uint32_t type;
static struct mb_bytes set, message, frame, name, source, lenient, source_name = {(const uint8_t *)"a.proto", 7};

#define LIMITS MB_MAX_BYTES, MB_MAX_DEPTH
#define FAULT &outputs->fault, outputs->path, MB_MAX_STEPS
#define OUT outputs->out, sizeof outputs->out, &outputs->size
#define REFUSAL &outputs->refusal, outputs->text, sizeof outputs->text

static uint32_t raw_check(struct outputs *outputs) { return mb_raw_check(message.at, message.len, LIMITS, FAULT); }
static uint32_t raw_check_cut(struct outputs *outputs) { return mb_raw_check(message.at, message.len - 1, LIMITS, FAULT); }
static uint32_t raw_short(struct outputs *outputs) { return mb_raw_short(message.at, message.len, LIMITS, OUT, FAULT); }
static uint32_t raw_short_cut(struct outputs *outputs) { return mb_raw_short(message.at, message.len - 1, LIMITS, OUT, FAULT); }
static uint32_t link(struct outputs *outputs) { return mb_pool_link(set.at, set.len, &other, FAULT, REFUSAL); }
static uint32_t link_cut(struct outputs *outputs) { return mb_pool_link(set.at, set.len - 1, &other, FAULT, REFUSAL); }
/* Of the file a: package p; message T { string display_name = 1 [json_name = "label"]; } */
static const uint8_t names_set[] = "\n0\n\1a\x12\1p\" \n\1T\x12\x1b\n\x0c" "display_name\x18\1 \1(\tR\5labelb\6proto3";
static uint32_t link_names(struct outputs *outputs) { return mb_pool_link(names_set, sizeof names_set - 1, &other, FAULT, REFUSAL); }
static uint32_t link_lenient(struct outputs *outputs) { return mb_pool_link_lenient(lenient.at, lenient.len, &other, &outputs->size, FAULT, REFUSAL); }
static uint32_t link_lenient_cut(struct outputs *outputs) { return mb_pool_link_lenient(lenient.at, lenient.len - 1, &other, &outputs->size, FAULT, REFUSAL); }
static uint32_t compile(struct outputs *outputs) { return mb_pool_compile(&source_name, 1, &source, 1, &other, REFUSAL); }
static uint32_t compile_cut(struct outputs *outputs)
{
    struct mb_bytes cut = {source.at, source.len - 3};
    return mb_pool_compile(&source_name, 1, &cut, 1, &other, REFUSAL);
}
static uint32_t compile_lenient(struct outputs *outputs) { return mb_pool_compile_lenient(&source_name, 1, &source, 1, &other, REFUSAL); }
static uint32_t compile_lenient_cut(struct outputs *outputs)
{
    struct mb_bytes cut = {source.at, source.len - 3};
    return mb_pool_compile_lenient(&source_name, 1, &cut, 1, &other, REFUSAL);
}
static uint32_t compat(struct outputs *outputs) { return mb_compat(&pool, type, &old_pool, 0, outputs->differences, 16, &outputs->size); }
static uint32_t compat_none(struct outputs *outputs) { return mb_compat(&pool, type, &old_pool, 99, outputs->differences, 16, &outputs->size); }
static uint32_t cause_name(struct outputs *outputs) { return mb_cause_name(12, OUT); }
static uint32_t no_cause_name(struct outputs *outputs) { return mb_cause_name(13, OUT); }
static uint32_t share(struct outputs *outputs) { (void)outputs; return mb_pool_share(&pool, &other); }
static uint32_t find(struct outputs *outputs) { return mb_pool_type(&pool, name.at, name.len, &outputs->type); }
static uint32_t check(struct outputs *outputs) { return mb_check(&pool, type, message.at, message.len, LIMITS, FAULT); }
static uint32_t check_cut(struct outputs *outputs) { return mb_check(&pool, type, message.at, message.len - 1, LIMITS, FAULT); }
static uint32_t canon(struct outputs *outputs) { return mb_canon(&pool, type, message.at, message.len, LIMITS, OUT, FAULT); }
static uint32_t canon_cut(struct outputs *outputs) { return mb_canon(&pool, type, message.at, message.len - 1, LIMITS, OUT, FAULT); }
static uint32_t show(struct outputs *outputs) { return mb_show(&pool, type, message.at, message.len, LIMITS, OUT, FAULT); }
static uint32_t show_cut(struct outputs *outputs) { return mb_show(&pool, type, message.at, message.len - 1, LIMITS, OUT, FAULT); }
static uint32_t show_decimal(struct outputs *outputs) { return mb_show_decimal(&pool, type, message.at, message.len, LIMITS, OUT, FAULT); }
static uint32_t pool_set(struct outputs *outputs) { return mb_pool_set(&pool, OUT); }
static uint32_t frames(struct outputs *outputs) { return mb_frames(&pool, type, frame.at, frame.len, LIMITS, &outputs->frame, FAULT); }
static uint32_t frames_cut(struct outputs *outputs) { return mb_frames(&pool, type, frame.at, frame.len - 1, LIMITS, &outputs->frame, FAULT); }
static uint32_t no_field(struct outputs *outputs) { return mb_pool_field(&pool, type, (const uint8_t *)"none", 4, &outputs->field); }
static uint32_t counts(struct outputs *outputs) { return mb_pool_counts(&pool, &outputs->counts); }
static uint32_t type_at(struct outputs *outputs) { return mb_pool_message(&pool, type, &outputs->type_report, OUT); }
static uint32_t field_at(struct outputs *outputs) { return mb_pool_field_at(&pool, type, 0, &outputs->field, &outputs->detail, OUT); }
static uint32_t no_oneof(struct outputs *outputs) { return mb_pool_oneof(&pool, type, 99, OUT); }
static uint32_t no_enum(struct outputs *outputs) { return mb_pool_enum(&pool, 99, &outputs->enum_report, OUT); }
static uint32_t no_value(struct outputs *outputs) { return mb_pool_enum_value(&pool, 99, 0, &outputs->number, OUT); }
static uint32_t file_at(struct outputs *outputs) { return mb_pool_file(&pool, 0, &outputs->file_report, outputs->text, sizeof outputs->text); }
static uint32_t message_new(struct outputs *outputs) { (void)outputs; return mb_message_new(&pool, type, &made); }
static uint32_t message_decode(struct outputs *outputs) { return mb_message_decode(&pool, type, message.at, message.len, LIMITS, &made, FAULT); }
static uint32_t message_decode_cut(struct outputs *outputs) { return mb_message_decode(&pool, type, message.at, message.len - 1, LIMITS, &made, FAULT); }
static uint32_t message_encode(struct outputs *outputs) { return mb_message_encode(&held, OUT); }
static uint32_t message_frame(struct outputs *outputs) { return mb_message_frame(&held, OUT); }
static uint32_t message_length(struct outputs *outputs) { return mb_message_encoded_length(&held, &outputs->size); }
static uint32_t message_show(struct outputs *outputs) { return mb_message_show(&held, OUT); }
static uint32_t message_show_decimal(struct outputs *outputs) { return mb_message_show_decimal(&held, OUT); }
static const struct mb_text_form form;
static uint32_t message_text(struct outputs *outputs) { return mb_message_text(&held, &form, OUT); }
static uint32_t message_copy(struct outputs *outputs) { (void)outputs; return mb_message_copy(&held, &made); }
static uint32_t message_equal(struct outputs *outputs) { return mb_message_equal(&held, &second, &outputs->detail); }
static uint32_t message_unknown(struct outputs *outputs) { return mb_message_unknown(&held, NULL, 0, NULL, 0, OUT); }
static uint32_t message_no_oneof(struct outputs *outputs) { return mb_message_oneof(&held, NULL, 0, NULL, 0, 99, &outputs->detail); }
static uint32_t message_json(struct outputs *outputs)
{
    static uint32_t fields[MB_MAX_STEPS];
    size_t steps;
    return mb_message_json(&pool, &held, false, true, OUT, fields, MB_MAX_STEPS, &steps);
}
static const char json_text[] = "{\"placedOn\":\"x\",\"lines\":[{\"pieces\":1}],\"discounts\":{\"a\":1}}";
static uint32_t message_from_json(struct outputs *outputs)
{
    return mb_message_from_json(&pool, type, (const uint8_t *)json_text, sizeof json_text - 1, false, &made, &outputs->size);
}
static uint32_t message_from_json_cut(struct outputs *outputs)
{
    return mb_message_from_json(&pool, type, (const uint8_t *)json_text, sizeof json_text - 2, false, &made, &outputs->size);
}
static uint32_t from_json(struct outputs *outputs)
{
    return mb_from_json(&pool, type, (const uint8_t *)json_text, sizeof json_text - 1, false, OUT, &outputs->count);
}
static uint32_t from_json_cut(struct outputs *outputs)
{
    return mb_from_json(&pool, type, (const uint8_t *)json_text, sizeof json_text - 2, false, OUT, &outputs->count);
}
/* Makes a call on a decoder that has received some bytes of the message with ample memory. If it gives the message, or answers another than MB_DONE,
 * the decoder has to be finished, and else it must not be: or this answers 99. */
static uint32_t on_decoder(size_t len, uint32_t (*call)(struct outputs *), struct outputs *outputs)
{
    static struct outputs none;
    size_t held_bytes = 1;
    long given = granted, made_before = asked;
    granted = 1 << 30;
    uint32_t answer = mb_decoder_new(&pool, type, LIMITS, &decoder);
    if (answer == MB_DONE)
        answer = mb_decoder_feed(&decoder, message.at, len, &none.fault, none.path, 0);
    granted = given;
    asked = made_before;
    uint32_t called = call(outputs);
    made_before = asked;
    granted = 1 << 30;
    bool is_finished = mb_decoder_feed(&decoder, NULL, 0, &none.fault, none.path, 0) == MB_FINISHED &&
                       mb_decoder_finish(&decoder, &second, &none.fault, none.path, 0) == MB_FINISHED &&
                       mb_decoder_pending(&decoder, &held_bytes) == MB_DONE && held_bytes == 0;
    mb_decoder_free(&decoder);
    asked = made_before;
    return answer != MB_DONE || is_finished != (called != MB_DONE || made.full) ? 99 : called;
}
static uint32_t feed_rest(struct outputs *outputs)
{
    size_t len = message.len / 2;
    return mb_decoder_feed(&decoder, message.at + len, message.len - len, FAULT);
}
static uint32_t feed_all(struct outputs *outputs) { return mb_decoder_feed(&decoder, message.at, message.len, FAULT); }
static uint32_t feed_bad(struct outputs *outputs) { return mb_decoder_feed(&decoder, (const uint8_t *)"\x0f", 1, FAULT); }
static uint32_t finish(struct outputs *outputs) { return mb_decoder_finish(&decoder, &made, FAULT); }
static uint32_t pending(struct outputs *outputs) { return mb_decoder_pending(&decoder, &outputs->size); }
static uint32_t decoder_new(struct outputs *outputs) { (void)outputs; return mb_decoder_new(&pool, type, LIMITS, &decoder); }
static uint32_t decoder_feed(struct outputs *outputs) { return on_decoder(0, feed_all, outputs); }
static uint32_t decoder_feed_rest(struct outputs *outputs) { return on_decoder(message.len / 2, feed_rest, outputs); }
static uint32_t decoder_feed_bad(struct outputs *outputs) { return on_decoder(message.len, feed_bad, outputs); }
static uint32_t decoder_finish(struct outputs *outputs) { return on_decoder(message.len, finish, outputs); }
static uint32_t decoder_finish_cut(struct outputs *outputs) { return on_decoder(message.len - 1, finish, outputs); }
static uint32_t decoder_pending(struct outputs *outputs) { return on_decoder(message.len - 1, pending, outputs); }
/* The discount of spring, in the message in examples/. */
static const struct mb_value entry[] = {{MB_FIELD, 4}, {MB_STRING, 0}}, article[] = {{MB_FIELD, 3}, {MB_INDEX, 1}, {MB_FIELD, 1}};
static const struct mb_bytes spring = {(const uint8_t *)"spring", 6};
static const uint32_t address[] = {6, 1};
#define ENTRY entry, 2, &spring, 1
static uint32_t message_get(struct outputs *outputs) { return mb_message_get(&held, ENTRY, &outputs->value); }
static uint32_t message_get_bad(struct outputs *outputs) { return mb_message_get(&held, entry, 2, NULL, 0, &outputs->value); }
static uint32_t message_read(struct outputs *outputs) { return mb_message_read(&held, article, 3, NULL, 0, OUT); }
static uint32_t message_fields(struct outputs *outputs) { return mb_message_fields(&held, article, 2, NULL, 0, outputs->numbers, 16, &outputs->size); }
static uint32_t message_key(struct outputs *outputs) { return mb_message_key(&held, entry, 1, NULL, 0, 1, &outputs->value, outputs->out, sizeof outputs->out); }
static uint32_t message_no_key(struct outputs *outputs) { return mb_message_key(&held, entry, 1, NULL, 0, 2, &outputs->value, outputs->out, sizeof outputs->out); }
/* The keys of the map at a place that is this many steps long, from the second one on: one key, the six bytes of spring. */
static uint32_t keys_at(struct outputs *outputs, size_t steps)
{
    uint32_t answer = mb_message_keys(&held, entry, steps, NULL, 0, 1, outputs->found, 4, outputs->out, sizeof outputs->out, &outputs->keys);
    bool is_spring = outputs->keys.keys == 1 && outputs->keys.bytes == 6 && outputs->found[0].kind == MB_STRING && outputs->found[0].number == 6 &&
                     memcmp(outputs->out, spring.at, spring.len) == 0;
    return answer == MB_DONE && !is_spring ? 99 : answer;
}
static uint32_t message_keys(struct outputs *outputs) { return keys_at(outputs, 1); }
static uint32_t message_no_keys(struct outputs *outputs) { return keys_at(outputs, 0); }
/* Makes a change in a message that was decoded for it with ample memory. A change that is refused has to leave the message as it was: then it answers 99. */
static uint32_t changed(uint32_t (*change)(struct mb_message *))
{
    static struct outputs none;
    static uint8_t before[4096], after[4096];
    struct mb_message work = {0};
    size_t before_len = 0, after_len = 0;
    long given = granted, made_before = asked;
    granted = 1 << 30;
    uint32_t answer = mb_message_decode(&pool, type, message.at, message.len, LIMITS, &work, &none.fault, none.path, 0);
    if (answer == MB_DONE)
        answer = mb_message_encode(&work, before, sizeof before, &before_len);
    granted = given;
    asked = made_before;
    uint32_t changed = change(&work);
    made_before = asked;
    granted = 1 << 30;
    if (answer == MB_DONE)
        answer = mb_message_encode(&work, after, sizeof after, &after_len);
    mb_message_free(&work);
    asked = made_before;
    bool is_same = before_len == after_len && memcmp(before, after, after_len) == 0;
    return answer != MB_DONE || (changed != MB_DONE && !is_same) || (changed == MB_DONE && is_same) ? 99 : changed;
}
static const struct mb_value address_of[] = {{MB_FIELD, 6}, {MB_FIELD, 1}}, bytes_of[] = {{MB_FIELD, 6}, {MB_FIELD, 2}};
static const struct mb_value new_entry[] = {{MB_FIELD, 4}, {MB_STRING, 1}}, unknown_of[] = {{MB_FIELD, 3}, {MB_INDEX, 9}};
static const struct mb_value discount = {MB_INT32, 7}, text_value = {MB_STRING, 0}, empty_message = {MB_MESSAGE, 0};
static const struct mb_bytes two[] = {{(const uint8_t *)"spring", 6}, {(const uint8_t *)"autumn", 6}};
static const struct mb_value bytes_value = {MB_BYTES, 1};
static uint32_t set_one(struct mb_message *it) { return mb_message_set(it, address_of, 2, two, 2, &text_value); }
static uint32_t set_bytes(struct mb_message *it) { return mb_message_set(it, bytes_of, 2, two, 2, &bytes_value); }
static uint32_t set_wrong(struct mb_message *it) { return mb_message_set(it, address_of, 2, two, 2, &discount); }
static uint32_t clear_one(struct mb_message *it) { return mb_message_clear(it, article, 3, NULL, 0); }
static uint32_t push_one(struct mb_message *it) { return mb_message_push(it, article, 1, NULL, 0, &empty_message); }
static uint32_t insert_one(struct mb_message *it) { return mb_message_insert(it, new_entry, 2, two, 2, &discount); }
static uint32_t insert_none(struct mb_message *it) { return mb_message_insert(it, new_entry, 2, two, 1, &discount); }
static uint32_t remove_one(struct mb_message *it) { return mb_message_remove(it, ENTRY); }
static const struct mb_value correction_of[] = {{MB_FIELD, 8}, {MB_INDEX, 1}}, line_of[] = {{MB_FIELD, 3}, {MB_INDEX, 0}};
static uint32_t set_element(struct mb_message *it) { return mb_message_set(it, correction_of, 2, NULL, 0, &discount); }
static uint32_t set_no_element(struct mb_message *it) { return mb_message_set(it, unknown_of, 2, NULL, 0, &empty_message); }
static uint32_t remove_element(struct mb_message *it) { return mb_message_remove(it, line_of, 2, NULL, 0); }
static uint32_t merge_one(struct mb_message *it)
{
    static struct outputs none;
    return mb_message_merge(it, (const uint8_t *)"\x98\x06\x07", 3, LIMITS, &none.fault, none.path, 0);
}
static uint32_t merge_cut(struct mb_message *it)
{
    static struct outputs none;
    return mb_message_merge(it, message.at, message.len - 1, LIMITS, &none.fault, none.path, 0);
}
static uint32_t message_merge(struct outputs *outputs) { (void)outputs; return changed(merge_one); }
static uint32_t message_merge_cut(struct outputs *outputs) { (void)outputs; return changed(merge_cut); }
static uint32_t drop_nothing(struct mb_message *it) { return mb_message_drop_unknown(it, unknown_of, 2, NULL, 0); }
static uint32_t message_set(struct outputs *outputs) { (void)outputs; return changed(set_one); }
static uint32_t message_set_bytes(struct outputs *outputs) { (void)outputs; return changed(set_bytes); }
static uint32_t message_set_wrong(struct outputs *outputs) { (void)outputs; return changed(set_wrong); }
static uint32_t message_clear(struct outputs *outputs) { (void)outputs; return changed(clear_one); }
static uint32_t message_push(struct outputs *outputs) { (void)outputs; return changed(push_one); }
static uint32_t message_insert(struct outputs *outputs) { (void)outputs; return changed(insert_one); }
static uint32_t message_insert_none(struct outputs *outputs) { (void)outputs; return changed(insert_none); }
static uint32_t message_remove(struct outputs *outputs) { (void)outputs; return changed(remove_one); }
static uint32_t message_drop_nothing(struct outputs *outputs) { (void)outputs; return changed(drop_nothing); }
static uint32_t message_set_element(struct outputs *outputs) { (void)outputs; return changed(set_element); }
static uint32_t message_set_no_element(struct outputs *outputs) { (void)outputs; return changed(set_no_element); }
static uint32_t message_remove_element(struct outputs *outputs) { (void)outputs; return changed(remove_element); }
/* The number of an order, which is read as the article of a line; and one that a line does not have. */
static uint32_t witness_of(uint32_t number)
{
    struct mb_difference difference = {type, 1, number, 0};
    return mb_compat_witness(&pool, type, &old_pool, 1, &difference, &made);
}
static uint32_t witness(struct outputs *outputs) { (void)outputs; return witness_of(1); }
static uint32_t no_witness(struct outputs *outputs) { (void)outputs; return witness_of(9); }
#define ADDRESS address, 2, &outputs->value, outputs->out, sizeof outputs->out, FAULT
static uint32_t find_address(struct outputs *outputs) { return mb_find(&pool, type, message.at, message.len, LIMITS, ADDRESS); }
static uint32_t find_address_cut(struct outputs *outputs) { return mb_find(&pool, type, message.at, message.len - 1, LIMITS, ADDRESS); }

static uint32_t path_steps(struct outputs *outputs)
{
    return mb_path(&pool, type, (const uint8_t *)"lines[1].article", 16, outputs->found, 4, NULL, 0, outputs->out, sizeof outputs->out, &outputs->steps);
}
static uint32_t path_of_none(struct outputs *outputs)
{
    return mb_path(&pool, type, (const uint8_t *)"lines[1].none", 13, outputs->found, 4, NULL, 0, outputs->out, sizeof outputs->out, &outputs->steps);
}
static const struct { const char *name; uint32_t (*call)(struct outputs *outputs); uint32_t answer; } calls[] = {
    {"mb_raw_check", raw_check, MB_DONE}, {"mb_raw_check of a cut message", raw_check_cut, MB_FAULT},
    {"mb_raw_short", raw_short, MB_DONE}, {"mb_raw_short of a cut message", raw_short_cut, MB_FAULT},
    {"mb_pool_link", link, MB_DONE}, {"mb_pool_link of a cut set", link_cut, MB_FAULT},
    {"mb_pool_link of a set that gives names", link_names, MB_DONE},
    {"mb_pool_link_lenient", link_lenient, MB_DONE}, {"mb_pool_link_lenient of a cut set", link_lenient_cut, MB_FAULT},
    {"mb_pool_compile", compile, MB_DONE}, {"mb_pool_compile of a cut source", compile_cut, 65},
    {"mb_pool_share", share, MB_DONE}, {"mb_pool_type", find, MB_DONE},
    {"mb_check", check, MB_DONE}, {"mb_check of a cut message", check_cut, MB_FAULT},
    {"mb_canon", canon, MB_DONE}, {"mb_canon of a cut message", canon_cut, MB_FAULT},
    {"mb_show", show, MB_DONE}, {"mb_show of a cut message", show_cut, MB_FAULT},
    {"mb_show_decimal", show_decimal, MB_DONE}, {"mb_pool_set", pool_set, MB_DONE},
    {"mb_frames", frames, MB_DONE}, {"mb_frames of a cut frame", frames_cut, MB_PART},
    {"mb_pool_field of no field", no_field, MB_ABSENT}, {"mb_pool_counts", counts, MB_DONE}, {"mb_pool_message", type_at, MB_DONE},
    {"mb_pool_field_at", field_at, MB_DONE}, {"mb_pool_oneof of no oneof", no_oneof, MB_ABSENT}, {"mb_pool_enum of no enum", no_enum, MB_NO_TYPE},
    {"mb_pool_enum_value of no enum", no_value, MB_NO_TYPE}, {"mb_pool_file", file_at, MB_DONE}, {"mb_message_new", message_new, MB_DONE},
    {"mb_message_decode", message_decode, MB_DONE}, {"mb_message_decode of a cut message", message_decode_cut, MB_FAULT},
    {"mb_message_encode", message_encode, MB_DONE}, {"mb_message_encoded_length", message_length, MB_DONE},
    {"mb_message_frame", message_frame, MB_DONE}, {"mb_message_show", message_show, MB_DONE},
    {"mb_message_show_decimal", message_show_decimal, MB_DONE}, {"mb_message_text", message_text, MB_DONE}, {"mb_message_copy", message_copy, MB_DONE},
    {"mb_message_equal", message_equal, MB_DONE}, {"mb_message_unknown", message_unknown, MB_DONE},
    {"mb_message_oneof of no oneof", message_no_oneof, MB_ABSENT}, {"mb_compat", compat, MB_DONE},
    {"mb_compat with no type", compat_none, MB_NO_TYPE},
    {"mb_pool_compile_lenient", compile_lenient, MB_DONE}, {"mb_pool_compile_lenient of a cut source", compile_lenient_cut, 65},
    {"mb_cause_name", cause_name, MB_DONE}, {"mb_cause_name of no cause", no_cause_name, MB_ABSENT},
    {"mb_message_json", message_json, MB_DONE},
    {"mb_decoder_new", decoder_new, MB_DONE}, {"mb_decoder_feed", decoder_feed, MB_DONE}, {"mb_decoder_feed of the rest", decoder_feed_rest, MB_DONE},
    {"mb_decoder_feed of what is no message", decoder_feed_bad, MB_FAULT}, {"mb_decoder_finish", decoder_finish, MB_DONE},
    {"mb_decoder_finish of a cut message", decoder_finish_cut, MB_FAULT}, {"mb_decoder_pending", decoder_pending, MB_DONE},
    {"mb_message_from_json", message_from_json, MB_DONE}, {"mb_message_from_json of a cut text", message_from_json_cut, MB_JSON_UNEXPECTED_END},
    {"mb_from_json", from_json, MB_DONE}, {"mb_from_json of a cut text", from_json_cut, MB_JSON_UNEXPECTED_END},
    {"mb_message_get", message_get, MB_DONE}, {"mb_message_get of no place", message_get_bad, MB_BAD_PLACE},
    {"mb_message_read", message_read, MB_DONE}, {"mb_message_fields", message_fields, MB_DONE},
    {"mb_message_key", message_key, MB_DONE}, {"mb_message_key of no key", message_no_key, MB_ABSENT},
    {"mb_message_keys", message_keys, MB_DONE}, {"mb_message_keys of no map", message_no_keys, MB_ABSENT},
    {"mb_message_set of a string", message_set, MB_DONE}, {"mb_message_set of bytes", message_set_bytes, MB_DONE},
    {"mb_message_set of another kind", message_set_wrong, 22}, {"mb_message_clear", message_clear, MB_DONE}, {"mb_message_push", message_push, MB_DONE},
    {"mb_message_insert", message_insert, MB_DONE}, {"mb_message_insert of no place", message_insert_none, MB_BAD_PLACE},
    {"mb_message_remove", message_remove, MB_DONE}, {"mb_message_drop_unknown of no message", message_drop_nothing, MB_ABSENT},
    {"mb_message_set of an element", message_set_element, MB_DONE}, {"mb_message_set of no element", message_set_no_element, MB_ABSENT},
    {"mb_message_remove of an element", message_remove_element, MB_DONE},
    {"mb_path", path_steps, MB_DONE}, {"mb_path of no field", path_of_none, MB_ABSENT},
    {"mb_compat_witness", witness, MB_DONE}, {"mb_compat_witness of what breaks nothing", no_witness, MB_ABSENT},
    {"mb_message_merge", message_merge, MB_DONE}, {"mb_message_merge of a cut message", message_merge_cut, MB_FAULT},
    {"mb_find", find_address, MB_DONE}, {"mb_find in a cut message", find_address_cut, MB_FAULT},
};
#define OF_SHOP 32

static struct mb_bytes read_file(const char *path)
{
    static uint8_t bytes[5][65536];
    static int count;
    FILE *file = fopen(path, "rb");
    if (file == NULL)
        exit(2);
    struct mb_bytes read = {bytes[count], fread(bytes[count], 1, sizeof bytes[count], file)};
    count++;
    fclose(file);
    return read;
}

/* Decodes the messages that calls are made on, and has their fields built where that is asked. Returns whether it could. */
static bool hold(bool is_built)
{
    struct mb_fault fault;
    size_t count;

    return mb_message_decode(&pool, type, message.at, message.len, LIMITS, &held, &fault, NULL, 0) == MB_DONE &&
           mb_message_copy(&held, &second) == MB_DONE &&
           (!is_built || (mb_message_fields(&held, NULL, 0, NULL, 0, NULL, 0, &count) == MB_DONE &&
                          mb_message_fields(&second, NULL, 0, NULL, 0, NULL, 0, &count) == MB_DONE));
}

/* Refuses the allocations of each call in turn. Returns how many of the calls are wrong. */
static int wrong_calls(bool is_built, bool is_shop)
{
    static struct outputs outputs, blank;
    /* The last ones read what the shop's order alone has. */
    size_t count = sizeof calls / sizeof *calls - (is_shop ? 0 : OF_SHOP);
    int wrong = 0;

    memset(&blank, 0xee, sizeof blank);
    for (size_t i = 0; i < count; i++) {
        long before = live, number = -1, tried;
        uint32_t answer;
        do {
            outputs = blank;
            granted = 1 << 30;
            if (!hold(is_built))
                exit(2);
            asked = 0;
            granted = ++number;
            answer = calls[i].call(&outputs);
            tried = asked;
            granted = 1 << 30;
            mb_pool_free(&other);
            mb_decoder_free(&decoder);
            mb_message_free(&made);
            mb_message_free(&held);
            mb_message_free(&second);
            if (live != before || (answer == MB_MEMORY && memcmp(&outputs, &blank, sizeof outputs) != 0)) {
                printf("%s with %ld allocations: WRONG: answer %u, %ld blocks more\n", calls[i].name, number, answer, live - before);
                wrong++;
            }
        } while (answer == MB_MEMORY);
        printf("%s%s: %ld allocations refused, then answer %u by %ld\n", calls[i].name, is_built ? ", built" : "", number, answer, tried);
        wrong += answer != calls[i].answer;
    }
    return wrong;
}

int main(int argc, char **argv)
{
    static struct outputs outputs;
    static uint8_t framed[65536];
    int wrong = 0;

    if (argc != 6)
        return 2;
    set = read_file(argv[1]);
    name = (struct mb_bytes){(const uint8_t *)argv[2], strlen(argv[2])};
    message = read_file(argv[3]);
    source = read_file(argv[4]);
    lenient = read_file(argv[5]);
    /* A message of less than 128 bytes, after its length. */
    framed[0] = (uint8_t)message.len;
    memcpy(framed + 1, message.at, message.len);
    frame = (struct mb_bytes){framed, message.len + 1};
    granted = 1 << 30;
    if (mb_pool_link(set.at, set.len, &pool, &outputs.fault, outputs.path, 0, &outputs.refusal, NULL, 0) != MB_DONE ||
        mb_pool_type(&pool, name.at, name.len, &type) != MB_DONE ||
        mb_pool_share(&pool, &old_pool) != MB_DONE)
        return 2;
    for (size_t i = 0; i < 2; i++)
        wrong += wrong_calls(i == 1, strcmp(argv[2], "shop.Order") == 0);
    mb_pool_free(&pool);
    mb_pool_free(&old_pool);
    printf("%d wrong, %ld blocks left\n", wrong, live);
    return wrong != 0 || live != 0;
}
