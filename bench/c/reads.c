/* How often each call reads its input: reads. The input is mapped without access. A read of a page that is closed raises a signal, whose handler
 * opens the page and closes the one that was opened third to last, so that what lies across two pages is read as one, and so are two keys that are
 * compared. All openings by the number of pages are how often the input was read. Each call is made on each input, as it was made and with faults. A row a call has the most that
 * was counted of whole messages and of refused bytes, and of which input. It fails where that is more than the call's limit, or where a reading that
 * is planted is not counted: bytes that are read K times here, and two calls in one.
 *
 * What is read again at once, as the bytes of a short string, is not counted, since three pages are open, nor what is read of a copy. */
#define _GNU_SOURCE
#include "mabristu.h"

#include <signal.h>
#include <stdbool.h>
#include <stdio.h>
#include <stdlib.h>
#include <string.h>
#include <sys/mman.h>
#include <unistd.h>

/* How many pages an input has, about; how many are open at a time; how deep messages may nest; the most bytes that an input has. */
enum { PAGES = 24, OPEN = 3, DEPTH = 100, MOST = 1 << 20 };

/* By so much the openings may be more than whole readings: pages where a reading begins anew. */
static const double spare = 8.0 / PAGES;

/* ---- The input and its pages ---- */

static size_t page_size;
/* The input begins a page after `region`, so that a length can be put before it. What is counted begins at `input`. */
static uint8_t *region, *input;
static size_t input_len;
/* The pages that were opened last. */
static uint8_t *volatile open_pages[OPEN];
static volatile size_t openings;

static void open_page(int number, siginfo_t *how, void *context)
{
    uint8_t *page = (uint8_t *)((uintptr_t)how->si_addr & ~(uintptr_t)(page_size - 1));
    (void)context;
    if (page < region || page >= region + MOST) {
        signal(number, SIG_DFL);
        return;
    }
    if (open_pages[openings % OPEN] != NULL)
        mprotect(open_pages[openings % OPEN], page_size, PROT_NONE);
    open_pages[openings % OPEN] = page;
    mprotect(page, page_size, PROT_READ);
    openings++;
}

static void close_input(void)
{
    mprotect(region, MOST, PROT_NONE);
    for (int i = 0; i < OPEN; i++)
        open_pages[i] = NULL;
    openings = 0;
}

static double times_read(void)
{
    return (double)openings / (double)((input_len + page_size - 1) / page_size);
}

/* ---- The calls ---- */

static const char *const sources[] = {
    "syntax = \"proto3\"; import \"b.proto\"; enum E { ZERO = 0; ONE = 1; }"
    "message T { T a = 1; map<string, T> m = 2; repeated T l = 3; string s = 4; bytes b = 5; repeated int64 p = 6; repeated fixed32 q = 7;"
    " int32 n = 8; repeated string r = 9; map<int32, string> k = 10; oneof o { string x = 11; T y = 12; } repeated int32 u = 13 [packed = false];"
    " repeated E e = 14; P c = 15; }",
    "syntax = \"proto2\"; enum C { NONE = 0; ONE_C = 1; } message P { repeated C e = 1 [packed = true]; repeated C u = 2;"
    " optional group G = 3 { optional P c = 1; optional int32 n = 8; } }",
};
static struct mb_pool pool;
static uint32_t type;

static struct mb_fault fault;
static struct mb_step path[MB_MAX_STEPS];
static struct mb_frame frame;
static struct mb_value value;
static uint8_t out[1 << 12];
static size_t size;
/* The bytes of the length that is put before the input for mb_frames. */
static size_t length_size;

#define FAULT &fault, path, MB_MAX_STEPS
#define OUT out, sizeof out, &size
#define INPUT input, input_len, MB_MAX_BYTES, MB_MAX_DEPTH

static uint32_t raw_check(void) { return mb_raw_check(INPUT, FAULT); }
static uint32_t raw_short(void) { return mb_raw_short(INPUT, OUT, FAULT); }
static uint32_t check(void) { return mb_check(&pool, type, INPUT, FAULT); }
static uint32_t check_most(void) { return mb_check(&pool, type, input, input_len, (uint32_t)input_len - 1, MB_MAX_DEPTH, FAULT); }
static uint32_t canon(void) { return mb_canon(&pool, type, INPUT, OUT, FAULT); }
static uint32_t show(void) { return mb_show(&pool, type, INPUT, OUT, FAULT); }
static uint32_t frames(void)
{
    return mb_frames(&pool, type, input - length_size, length_size + input_len, MB_MAX_BYTES, MB_MAX_DEPTH, &frame, FAULT);
}
static uint32_t find_at(const uint32_t *numbers, size_t len)
{
    return mb_find(&pool, type, INPUT, numbers, len, &value, out, sizeof out, FAULT);
}
static uint32_t find_number(void) { return find_at((const uint32_t[]){8}, 1); }
static uint32_t find_string(void) { return find_at((const uint32_t[]){4}, 1); }
static uint32_t find_member(void) { return find_at((const uint32_t[]){11}, 1); }
static uint32_t find_inside(void)
{
    static uint32_t numbers[DEPTH + 1];
    for (int i = 0; i < DEPTH; i++)
        numbers[i] = 1;
    numbers[DEPTH] = 4;
    return find_at(numbers, DEPTH + 1);
}
static uint32_t decode(void)
{
    struct mb_message message = {0};
    uint32_t answer = mb_message_decode(&pool, type, INPUT, &message, FAULT);
    if (answer == MB_DONE)
        answer = mb_message_fields(&message, NULL, 0, NULL, 0, NULL, 0, &size);
    mb_message_free(&message);
    return answer;
}
static uint32_t merge(void)
{
    struct mb_message message = {0};
    uint32_t answer = mb_message_new(&pool, type, &message);
    if (answer == MB_DONE)
        answer = mb_message_merge(&message, INPUT, FAULT);
    mb_message_free(&message);
    return answer;
}
/* Decodes the input in pieces of a size. */
static uint32_t decode_pieces(size_t piece)
{
    struct mb_decoder decoder = {0};
    struct mb_message message = {0};
    uint32_t answer = mb_decoder_new(&pool, type, MB_MAX_BYTES, MB_MAX_DEPTH, &decoder);
    for (size_t at = 0; answer == MB_DONE && at < input_len; at += piece)
        answer = mb_decoder_feed(&decoder, input + at, input_len - at < piece ? input_len - at : piece, FAULT);
    if (answer == MB_DONE)
        answer = mb_decoder_finish(&decoder, &message, FAULT);
    mb_decoder_free(&decoder);
    mb_message_free(&message);
    return answer;
}
static uint32_t one_piece(void) { return decode_pieces(MOST); }
static uint32_t pieces(void) { return decode_pieces(100); }
static uint32_t check_and_show(void)
{
    check();
    return show();
}

/* How often each call may read what is a message, and what is refused: docs/C.md lists them. mb_show calls `decode`. */
static const struct call { const char *name; uint32_t (*call)(void); double whole, refused; } calls[] = {
    {"mb_raw_check", raw_check, 1, 2}, {"mb_raw_short", raw_short, 1, 1}, {"mb_check", check, 1, 3}, {"mb_check of more than the limit", check_most, 1, 3},
    {"mb_frames", frames, 1, 4}, {"mb_show", show, 2, 3}, {"mb_message_merge", merge, 2, 6}, {"mb_canon", canon, 4, 6}, {"mb_message_decode", decode, 4, 6},
    {"mb_decoder_feed of one piece", one_piece, 2, 6}, {"mb_decoder_feed of pieces of 100 bytes", pieces, 1, 1},
    {"mb_find of a number", find_number, 1, 5}, {"mb_find of a string", find_string, 1, 5}, {"mb_find of a member of a oneof", find_member, 1, 5},
    {"mb_find of a string in messages", find_inside, 1, 5},
};
enum { CALLS = sizeof calls / sizeof *calls };
/* It reads more than mb_show may: so the count finds a second reading. */
static const struct call planted = {"mb_check and mb_show", check_and_show, 2, 3};

/* ---- The inputs ---- */

/* An input is made from its end, which is that of `made`, to its start. */
static uint8_t made[MOST], *start;
#define END (made + MOST)

static size_t whole_size(void)
{
    return PAGES * page_size;
}

static size_t made_len(void)
{
    return (size_t)(END - start);
}

static void put(const void *bytes, size_t len)
{
    start -= len;
    memcpy(start, bytes, len);
}

static size_t varint(uint8_t *at, uint64_t number)
{
    size_t len = 0;
    for (; number > 127; number >>= 7)
        at[len++] = (uint8_t)(number | 128);
    at[len++] = (uint8_t)number;
    return len;
}

static void put_varint(uint64_t number)
{
    uint8_t bytes[10];
    put(bytes, varint(bytes, number));
}

/* Puts a tag and a length before what is there up to an end. */
static void wrap(uint32_t number, const uint8_t *end)
{
    put_varint((uint64_t)(end - start));
    put_varint(number << 3 | 2);
}

/* Puts some bytes again and again, so that a size is filled. */
static void fill(const char *bytes, size_t len, size_t filled)
{
    for (size_t done = 0; done < filled; done += len)
        put(bytes, len);
}

#define FILL(BYTES, FILLED) fill(BYTES, sizeof BYTES - 1, FILLED)
#define PUT(BYTES) put(BYTES, sizeof BYTES - 1)
/* n = 7 */
#define NUMBER "\x40\x07"
#define STRING "abcdefg\xc3\xa4"

/* One record of a number whose payload is these bytes again and again. */
#define RECORD(NAME, NUMBER_OF, BYTES) static void NAME(void) { FILL(BYTES, whole_size()); wrap(NUMBER_OF, END); }
/* Records again and again. */
#define RECORDS(NAME, BYTES) static void NAME(void) { FILL(BYTES, whole_size()); }

RECORDS(numbers, NUMBER)
RECORDS(unpacked, "\x68\x07")
RECORDS(unknown, "\xfd\xff\xff\xff\x0f\1\2\3\4")
RECORDS(small_messages, "\x1a\x02" NUMBER)
RECORDS(small_unknown, "\x9a\x06\x02" NUMBER)
RECORDS(short_strings, "\x4a\x05" "abcde")
RECORDS(entries, "\x52\x06\x08\x07\x12\x02" "ab")
RECORDS(unknown_groups, "\xa3\x06" NUMBER "\xa4\x06")
RECORD(string, 4, STRING)
RECORD(ascii, 4, "abcdefgh")
RECORD(member, 11, STRING)
RECORD(some_bytes, 5, "\xff\x80")
RECORD(unknown_bytes, 99, "\xff\x80")
RECORD(packed, 6, "\x07")
RECORD(packed_long, 6, "\xff\xff\xff\xff\xff\xff\xff\xff\xff\x01")
RECORD(packed_enums, 14, "\x01")
RECORD(packed_fixed, 7, "abcd")
RECORD(one_message, 1, NUMBER)

static void closed_enums(void)
{
    FILL("\x01\x07", whole_size());
    wrap(1, END);
    wrap(15, END);
}
static void closed_unpacked(void)
{
    FILL("\x10\x01\x10\x07", whole_size());
    wrap(15, END);
}
static void records_of(uint32_t number, const char *bytes, size_t len, size_t each)
{
    while (made_len() < whole_size()) {
        const uint8_t *end = start;
        fill(bytes, len, each);
        wrap(number, end);
    }
}
static void strings(void) { records_of(9, STRING, 9, 8 * page_size); }
static void packed_lists(void) { records_of(6, "\x07", 1, 8 * page_size); }
static void message_in_parts(void) { records_of(1, "\x68\x07", 2, 8 * page_size); }
static void values_of_an_entry(void)
{
    records_of(2, "\x40\x07", 2, 8 * page_size);
    wrap(2, END);
}
static void members_in_turn(void)
{
    while (made_len() < whole_size()) {
        const uint8_t *end = start;
        FILL("\x68\x07", 8 * page_size);
        wrap(12, end);
        end = start;
        FILL(STRING, 8 * page_size);
        wrap(11, end);
    }
}
static void entries_in_order(void)
{
    for (size_t key = whole_size() / 9; key > 0; key--) {
        const uint8_t *end = start;
        PUT("\x12\x02" "ab");
        put_varint(key);
        PUT("\x08");
        wrap(10, end);
    }
}
static void entry_of_key(char key, bool is_last)
{
    const uint8_t *end = start;
    PUT("\x12\0");
    const uint8_t *key_end = start;
    if (is_last)
        put(&key, 1);
    FILL("abcdefgh", 8 * page_size);
    if (!is_last)
        put(&key, 1);
    wrap(1, key_end);
    wrap(2, end);
}
static void long_keys(void)
{
    for (char key = 'z'; made_len() < whole_size(); key--)
        entry_of_key(key, false);
}
static void keys_that_begin_alike(void)
{
    for (char key = 'z'; made_len() < whole_size(); key--)
        entry_of_key(key, true);
}
static void one_entry(void)
{
    FILL(NUMBER, whole_size());
    wrap(2, END);
    PUT("\x0a\x01z");
    wrap(2, END);
}
static void value_before_key(void)
{
    PUT("\x0a\x01z");
    const uint8_t *end = start;
    FILL(NUMBER, whole_size());
    wrap(2, end);
    wrap(2, END);
}
static void unknown_group(void)
{
    PUT("\xa4\x06");
    FILL(NUMBER, whole_size());
    PUT("\xa3\x06");
}
static void group(void)
{
    PUT("\x1c");
    FILL(NUMBER, whole_size());
    PUT("\x1b");
    wrap(15, END);
}

/* What nests, each time after as much. */
static void nest(uint32_t number, size_t each)
{
    for (int i = 0; i < DEPTH; i++) {
        FILL(NUMBER, each);
        wrap(number, END);
    }
}
static void messages(void) { nest(1, whole_size() / DEPTH); }
static void lists(void) { nest(3, whole_size() / DEPTH); }
static void members(void) { nest(12, whole_size() / DEPTH); }
/* What nests around all that is there. */
static void nest_around(void (*inner)(void), uint32_t number)
{
    inner();
    for (int i = 0; i < DEPTH; i++)
        wrap(number, END);
}
static void string_inside(void) { nest_around(string, 1); }
static void packed_inside(void) { nest_around(packed, 1); }
static void numbers_inside(void) { nest_around(numbers, 1); }
static void entries_inside(void) { nest_around(entries_in_order, 1); }
static void too_deep(void)
{
    numbers_inside();
    wrap(1, END);
}
/* What nests between as much before and after it, or after its key's place. */
static void nest_between(void (*before)(void), void (*after)(void), void (*around)(const uint8_t *))
{
    static uint8_t inner[MOST];
    size_t len = 0;
    for (int i = 0; i < DEPTH; i++) {
        start = END;
        after();
        const uint8_t *end = start;
        put(inner, len);
        before();
        around(end);
        len = made_len();
        memcpy(inner, start, len);
    }
}
static void some_numbers(void) { FILL(NUMBER, whole_size() / DEPTH / 2); }
static void a_key(void) { PUT("\x0a\x01z"); }
static void as_message(const uint8_t *end)
{
    (void)end;
    wrap(1, END);
}
static void as_entry(const uint8_t *end)
{
    wrap(2, end);
    wrap(2, END);
}
static void messages_between(void) { nest_between(some_numbers, some_numbers, as_message); }
static void maps_turned(void) { nest_between(some_numbers, a_key, as_entry); }
static void maps(void)
{
    for (int i = 0; i < DEPTH; i++) {
        FILL(NUMBER, whole_size() / DEPTH);
        wrap(2, END);
        a_key();
        wrap(2, END);
    }
}
static void numbers_in_maps(void)
{
    numbers();
    for (int i = 0; i < DEPTH; i++) {
        wrap(2, END);
        a_key();
        wrap(2, END);
    }
}
static void groups(void)
{
    for (int i = 0; i < DEPTH; i++) {
        PUT("\xa4\x06");
        some_numbers();
    }
    for (int i = 0; i < DEPTH; i++) {
        some_numbers();
        PUT("\xa3\x06");
    }
}

static const struct { const char *name; void (*make)(void); } inputs[] = {
    {"records of a number", numbers}, {"an unpacked list", unpacked}, {"unknown numbers", unknown}, {"small messages", small_messages},
    {"small unknown records", small_unknown}, {"short strings", short_strings}, {"strings", strings}, {"a string", string}, {"a string of ASCII", ascii},
    {"a string of a oneof", member}, {"bytes", some_bytes}, {"unknown bytes", unknown_bytes}, {"a packed list", packed},
    {"a packed list of long varints", packed_long}, {"a packed list of enums", packed_enums}, {"a packed list of a closed enum", closed_enums},
    {"a list of a closed enum", closed_unpacked}, {"a packed list of fixed32", packed_fixed}, {"packed lists", packed_lists},
    {"entries of one key", entries}, {"entries in order", entries_in_order}, {"entries of long keys", long_keys},
    {"entries of long keys that begin alike", keys_that_begin_alike}, {"one entry", one_entry}, {"an entry with its key last", value_before_key},
    {"an entry of many values", values_of_an_entry}, {"one message", one_message}, {"a message in parts", message_in_parts},
    {"members of a oneof in turn", members_in_turn}, {"a group", group}, {"an unknown group", unknown_group}, {"unknown groups", unknown_groups},
    {"messages in messages", messages}, {"messages between records", messages_between}, {"messages in lists", lists}, {"messages in oneofs", members},
    {"a string in messages", string_inside}, {"a packed list in messages", packed_inside}, {"records in messages", numbers_inside},
    {"entries in messages", entries_inside}, {"maps in maps", maps}, {"records in maps", numbers_in_maps}, {"maps in maps, keys last", maps_turned},
    {"groups in groups", groups}, {"messages too deep", too_deep},
};
enum { INPUTS = sizeof inputs / sizeof *inputs };

/* How an input is changed: its bytes, or records after it. */
enum change { NONE, CUT, LAST_FF, LAST_ZERO, MIDDLE_FF, MORE_ZERO, MORE_STRING, MORE_PAST, MORE_GOOD, CHANGES };
static const char *const changes[] = {
    "", ", cut off", ", its last byte 0xff", ", its last byte 0", ", its middle byte 0xff", ", then a tag of 0", ", then a string that is not UTF-8",
    ", then a length past the end", ", then a number",
};

static void append(const char *bytes, size_t len)
{
    memcpy(input + input_len, bytes, len);
    input_len += len;
}

static void set_input(size_t which, enum change change)
{
    start = END;
    inputs[which].make();
    mprotect(region, MOST, PROT_READ | PROT_WRITE);
    input_len = made_len();
    memcpy(input, start, input_len);
    switch (change) {
    case CUT: input_len--; break;
    case LAST_FF: input[input_len - 1] = 0xff; break;
    case LAST_ZERO: input[input_len - 1] = 0; break;
    case MIDDLE_FF: input[input_len / 2] = 0xff; break;
    case MORE_ZERO: append("", 1); break;
    case MORE_STRING: append("\x22\x02\xc3\x28", 4); break;
    case MORE_PAST: append("\x0a\x05", 2); break;
    case MORE_GOOD: append(NUMBER, 2); break;
    default: break;
    }
    uint8_t length[10];
    length_size = varint(length, input_len);
    memcpy(input - length_size, length, length_size);
    close_input();
}

/* ---- Counting ---- */

/* The most that was counted. */
struct most { double times; size_t input; enum change change; uint32_t answer; };

static void look(const struct call *call, struct most *whole, struct most *refused, size_t which, enum change change, bool is_loud)
{
    close_input();
    uint32_t answer = call->call();
    struct most *most = answer == MB_DONE || answer == MB_ABSENT ? whole : refused;
    if (is_loud)
        printf("%5.2f %s of %s%s: %u\n", times_read(), call->name, inputs[which].name, changes[change], answer);
    if (times_read() > most->times)
        *most = (struct most){times_read(), which, change, answer};
}

/* Whether bytes that are read K times count K. */
static bool counts(void)
{
    volatile uint8_t sum = 0;
    set_input(0, NONE);
    for (int wanted = 1; wanted <= 4; wanted++) {
        close_input();
        for (int turn = 0; turn < wanted; turn++)
            for (size_t i = 0; i < input_len; i++)
                sum ^= input[i];
        if (times_read() != wanted)
            return false;
    }
    return true;
}

static bool is_within(const char *name, const struct most *most, const char *what, double limit)
{
    printf("%s: %s read %.2f times at most, of %g: %s%s, answer %u\n", name, what, most->times, limit, inputs[most->input].name, changes[most->change],
           (unsigned)most->answer);
    return most->times <= limit + spare;
}

int main(int argc, char **argv)
{
    bool is_loud = argc == 2 && strcmp(argv[1], "all") == 0, is_right = true;
    struct mb_bytes names[] = {{(const uint8_t *)"a.proto", 7}, {(const uint8_t *)"b.proto", 7}}, texts[2];
    struct mb_refusal refusal;
    struct sigaction action = {0};
    struct most whole[CALLS] = {{0}}, refused[CALLS] = {{0}}, whole_planted = {0}, refused_planted = {0};

    page_size = (size_t)sysconf(_SC_PAGESIZE);
    region = mmap(NULL, MOST, PROT_NONE, MAP_PRIVATE | MAP_ANONYMOUS, -1, 0);
    input = region + page_size;
    action.sa_sigaction = open_page;
    action.sa_flags = SA_SIGINFO;
    sigaction(SIGSEGV, &action, NULL);
    for (int i = 0; i < 2; i++)
        texts[i] = (struct mb_bytes){(const uint8_t *)sources[i], strlen(sources[i])};
    uint32_t answer = mb_pool_compile_lenient(names, 2, texts, 2, &pool, &refusal, out, sizeof out);
    if (answer != MB_DONE || mb_pool_type(&pool, (const uint8_t *)"T", 1, &type) != MB_DONE) {
        fprintf(stderr, "reads: the types are refused: %u, at byte %llu of source %zu\n", (unsigned)answer, (unsigned long long)refusal.byte, refusal.file);
        return 2;
    }
    for (size_t which = 0; which < INPUTS; which++)
        for (enum change change = NONE; change < CHANGES; change++) {
            set_input(which, change);
            for (size_t i = 0; i < CALLS; i++)
                look(&calls[i], &whole[i], &refused[i], which, change, is_loud);
            look(&planted, &whole_planted, &refused_planted, which, change, is_loud);
        }
    for (size_t i = 0; i < CALLS; i++) {
        is_right &= is_within(calls[i].name, &whole[i], "a message", calls[i].whole);
        is_right &= is_within(calls[i].name, &refused[i], "what is refused", calls[i].refused);
    }
    if (!counts()) {
        printf("reads: WRONG: bytes that are read K times do not count K\n");
        is_right = false;
    }
    if (whole_planted.times <= planted.whole + spare || refused_planted.times <= planted.refused + spare) {
        printf("reads: WRONG: two calls in one, %s, do not count more than one\n", planted.name);
        is_right = false;
    }
    if (!is_right)
        printf("reads: WRONG: a call reads more often than its limit says\n");
    mb_pool_free(&pool);
    return is_right ? 0 : 1;
}
