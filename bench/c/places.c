/* Makes one call at a place of a message of the shop, whose fields are built, again and again: places SET ORDER CASE TIMES. ORDER has an order of two lines
 * and a discount, as examples/shop_order.bin. Prints the nanoseconds of the processor that a call took. Without CASE and TIMES the names of the cases. */
#include "mabristu.h"

#include <stdio.h>
#include <stdlib.h>
#include <string.h>
#include <time.h>

#define FIELD(number) {MB_FIELD, number}
#define LEN(list) (sizeof (list) / sizeof *(list))

static const struct mb_bytes strings[] = {{(const uint8_t *)"spring", 6}, {(const uint8_t *)"twenty-eight bytes of string", 28}};
static const struct mb_value number[] = {FIELD(1)}, placed_on[] = {FIELD(2)}, card[] = {FIELD(5)}, corrections[] = {FIELD(8), {MB_INDEX, 0}},
                             gift[] = {FIELD(9)}, address[] = {FIELD(6), FIELD(1)}, pieces[] = {FIELD(3), {MB_INDEX, 1}, FIELD(2)},
                             article[] = {FIELD(3), {MB_INDEX, 1}, FIELD(1)}, discount[] = {FIELD(4), {MB_STRING, 0}};
static const struct mb_value long_number = {MB_UINT64, 4711}, int_number = {MB_INT32, 7}, is_true = {MB_BOOL, 1}, string = {MB_STRING, 1};

enum call { GET, READ, SET, INSERT, CLEAR_AND_SET };

static const struct {
    const char *name;
    enum call call;
    const struct mb_value *place;
    size_t place_len;
    const struct mb_value *value;
    uint32_t answer;
} cases[] = {
    {"get number", GET, number, LEN(number), NULL, MB_DONE},
    {"get card, which is not set", GET, card, LEN(card), NULL, MB_ABSENT},
    {"get lines[1].pieces", GET, pieces, LEN(pieces), NULL, MB_DONE},
    {"get discounts[spring]", GET, discount, LEN(discount), NULL, MB_DONE},
    {"read placed_on", READ, placed_on, LEN(placed_on), NULL, MB_DONE},
    {"read lines[1].article", READ, article, LEN(article), NULL, MB_DONE},
    {"set number", SET, number, LEN(number), &long_number, MB_DONE},
    {"set gift", SET, gift, LEN(gift), &is_true, MB_DONE},
    {"set placed_on", SET, placed_on, LEN(placed_on), &string, MB_DONE},
    {"set invoice.address", SET, address, LEN(address), &string, MB_DONE},
    {"set lines[1].pieces", SET, pieces, LEN(pieces), &int_number, MB_DONE},
    {"set lines[1].article", SET, article, LEN(article), &string, MB_DONE},
    {"set corrections[0]", SET, corrections, LEN(corrections), &int_number, MB_DONE},
    {"insert discounts[spring]", INSERT, discount, LEN(discount), &int_number, MB_DONE},
    {"clear and set number", CLEAR_AND_SET, number, LEN(number), &long_number, MB_DONE},
};

static void want(uint32_t answer, uint32_t wanted, const char *what)
{
    if (answer == wanted)
        return;
    fprintf(stderr, "places: %s: %u\n", what, answer);
    exit(2);
}

static size_t read_file(const char *path, uint8_t *bytes, size_t most)
{
    FILE *file = fopen(path, "rb");
    size_t size = file == NULL ? 0 : fread(bytes, 1, most, file);

    want(file == NULL, 0, path);
    fclose(file);
    return size;
}

/* A message of the order, whose fields are built since one is set. */
static void make(struct mb_message *message, const char *set_path, const char *order_path)
{
    static uint8_t set[1 << 20], order[1 << 20];
    static struct mb_pool pool;
    struct mb_fault fault;
    struct mb_step path[MB_MAX_STEPS];
    struct mb_refusal refusal;
    uint32_t type = 0;
    size_t set_len = read_file(set_path, set, sizeof set), order_len = read_file(order_path, order, sizeof order);

    want(mb_pool_link(set, set_len, &pool, &fault, path, MB_MAX_STEPS, &refusal, NULL, 0), MB_DONE, "mb_pool_link");
    want(mb_pool_type(&pool, (const uint8_t *)"shop.Order", 10, &type), MB_DONE, "mb_pool_type");
    want(mb_message_decode(&pool, type, order, order_len, MB_MAX_BYTES, MB_MAX_DEPTH, message, &fault, path, MB_MAX_STEPS), MB_DONE, "mb_message_decode");
    want(mb_message_set(message, number, 1, NULL, 0, &long_number), MB_DONE, "mb_message_set");
    want(mb_message_set(message, address, 1, NULL, 0, &(struct mb_value){MB_MESSAGE, 0}), MB_DONE, "mb_message_set");
    want(mb_message_push(message, corrections, 1, NULL, 0, &int_number), MB_DONE, "mb_message_push");
}

static uint32_t once(struct mb_message *message, size_t of)
{
    const struct mb_value *place = cases[of].place;
    size_t place_len = cases[of].place_len, size;
    struct mb_value value;
    uint8_t out[64];

    switch (cases[of].call) {
    case GET:
        return mb_message_get(message, place, place_len, strings, LEN(strings), &value);
    case READ:
        return mb_message_read(message, place, place_len, strings, LEN(strings), out, sizeof out, &size);
    case SET:
        return mb_message_set(message, place, place_len, strings, LEN(strings), cases[of].value);
    case INSERT:
        return mb_message_insert(message, place, place_len, strings, LEN(strings), cases[of].value);
    default:
        want(mb_message_clear(message, place, place_len, strings, LEN(strings)), MB_DONE, "mb_message_clear");
        return mb_message_set(message, place, place_len, strings, LEN(strings), cases[of].value);
    }
}

static double now(void)
{
    struct timespec at;

    clock_gettime(CLOCK_PROCESS_CPUTIME_ID, &at);
    return at.tv_sec * 1e9 + at.tv_nsec;
}

int main(int count, char **words)
{
    struct mb_message message = {0};

    if (count < 5) {
        for (size_t of = 0; of < LEN(cases); of++)
            puts(cases[of].name);
        return 0;
    }
    size_t of = (size_t)atoi(words[3]), times = (size_t)atoi(words[4]);
    make(&message, words[1], words[2]);
    double start = now();
    for (size_t k = 0; k < times; k++)
        want(once(&message, of), cases[of].answer, cases[of].name);
    printf("%.1f\n", times == 0 ? 0 : (now() - start) / (double)times);
    mb_message_free(&message);
    return 0;
}
