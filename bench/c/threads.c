/* Uses one pool from several threads, each by a share of its own that it makes and frees again and again: threads SET TYPE MESSAGE [COUNT]. And each thread
 * gets a message and a decoder that another one made and used, and hands them on. Any answer but that of the first call is wrong. */
#include "mabristu.h"

#include <pthread.h>
#include <stdbool.h>
#include <stdio.h>
#include <stdlib.h>
#include <string.h>

enum { THREADS = 4 };

#define LIMITS MB_MAX_BYTES, MB_MAX_DEPTH
#define FAULT &fault, path, MB_MAX_STEPS

static uint8_t set[1 << 20], message[1 << 16], listing[1 << 16], canonical[1 << 16];
static size_t set_len, message_len, listing_len, canonical_len;
static uint32_t type;
static int rounds = 2000;

static size_t read_file(const char *name, uint8_t *bytes, size_t capacity)
{
    FILE *file = fopen(name, "rb");
    if (file == NULL)
        exit(2);
    size_t len = fread(bytes, 1, capacity, file);
    fclose(file);
    return len;
}

/* What a thread is given, and hands on. */
struct given {
    struct mb_pool pool;
    struct mb_message message;
    struct mb_decoder decoder;
};

/* Whether the canonical bytes of a message are those of the first one. */
static bool is_canonical(struct mb_message *it)
{
    static _Thread_local uint8_t out[1 << 16];
    size_t size;

    return mb_message_encode(it, out, sizeof out, &size) == MB_DONE && size == canonical_len && memcmp(out, canonical, size) == 0;
}

/* Makes a message, and a decoder that has received the first half of it, in place of what is there. Returns how many answers are wrong. */
static uintptr_t make(struct given *given)
{
    struct mb_fault fault;
    struct mb_step path[MB_MAX_STEPS];
    uintptr_t wrong = mb_message_decode(&given->pool, type, message, message_len, LIMITS, &given->message, FAULT) != MB_DONE;

    wrong += mb_decoder_new(&given->pool, type, LIMITS, &given->decoder) != MB_DONE;
    return wrong + (mb_decoder_feed(&given->decoder, message, message_len / 2, FAULT) != MB_DONE);
}

/* Reads what another thread made, changes the message and decodes the rest of the other one. Returns how many answers are wrong. */
static uintptr_t go_on(struct given *given)
{
    struct mb_fault fault;
    struct mb_step path[MB_MAX_STEPS];
    struct mb_message whole = {0};
    uintptr_t wrong = !is_canonical(&given->message);

    wrong += mb_message_merge(&given->message, message, message_len, LIMITS, FAULT) != MB_DONE;
    wrong += mb_decoder_feed(&given->decoder, message + message_len / 2, message_len - message_len / 2, FAULT) != MB_DONE;
    wrong += mb_decoder_finish(&given->decoder, &whole, FAULT) != MB_DONE || !is_canonical(&whole);
    mb_message_free(&whole);
    return wrong;
}

static void *work(void *given)
{
    static _Thread_local uint8_t out[1 << 16];
    struct mb_fault fault;
    struct mb_step path[MB_MAX_STEPS];
    struct mb_pool *pool = &((struct given *)given)->pool, again = {0};
    uintptr_t wrong = go_on(given);
    size_t size;

    for (int round = 0; round < rounds; round++) {
        wrong += mb_pool_share(pool, &again) != MB_DONE;
        wrong += mb_show(&again, type, message, message_len, LIMITS, out, sizeof out, &size, FAULT) != MB_DONE;
        wrong += size != listing_len || memcmp(out, listing, size) != 0;
        wrong += mb_check(pool, type, message, message_len, LIMITS, FAULT) != MB_DONE;
        wrong += mb_check(&again, type, message, message_len - 1, LIMITS, FAULT) != MB_FAULT || fault.byte != message_len - 1;
        mb_pool_free(&again);
        wrong += mb_check(&again, type, message, message_len, LIMITS, FAULT) != MB_EMPTY;
    }
    /* The main thread goes on with these, and frees them. */
    wrong += make(given);
    mb_pool_free(pool);
    return (void *)wrong;
}

int main(int argc, char **argv)
{
    static struct given given[THREADS];
    struct mb_pool first = {0};
    struct mb_fault fault;
    struct mb_step path[MB_MAX_STEPS];
    struct mb_refusal refusal;
    pthread_t threads[THREADS];
    uintptr_t wrong = 0;

    if (argc < 4)
        return 2;
    if (argc > 4)
        rounds = atoi(argv[4]);
    set_len = read_file(argv[1], set, sizeof set);
    message_len = read_file(argv[3], message, sizeof message);
    if (mb_pool_link(set, set_len, &first, FAULT, &refusal, NULL, 0) != MB_DONE ||
        mb_pool_type(&first, (const uint8_t *)argv[2], strlen(argv[2]), &type) != MB_DONE ||
        mb_show(&first, type, message, message_len, LIMITS, listing, sizeof listing, &listing_len, FAULT) != MB_DONE ||
        mb_canon(&first, type, message, message_len, LIMITS, canonical, sizeof canonical, &canonical_len, FAULT) != MB_DONE)
        return 2;
    for (int i = 0; i < THREADS; i++)
        if (mb_pool_share(&first, &given[i].pool) != MB_DONE || make(&given[i]) != 0)
            return 2;
    mb_pool_free(&first);
    for (int i = 0; i < THREADS; i++)
        pthread_create(&threads[i], NULL, work, &given[i]);
    for (int i = 0; i < THREADS; i++) {
        void *of_thread;
        pthread_join(threads[i], &of_thread);
        wrong += (uintptr_t)of_thread + go_on(&given[i]);
        mb_message_free(&given[i].message);
        mb_decoder_free(&given[i].decoder);
    }
    printf("%d threads of %d rounds over one pool: %lu wrong answers\n", THREADS, rounds, (unsigned long)wrong);
    return wrong != 0;
}
