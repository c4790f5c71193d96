/* Decodes inputs in turn with two releases of the library, and prints the median of the ratios of their processor time.

       releases OLD.so NEW.so SET TYPE TURNS FILE..

   `git show COMMIT:dist/libmabristu.so > OLD.so` gets a release. SET holds a descriptor set, and a FILE messages of TYPE, each after its length in
   four bytes, as bench/texts/make_texts.py writes them. In each turn each release decodes the whole file, and the one that begins changes from turn
   to turn. Before each message comes an unknown record in a spelling that is not canonical: so the message is built, and not the bytes copied. A
   ratio above 1 says that NEW is slower. Build with: cc -O2 -I include -o releases bench/c/releases.c -ldl */
#include <dlfcn.h>
#include <stdio.h>
#include <stdlib.h>
#include <string.h>
#include <time.h>
#include "mabristu.h"

struct release {
    __typeof__(mb_message_decode) *decode;
    __typeof__(mb_message_free) *free;
    struct mb_pool pool;
    uint32_t type;
};

static struct mb_step path[MB_MAX_STEPS];
/* The greatest field number, a varint, and a zero in two bytes. */
static const uint8_t unknown[] = {0xf8, 0xff, 0xff, 0xff, 0x0f, 0x80, 0x00};

static uint8_t *read_file(const char *name, size_t *size) {
    FILE *file = fopen(name, "rb");
    if (!file || fseek(file, 0, SEEK_END)) exit(2);
    *size = ftell(file);
    rewind(file);
    uint8_t *bytes = malloc(*size + 1);
    if (!bytes || fread(bytes, 1, *size, file) != *size) exit(2);
    fclose(file);
    return bytes;
}

static double processor_time(void) {
    struct timespec it;
    clock_gettime(CLOCK_PROCESS_CPUTIME_ID, &it);
    return it.tv_sec * 1e9 + it.tv_nsec;
}

static int by_size(const void *a, const void *b) {
    double x = *(const double *)a, y = *(const double *)b;
    return (x > y) - (x < y);
}

static void load(struct release *it, const char *library, const uint8_t *set, size_t size, const char *type) {
    void *from = dlopen(library, RTLD_NOW | RTLD_LOCAL);
    if (!from) exit(2);
    __typeof__(mb_pool_link) *link = (__typeof__(mb_pool_link) *)dlsym(from, "mb_pool_link");
    __typeof__(mb_pool_type) *find = (__typeof__(mb_pool_type) *)dlsym(from, "mb_pool_type");
    it->decode = (__typeof__(mb_message_decode) *)dlsym(from, "mb_message_decode");
    it->free = (__typeof__(mb_message_free) *)dlsym(from, "mb_message_free");
    struct mb_fault fault;
    struct mb_refusal refusal;
    uint8_t text[99];
    memset(&it->pool, 0, sizeof it->pool);
    if (link(set, size, &it->pool, &fault, path, MB_MAX_STEPS, &refusal, text, sizeof text)) exit(2);
    if (find(&it->pool, (const uint8_t *)type, strlen(type), &it->type)) exit(2);
}

/* The inputs of a file, each with the unknown record before it and its length in four bytes before that. */
static uint8_t *with_unknown(const uint8_t *bytes, size_t size, size_t *new_size) {
    uint8_t *made = malloc(size + size / 4 * sizeof unknown + 1);
    if (!made) exit(2);
    *new_size = 0;
    for (size_t at = 0; at + 4 <= size;) {
        uint32_t length = bytes[at] | bytes[at + 1] << 8 | bytes[at + 2] << 16 | (uint32_t)bytes[at + 3] << 24, whole = length + sizeof unknown;
        memcpy(made + *new_size, &whole, 4);
        memcpy(made + *new_size + 4, unknown, sizeof unknown);
        memcpy(made + *new_size + 4 + sizeof unknown, bytes + at + 4, length);
        *new_size += 4 + whole;
        at += 4 + length;
    }
    return made;
}

static double decode_all(struct release *it, const uint8_t *bytes, size_t size, int times) {
    struct mb_fault fault;
    double start = processor_time();
    for (int k = 0; k < times; k++)
        for (size_t at = 0; at + 4 <= size;) {
            uint32_t length;
            memcpy(&length, bytes + at, 4);
            struct mb_message message = {0};
            if (it->decode(&it->pool, it->type, bytes + at + 4, length, MB_MAX_BYTES, MB_MAX_DEPTH, &message, &fault, path, MB_MAX_STEPS)) exit(2);
            it->free(&message);
            at += 4 + length;
        }
    return processor_time() - start;
}

int main(int argc, char **argv) {
    if (argc < 7) return 2;
    size_t size;
    uint8_t *set = read_file(argv[3], &size);
    struct release both[2];
    for (int k = 0; k < 2; k++) load(&both[k], argv[1 + k], set, size, argv[4]);
    int turns = atoi(argv[5]);
    double *ratios = malloc(turns * sizeof *ratios);
    if (turns < 1 || !ratios) return 2;
    for (int file = 6; file < argc; file++) {
        uint8_t *read = read_file(argv[file], &size), *bytes = with_unknown(read, size, &size);
        free(read);
        double first = decode_all(&both[0], bytes, size, 1), spent[2];
        decode_all(&both[1], bytes, size, 1);
        int times = 3e7 / first + 1;
        for (int turn = 0; turn < turns; turn++) {
            for (int k = 0; k < 2; k++) {
                int which = (turn + k) % 2;
                spent[which] = decode_all(&both[which], bytes, size, times);
            }
            ratios[turn] = spent[1] / spent[0];
        }
        qsort(ratios, turns, sizeof *ratios, by_size);
        printf("%-40s %.3f (%.3f to %.3f)\n", argv[file], ratios[turns / 2], ratios[turns / 4], ratios[3 * turns / 4]);
        fflush(stdout);
        free(bytes);
    }
    return 0;
}
