// Counts the allocations of the program that it is loaded into, and refuses the one that REFUSED numbers, with all after it where ONWARD is set. The count goes to the file COUNT when the program ends. It takes no memory itself.
#define _GNU_SOURCE
#include <dlfcn.h>
#include <errno.h>
#include <fcntl.h>
#include <stdio.h>
#include <stdlib.h>
#include <unistd.h>

static long count, refused;
static int onward;

__attribute__((constructor)) static void begin(void) {
    const char *number = getenv("REFUSED");
    refused = number ? atol(number) : 0;
    onward = getenv("ONWARD") != NULL;
    count = 0;
}

__attribute__((destructor)) static void tell(void) {
    char text[24];
    const char *path = getenv("COUNT");
    int file = path ? open(path, O_WRONLY | O_CREAT | O_TRUNC, 0600) : -1;
    if (file >= 0) {
        int size = snprintf(text, sizeof text, "%ld\n", count);
        if (write(file, text, size) != size) _exit(70);
        close(file);
    }
}

static int is_refused(void) {
    long number = __atomic_add_fetch(&count, 1, __ATOMIC_SEQ_CST);
    return number == refused || (onward && refused && number > refused);
}

void *malloc(size_t size) {
    static void *(*next)(size_t);
    if (!next) next = dlsym(RTLD_NEXT, "malloc");
    if (is_refused()) return errno = ENOMEM, NULL;
    return next(size);
}

void *realloc(void *block, size_t size) {
    static void *(*next)(void *, size_t);
    if (!next) next = dlsym(RTLD_NEXT, "realloc");
    if (is_refused()) return errno = ENOMEM, NULL;
    return next(block, size);
}

void *aligned_alloc(size_t alignment, size_t size) {
    static void *(*next)(size_t, size_t);
    if (!next) next = dlsym(RTLD_NEXT, "aligned_alloc");
    if (is_refused()) return errno = ENOMEM, NULL;
    return next(alignment, size);
}

int posix_memalign(void **block, size_t alignment, size_t size) {
    static int (*next)(void **, size_t, size_t);
    if (!next) next = dlsym(RTLD_NEXT, "posix_memalign");
    if (is_refused()) return ENOMEM;
    return next(block, alignment, size);
}
