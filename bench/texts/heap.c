// Under LD_PRELOAD: the clock of a process's processor time counts bytes of heap in place of nanoseconds.
//
// A block counts as what the C library's heap gives for it, with the eight bytes of its head. The clock counts the bytes that are held now,
// and under HEAP_CLOCK=most at each second time that it is read the most that were held since it was last read. So a program that reads the
// clock before and after a call shows how much the call left held, or held at most, and nothing in it is made for that.
#define _GNU_SOURCE
#include <errno.h>
#include <malloc.h>
#include <stdlib.h>
#include <string.h>
#include <sys/syscall.h>
#include <time.h>
#include <unistd.h>

void *__libc_malloc(size_t size);
void *__libc_calloc(size_t count, size_t size);
void *__libc_realloc(void *block, size_t size);
void *__libc_memalign(size_t alignment, size_t size);
void __libc_free(void *block);

// The programs that are measured have one thread.
static size_t held, most;

static void *counted(void *block) {
    if (block) held += malloc_usable_size(block) + 8;
    if (held > most) most = held;
    return block;
}

static void gone(void *block) {
    if (block) held -= malloc_usable_size(block) + 8;
}

void *malloc(size_t size) { return counted(__libc_malloc(size)); }

void *calloc(size_t count, size_t size) { return counted(__libc_calloc(count, size)); }

void *memalign(size_t alignment, size_t size) { return counted(__libc_memalign(alignment, size)); }

void *aligned_alloc(size_t alignment, size_t size) { return memalign(alignment, size); }

int posix_memalign(void **block, size_t alignment, size_t size) { return (*block = memalign(alignment, size)) ? 0 : ENOMEM; }

// A block that grows is taken to grow in place, with no second one beside it.
void *realloc(void *block, size_t size) {
    size_t before = block ? malloc_usable_size(block) + 8 : 0;
    void *grown = __libc_realloc(block, size);
    if (!grown && size) return NULL;
    held -= before;
    return counted(grown);
}

void free(void *block) {
    gone(block);
    __libc_free(block);
}

int clock_gettime(clockid_t clock, struct timespec *time) {
    if (clock != CLOCK_PROCESS_CPUTIME_ID) return syscall(SYS_clock_gettime, clock, time);
    static int times;
    const char *reported = getenv("HEAP_CLOCK");
    size_t bytes = times++ % 2 && reported && !strcmp(reported, "most") ? most : held;
    most = held;
    time->tv_sec = bytes / 1000000000;
    time->tv_nsec = bytes % 1000000000;
    return 0;
}
