// Under LD_PRELOAD: when a process first reads the clock of its processor time, the holes in its heap are filled.
//
// What a program did before, here the making of its types, leaves free blocks, other ones in each program. How long malloc looks for a
// block depends on them, by up to a tenth of what it takes to decode groups of a few fields. So each program begins with a heap that has none:
// blocks of falling sizes are taken, and kept, until each comes from the heap's end. Behind them a block of HEAP_START bytes is kept too, if that is
// set: where the heap begins to be used moves what malloc takes by up to a twentieth, in one program for one place and in another for another.
#define _GNU_SOURCE
#include <malloc.h>
#include <stdlib.h>
#include <sys/syscall.h>
#include <time.h>
#include <unistd.h>

// Blocks of twice the largest size may have pages of their own, and then come from neither a hole nor the heap's end.
enum { LARGEST = 1 << 16, SMALLEST = 24, STEP = 16, LARGE = 4096 };

// Whether a block of this size was taken out of a hole.
static int fills_hole(size_t size) {
    size_t end = mallinfo2().keepcost;
    void *volatile block = malloc(size);
    if (mallinfo2().keepcost == end) return 1;
    free(block);
    return 0;
}

int clock_gettime(clockid_t clock, struct timespec *time) {
    static int filled;
    if (clock == CLOCK_PROCESS_CPUTIME_ID && !filled) {
        filled = 1;
        for (size_t size = LARGEST; size >= SMALLEST; size -= size > LARGE ? LARGE : STEP)
            while (fills_hole(size)) continue;
        const char *start = getenv("HEAP_START");
        void *volatile kept = start ? malloc(strtoul(start, NULL, 10)) : NULL;
        (void)kept;
    }
    return syscall(SYS_clock_gettime, clock, time);
}
