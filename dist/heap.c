/* The allocator that the compiled library calls, over malloc, for processors for which the kit has none. The kit's own, for x86-64, keeps the same
 * contract; it is trusted as this one is (docs/PROMISES.md):
 *
 * rattle_alloc(n, a)           n bytes, or a bytes where n is 0, at an address that any type may have
 * rattle_realloc(p, kept, n, a)  the same for a block of rattle_alloc or rattle_realloc, which keeps its first `kept` bytes and is no longer to be
 *                              used by its old address; where it is refused, the block stays as it is
 * rattle_dealloc(p)            gives such a block back
 *
 * Where memory is refused, `is_there` is 0 and `block` is the address of `nothing`, which is not null and is never read. */
#include <stdint.h>
#include <stdlib.h>

struct allocated {
    uint64_t is_there;
    void *block;
};

static char nothing;

static struct allocated allocated(void *block)
{
    struct allocated it = {block != NULL, block != NULL ? block : &nothing};
    return it;
}

struct allocated rattle_alloc(size_t n, size_t a)
{
    return allocated(malloc(n != 0 ? n : a));
}

struct allocated rattle_realloc(void *p, size_t kept, size_t n, size_t a)
{
    (void)kept;
    return allocated(realloc(p, n != 0 ? n : a));
}

void rattle_dealloc(void *p)
{
    free(p);
}
