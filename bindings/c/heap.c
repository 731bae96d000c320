/* The allocator of the library: the three functions that its proved code calls for memory, over
 * malloc, realloc and free. bindings/link.sh puts them into the library, and hides their names.
 *
 * The proofs assume of them what the kit's `libc` states of these names (its src/heap.rt), so:
 *
 * - The size of a block is a multiple of its alignment, which is 1, 2, 4, 8 or 16. It is below
 *   2^63, and may be 0. malloc and realloc align a block to each of these powers that divides its
 *   size (see tufcheck.h). A block of size 0 is asked for with the size of its alignment: so it is
 *   aligned, malloc doesn't return null for it, and realloc doesn't free it.
 * - An answer says whether there is a block. Its pointer is never null: if there is none, it points
 *   to a byte that nobody reads or writes.
 * - A realloc that fails leaves the old block unchanged. It isn't called without an old block. */
#include <stdbool.h>
#include <stddef.h>
#include <stdlib.h>

/* Whether there is a block, and where it is. */
typedef struct {
    bool ok;
    void *at;
} tried;

tried rattle_alloc(size_t size, size_t alignment);
tried rattle_realloc(void *old, size_t kept, size_t size, size_t alignment);
void rattle_dealloc(void *block);

static tried answer(void *block)
{
    static char nothing;
    tried is = {block != NULL, block != NULL ? block : &nothing};
    return is;
}

/* A new block. */
tried rattle_alloc(size_t size, size_t alignment)
{
    return answer(malloc(size != 0 ? size : alignment));
}

/* The block, with another size. Its first `kept` bytes stay as they were: realloc keeps as many as
 * both sizes have, and `kept` is no more than that. */
tried rattle_realloc(void *old, size_t kept, size_t size, size_t alignment)
{
    (void)kept;
    return answer(realloc(old, size != 0 ? size : alignment));
}

/* Frees a block of either. */
void rattle_dealloc(void *block)
{
    free(block);
}
