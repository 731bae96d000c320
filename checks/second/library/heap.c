/* Whether an allocator's three functions do what bindings/c/heap.c says that they must. Linked with it, or with the kit's
 * own object, and with -Wl,--wrap=malloc,--wrap=realloc. The status is 1 if something is not as it must be. */
#include <stdbool.h>
#include <stdint.h>
#include <stdio.h>
#include <stdlib.h>
#include <string.h>

typedef struct {
    bool ok;
    unsigned char *at;
} tried;

tried rattle_alloc(size_t size, size_t alignment);
tried rattle_realloc(void *old, size_t kept, size_t size, size_t alignment);
void rattle_dealloc(void *block);

void *__real_malloc(size_t);
void *__real_realloc(void *, size_t);

/* Volatile, since the compiler assumes that malloc writes no variable of this file. */
static volatile int refuses;
static volatile size_t asked;

void *__wrap_malloc(size_t size)
{
    asked = size;
    return refuses ? NULL : __real_malloc(size);
}

void *__wrap_realloc(void *memory, size_t size)
{
    asked = size;
    return refuses ? NULL : __real_realloc(memory, size);
}

static int failed;

static void check(bool holds, const char *what, size_t size, size_t alignment)
{
    if (holds)
        return;
    printf("failed: %s, of size %zu and alignment %zu\n", what, size, alignment);
    failed = 1;
}

/* A block of a size becomes one of another size, and is refused in between. */
static void resize(size_t size, size_t new, size_t alignment)
{
    size_t kept = size < new ? size : new;
    tried first = rattle_alloc(size, alignment);
    check(first.ok && first.at != NULL && (uintptr_t)first.at % alignment == 0, "a block", size, alignment);
    check(asked == (size != 0 ? size : alignment), "as much as is asked for", size, alignment);
    memset(first.at, 0x5a, size);
    refuses = 1;
    tried none = rattle_realloc(first.at, kept, new, alignment);
    check(!none.ok && none.at != NULL, "a refused realloc", new, alignment);
    none = rattle_alloc(new, alignment);
    check(!none.ok && none.at != NULL, "a refused block", new, alignment);
    refuses = 0;
    tried second = rattle_realloc(first.at, kept, new, alignment);
    check(second.ok && second.at != NULL && (uintptr_t)second.at % alignment == 0, "another size", new, alignment);
    check(asked == (new != 0 ? new : alignment), "as much as is asked for then", new, alignment);
    for (size_t i = 0; second.ok && i < kept; i++)
        check(second.at[i] == 0x5a, "the bytes as they were", new, alignment);
    rattle_dealloc(second.at);
}

int main(void)
{
    for (size_t alignment = 1; alignment <= 16; alignment *= 2)
        for (size_t size = 0; size <= 5; size++)
            for (size_t new = 0; new <= 5; new++) {
                resize(size * alignment, new * alignment, alignment);
                resize(size * 10000 * alignment, new * alignment, alignment);
            }
    return failed;
}
