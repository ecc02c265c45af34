/* Preloaded into a process, it tells on standard error the most bytes that malloc had out at once. */
#include <errno.h>
#include <malloc.h>
#include <stdio.h>

extern void *__libc_malloc(size_t), *__libc_calloc(size_t, size_t), *__libc_realloc(void *, size_t);
extern void *__libc_memalign(size_t, size_t), __libc_free(void *);

static size_t live, peak;

static void *taken(void *block) {
    live += malloc_usable_size(block);
    if (live > peak)
        peak = live;
    return block;
}

void *malloc(size_t size) { return taken(__libc_malloc(size)); }

void *calloc(size_t count, size_t size) { return taken(__libc_calloc(count, size)); }

void *realloc(void *block, size_t size) {
    size_t before = malloc_usable_size(block);
    void *moved = __libc_realloc(block, size);
    if (moved || !size)
        live -= before;
    return moved ? taken(moved) : NULL;
}

void *aligned_alloc(size_t alignment, size_t size) { return taken(__libc_memalign(alignment, size)); }

int posix_memalign(void **block, size_t alignment, size_t size) {
    *block = taken(__libc_memalign(alignment, size));
    return *block ? 0 : ENOMEM;
}

void free(void *block) {
    live -= malloc_usable_size(block);
    __libc_free(block);
}

__attribute__((destructor)) static void tell(void) { fprintf(stderr, "%zu\n", peak); }
