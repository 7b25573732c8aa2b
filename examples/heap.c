/* The memory that libtxgraph_c.a asks for, from malloc. Put your own allocator here: the three functions take from one heap, and a block is
 * aligned to each power of two up to 16 that divides its size. */
#include <stdbool.h>
#include <stddef.h>
#include <stdlib.h>

/* whether there is memory, and where */
typedef struct { bool found; void *at; } tried;

static char nowhere;

tried rattle_alloc(size_t size, size_t align) {
    void *at = malloc(size ? size : align);
    return (tried){at != NULL, at ? at : &nowhere};
}

tried rattle_realloc(void *from, size_t old, size_t size, size_t align) {
    (void)old;
    void *at = realloc(from, size ? size : align);
    return (tried){at != NULL, at ? at : &nowhere};
}

void rattle_dealloc(void *at, size_t size, size_t align) {
    (void)size, (void)align;
    free(at);
}
