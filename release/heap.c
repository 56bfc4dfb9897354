/* The heap that the archive asks for, over malloc, for machines for which the kit has none.
 *
 * A call gives a pair: whether there is a block, and where. A size of 0 asks for one byte or more all the same, since
 * malloc may give none for it. malloc aligns to 16 bytes, and nothing here asks for more. */
#include <stddef.h>
#include <stdlib.h>

struct block {
    size_t given;
    void *at;
};

static unsigned char nothing;

static struct block block(void *at)
{
    struct block block = {at != NULL, at ? at : &nothing};
    return block;
}

struct block rattle_alloc(size_t size, size_t align)
{
    return block(malloc(size ? size : align));
}

struct block rattle_realloc(void *at, size_t old, size_t size, size_t align)
{
    (void)old;
    return block(realloc(at, size ? size : align));
}

void rattle_dealloc(void *at)
{
    free(at);
}
