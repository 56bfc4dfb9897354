/* The heap of targets/wasm/heap.c, which counts what the library allocates, and refuses the
 * allocation with one number. */
#define rattle_alloc plain_alloc
#define rattle_realloc plain_realloc
#define rattle_dealloc plain_dealloc
#include "../../targets/wasm/heap.c"
#undef rattle_alloc
#undef rattle_realloc
#undef rattle_dealloc

static unsigned grown, refused, held;

/* Refuses the allocation with this number from now on, counted from 1; none if it is 0. */
void test_refuse(unsigned number)
{
    grown = 0;
    refused = number;
}

/* How many allocations there were since then. */
unsigned test_grown(void)
{
    return grown;
}

/* How many blocks the library holds. */
unsigned test_held(void)
{
    return held;
}

struct block rattle_alloc(size_t bytes, size_t align)
{
    struct block block = {0, nothing};
    if (++grown != refused)
        block = plain_alloc(bytes, align);
    held += block.given != 0;
    return block;
}

struct block rattle_realloc(void *at, size_t old, size_t bytes, size_t align)
{
    struct block block = {0, nothing};
    return ++grown == refused ? block : plain_realloc(at, old, bytes, align);
}

void rattle_dealloc(void *at)
{
    held--;
    plain_dealloc(at);
}

__asm__(".export_name test_refuse, test_refuse\n"
        ".export_name test_grown, test_grown\n"
        ".export_name test_held, test_held");
