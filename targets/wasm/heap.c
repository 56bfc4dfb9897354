/* The heap of the library as WebAssembly: free blocks in lists by their size, over a memory that
 * grows.
 *
 * The sizes are 32, 48, 64, 96, 128 and so on. Before each block stand 16 bytes with the number of
 * its list. A block that is given back is kept for the next one of its size, or of down to a quarter
 * of it, and isn't joined to others: memory that was used before is there already, and the rest only
 * when it is first touched, which takes longer than to fill it. */
typedef __SIZE_TYPE__ size_t;
typedef __UINT64_TYPE__ uint64_t;
typedef __UINTPTR_TYPE__ uintptr_t;

enum {
    HEAD = 16,       /* bytes before a block, and what each block is aligned to */
    LEAST_LOG = 5,   /* the least block has two to the power of this many bytes */
    MOST_LOG = 40,   /* none is asked for with more than two to this power: no memory has as much */
    LISTS = 2 * (MOST_LOG - LEAST_LOG) + 1,
    NEAR = 4,        /* how many lists further the blocks have four times the size */
    PAGE = 65536
};

/* How a call answers: whether there is a block, and where. */
struct block {
    size_t given;
    void *at;
};

/* Set by the linker, where the rest of the memory begins. */
extern unsigned char __heap_base;

static void *lists[LISTS];
static uintptr_t unused, end;
static unsigned char nothing[HEAD];

static size_t size_of(uint64_t list)
{
    return (list % 2 ? (size_t)3 << (LEAST_LOG - 1) : (size_t)1 << LEAST_LOG) << list / 2;
}

/* The first list whose blocks have that many bytes: at most two to the power of MOST_LOG. */
static uint64_t list_for(size_t bytes)
{
    if (bytes <= size_of(0))
        return 0;
    uint64_t log = 63 - (uint64_t)__builtin_clzll(bytes - 1);
    uint64_t list = 2 * (log - LEAST_LOG) + 1;
    return size_of(list) < bytes ? list + 1 : list;
}

static uint64_t *head_of(void *block)
{
    return (uint64_t *)((unsigned char *)block - HEAD);
}

/* Makes room for that many bytes at the end of memory. */
static int grow(size_t bytes)
{
    if (!end) {
        unused = ((uintptr_t)&__heap_base + HEAD - 1) / HEAD * HEAD;
        end = (uintptr_t)__builtin_wasm_memory_size(0) * PAGE;
    }
    if (end - unused >= bytes)
        return 1;
    size_t pages = (bytes - (end - unused) + PAGE - 1) / PAGE;
    /* refused: -1, of which a memory that binaryen made one of 32 bits has only the low half */
    if ((unsigned)__builtin_wasm_memory_grow(0, pages) == ~0u)
        return 0;
    end += pages * PAGE;
    return 1;
}

static void *take(size_t bytes)
{
    if (bytes > (size_t)1 << MOST_LOG)
        return 0;
    uint64_t list = list_for(bytes);
    for (uint64_t near = list; near <= list + NEAR && near < LISTS; near++) {
        void *block = lists[near];
        if (block) {
            lists[near] = *(void **)block;
            return block;
        }
    }
    if (!grow(HEAD + size_of(list)))
        return 0;
    void *block = (void *)(unused + HEAD);
    unused += HEAD + size_of(list);
    *head_of(block) = list;
    return block;
}

static void give_back(void *block)
{
    uint64_t list = *head_of(block);
    *(void **)block = lists[list];
    lists[list] = block;
}

/* For what calls the library: a block of that many bytes, or NULL. */
void *vicinity_allocate(size_t bytes)
{
    return take(bytes);
}

void vicinity_free(void *block)
{
    give_back(block);
}

/* For the library itself. */
struct block rattle_alloc(size_t bytes, size_t align)
{
    void *block = align > HEAD ? 0 : take(bytes);
    return (struct block){block != 0, block ? block : nothing};
}

struct block rattle_realloc(void *block, size_t old, size_t bytes, size_t align)
{
    size_t room = size_of(*head_of(block));
    if (bytes <= room && bytes >= room / 4)
        return (struct block){1, block};
    struct block made = rattle_alloc(bytes, align);
    if (made.given) {
        __builtin_memcpy(made.at, block, old < bytes ? old : bytes);
        give_back(block);
    }
    return made;
}

void rattle_dealloc(void *block)
{
    give_back(block);
}

/* clang's own attribute would bring a table of 64 bits, which older engines refuse. */
__asm__(".export_name vicinity_allocate, vicinity_allocate\n"
        ".export_name vicinity_free, vicinity_free");
