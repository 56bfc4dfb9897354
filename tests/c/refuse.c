/* Loaded before the C library by LD_PRELOAD, refuses one allocation: the one with the number
   REFUSED, counted from 1. With COUNTED set it writes to standard error, at the end, how many there
   were, and how many of them had TELLING bytes. */
#include <stdio.h>
#include <stdlib.h>

void *__libc_malloc(size_t size);
void *__libc_realloc(void *block, size_t size);

/* as in crates/growths/src/judgings.rt */
enum { TELLING = 7919 };

static unsigned long grown, telling, refused;

__attribute__((constructor)) static void begin(void)
{
    const char *number = getenv("REFUSED");
    refused = number ? strtoul(number, NULL, 10) : 0;
    grown = 0;
}

__attribute__((destructor)) static void end(void)
{
    if (getenv("COUNTED"))
        dprintf(2, "%lu telling of %lu grown\n", telling, grown);
}

void *malloc(size_t size)
{
    telling += size == TELLING;
    return ++grown == refused ? NULL : __libc_malloc(size);
}

void *realloc(void *block, size_t size)
{
    return ++grown == refused ? NULL : __libc_realloc(block, size);
}
