/* Reads a log for the tests in C. */
#include <stdint.h>
#include <stdio.h>

enum { ROOM = 1 << 16, NO_LOG = ROOM + 1 };

/* How many bytes a file has, which are put at the start of `text`; NO_LOG if it can't be opened. */
static size_t read_log(const char *name, uint8_t text[ROOM])
{
    FILE *file = fopen(name, "rb");
    if (!file)
        return NO_LOG;
    size_t len = fread(text, 1, ROOM, file);
    fclose(file);
    return len;
}
