/* Loaded before the C library by LD_PRELOAD, makes a program read and write one byte per call. The
   read with the number READ and the write with the number WRITE, counted from 1, fail; with STUCK
   set that write accepts nothing instead. */
#define _GNU_SOURCE
#include <errno.h>
#include <stdlib.h>
#include <sys/syscall.h>
#include <unistd.h>

static unsigned long reads, writes, failing_read, failing_write;

static unsigned long number_of(const char *name)
{
    const char *number = getenv(name);
    return number ? strtoul(number, NULL, 10) : 0;
}

__attribute__((constructor)) static void begin(void)
{
    failing_read = number_of("READ");
    failing_write = number_of("WRITE");
}

ssize_t read(int file, void *bytes, size_t count)
{
    if (++reads == failing_read) {
        errno = EIO;
        return -1;
    }
    return syscall(SYS_read, file, bytes, count < 1 ? count : 1);
}

ssize_t write(int file, const void *bytes, size_t count)
{
    if (file == STDOUT_FILENO && ++writes == failing_write) {
        errno = EIO;
        return getenv("STUCK") ? 0 : -1;
    }
    return syscall(SYS_write, file, bytes, count < 1 ? count : 1);
}
